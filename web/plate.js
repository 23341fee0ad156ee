// The plate as a form. The program says whether a plate is right; this reads the seven keys as they are mostly written, and knows the table of
// docs/INSTRUMENT.md (1) of what each unit allows.

export const PLATE_KEYS = ["unit", "decimals", "max", "e", "zero_counts", "span_counts", "window"];

// The interval has at least 5 g: e * grams >= 5 * 10^decimals; 10, 20 and 50 go with 0 and 3 decimals.
const GRAMS = { g: 1, kg: 1000, t: 1000000 };
export const UNITS = Object.keys(GRAMS);
export const LEAST_INTERVALS = 500, MOST_INTERVALS = 10000;

export const allowedIntervals = (unit, decimals) =>
  [1, 2, 5, 10, 20, 50].filter(e => e * GRAMS[unit] >= 5 * 10 ** decimals && (e < 10 || decimals === 0 || decimals === 3) && (unit !== "g" || decimals === 0));

export const allowedDecimals = unit => [0, 1, 2, 3].filter(decimals => allowedIntervals(unit, decimals).length);

const LINE = /^\s*(?:#.*)?$|^\s*"?(\w+)"?\s*=\s*(?:"(\w+)"|'(\w+)'|([+-]?\d+(?:_\d+)*))\s*(?:#.*)?$/;

// The values of a plate's text, or null if it is written in another way than key = value.
export function readPlate(text) {
  const found = {};
  for (const line of text.replace(/^\ufeff/, "").split(/\r?\n/)) {
    const row = LINE.exec(line);
    if (!row) return null;
    const [, key, string, other, number] = row;
    if (key) found[key] = number === undefined ? string ?? other : Number(number.replaceAll("_", ""));
  }
  return PLATE_KEYS.every(key => found[key] !== undefined) && GRAMS[found.unit] ? found : null;
}

export const plateText = values => PLATE_KEYS.map(key => `${key} = ${key === "unit" ? `"${values[key]}"` : values[key]}\n`).join("");

// A plate's text with one value changed where it is, so that its comments stay.
export function withValue(text, key, value) {
  const written = key === "unit" ? `"${value}"` : String(value);
  return text.replace(new RegExp(`^(\\s*"?${key}"?\\s*=\\s*)("\\w*"|'\\w*'|[+-]?[\\d_]+)`, "m"), (_, before) => before + written);
}
