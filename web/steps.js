// Round steps of axes.
const STEPS = [1, 2, 5, 10, 20, 50, 100, 200, 500, 1000, 2000, 5000, 10000, 15000, 30000, 60000, 120000, 300000, 600000, 1200000, 1800000,
  3600000, 7200000, 10800000, 21600000, 43200000, 86400000];

// A step of round numbers, of which a range has at most `most`
export function roundStep(range, most) {
  let step = 10 ** Math.floor(Math.log10(Math.max(range, 1e-9) / most));
  for (const factor of [1, 2, 5, 10]) if (range / (step * factor) <= most) { step *= factor; break; }
  return Math.max(1, step);
}

// A round length of time in milliseconds, of which a range has at most `most`.
export const roundTime = (range, most) => STEPS.find(step => range / step <= most) ?? roundStep(range / 86400000, most) * 86400000;

// Texts at places of a line, from left to right: [x, text]. One that would lie over the one before is counted there, as `W +2`.
export function merged(texts, pen) {
  const found = [];
  for (const [x, text] of texts.toSorted((a, b) => a[0] - b[0])) {
    const last = found.at(-1);
    if (!last || x > last.x + pen.measureText(last.text).width + 4) found.push({ x, text, first: text, more: 0 });
    else last.text = `${last.first} +${++last.more}`;
  }
  return found;
}
