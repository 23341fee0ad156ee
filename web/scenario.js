// A scenario becomes a log: docs/LOG.md (6) has its lines. tools/make_log does the same without the page, byte for byte.
import { HEADING } from "./log.js";

export const MASS = { g: 1n, kg: 1000n, t: 1000000n };
const MILLISECONDS = { ms: 1, s: 1000, min: 60000 };
const LEAST_COUNTS = -8388608n, MOST_COUNTS = 8388607n;
const MOST_ROWS = 999999, MOST_TIME = 1099511627775;
// of weights and times: digits after the point
const PLACES = 12;
const FACTOR = 48271, MODULUS = 2147483647;

export class Mistake extends Error {
  constructor(line, sentence) { super(`line ${line}: ${sentence}`); this.line = line; this.sentence = sentence; }
}

// A decimal number as a whole number of 10^-12.
export function decimal(text) {
  const found = /^(-?)(\d{1,12})(?:\.(\d{1,9}))?$/.exec(text);
  if (!found) throw `\`${text}\` is not a number${/^-?\d+,\d+$/.test(text) ? `: write a point, \`${text.replace(",", ".")}\`` : ""}`;
  const value = BigInt(found[2] + (found[3] ?? "").padEnd(PLACES, "0"));
  return found[1] ? -value : value;
}

// Takes the words of a line from the left.
class Words {
  constructor(text) { this.words = text.split(/[ \t]+/).filter(Boolean); }

  get next() { return this.words[0]; }
  get isEmpty() { return this.words.length === 0; }

  word(...expected) {
    const found = this.words.shift();
    if (!expected.includes(found)) throw `expected \`${expected.join("` or `")}\`, not ${found === undefined ? "the end of the line" : `\`${found}\``}`;
    return found;
  }

  amount() {
    const found = this.words.shift();
    if (found === undefined) throw "expected a number";
    return decimal(found);
  }

  unit(units) { return units[this.word(...Object.keys(units))]; }

  milliseconds(amount, unit) {
    const scaled = amount * BigInt(unit), one = 10n ** BigInt(PLACES);
    if (scaled % one) throw "a time is a whole number of milliseconds";
    const found = Number(scaled / one);
    if (found < 0 || found > MOST_TIME) throw "the time is out of range";
    return found;
  }

  time() { return this.milliseconds(this.amount(), this.unit(MILLISECONDS)); }

  period() {
    const found = this.time();
    if (!found) throw "a period has at least 1 ms";
    return found;
  }

  // two amounts, of which the first may leave out its unit
  pair(units) {
    const first = this.amount();
    const given = this.next in units ? this.unit(units) : null;
    this.word("to");
    const second = this.amount(), unit = this.unit(units);
    return [[first, given ?? unit], [second, unit]];
  }

  span() {
    const [from, to] = this.pair(MILLISECONDS).map(([amount, unit]) => this.milliseconds(amount, unit));
    if (to <= from) throw "the end is not after the beginning";
    return [from, to];
  }

  // in 10^-12 g
  weight() { return this.amount() * this.unit(MASS); }
  weights() { return this.pair(MASS).map(([amount, unit]) => amount * unit); }

  number(least, most) {
    const found = this.words.shift();
    if (!/^\d{1,10}$/.test(found ?? "") || Number(found) < least || Number(found) > most) throw `expected a number from ${least} to ${most}`;
    return Number(found);
  }

  texts() {
    if (this.isEmpty) throw "expected a request, such as W";
    const found = [];
    while (!this.isEmpty && this.next !== "every") found.push(this.words.shift());
    if (found.some(text => !/^[!-~]{1,64}$/.test(text))) throw "a request has printable characters of ASCII";
    return found;
  }
}

// What the lines of a scenario say. Raises a Mistake.
export function readScenario(text) {
  const made = { samples: 10, scans: 20, noise: 0n, seed: 1, until: null, segments: [], inputs: [], requests: [], changes: [] };
  text.split(/\r?\n/).forEach((row, at) => {
    const words = new Words(row.replace(/#.*/, ""));
    if (words.isEmpty) return;
    try {
      readLine(made, words, at + 1);
      if (!words.isEmpty) throw `\`${words.next}\` is more than a line has`;
    } catch (sentence) {
      if (typeof sentence !== "string") throw sentence;
      throw new Mistake(at + 1, sentence);
    }
  });
  return made;
}

function readLine(made, words, line) {
  const first = words.word("samples", "scans", "noise", "until", "at", "from");
  if (first === "samples" || first === "scans") { words.word("every"); made[first] = words.period(); }
  else if (first === "noise") readNoise(made, words);
  else if (first === "until") made.until = words.time();
  else if (first === "at") readMoment(made, words, line);
  else readSpan(made, words, line);
}

function readNoise(made, words) {
  made.noise = words.weight();
  if (made.noise < 0n) throw "noise is not negative";
  if (words.isEmpty) return;
  words.word("seed");
  made.seed = words.number(1, MODULUS - 1);
}

function readMoment(made, words, line) {
  const at = words.time();
  const kind = words.word("weight", "input", "request", "next");
  if (kind === "weight") { const weight = words.weight(); made.segments.push({ from: at, to: at, first: weight, last: weight, line }); }
  else if (kind === "input") made.inputs.push({ at, bit: words.number(0, 15), on: words.word("on", "off") === "on", line });
  else if (kind === "request") made.requests.push({ at, texts: words.texts(), line });
  else { words.word("program"); made.changes.push({ at, line }); }
}

function readSpan(made, words, line) {
  const [from, to] = words.span();
  const kind = words.word("weight", "input", "request");
  if (kind === "weight") { words.word("from"); const [first, last] = words.weights(); made.segments.push({ from, to, first, last, line }); }
  else if (kind === "input") {
    const bit = words.number(0, 15);
    words.word("on");
    made.inputs.push({ at: from, bit, on: true, line }, { at: to, bit, on: false, line });
  } else {
    const texts = words.texts();
    words.word("every");
    const period = words.period();
    if ((to - from) / period > MOST_ROWS) throw "the log has more rows than a log may have";
    for (let at = from; at <= to; at += period) made.requests.push({ at, texts, line });
  }
}

// The last moment that a line names but the one of its end; 0 if there is none.
function lastNamed(made) {
  const named = [...made.segments.map(segment => segment.to), ...[...made.inputs, ...made.requests, ...made.changes].map(event => event.at)];
  return named.reduce((most, at) => Math.max(most, at), 0);
}

// The last moment of the scenario: the one it names, or a second after the last that is named.
export const endOf = made => made.until ?? lastNamed(made) + 1000;

// A second at which nothing begins yet, within the scenario: 1 if there is none, or if the scenario has a mistake.
export function freeSecond(text) {
  let made;
  try { made = readScenario(text); } catch { return 1; }
  const next = Math.ceil(lastNamed(made) / 1000) || 1;
  return made.until !== null && next * 1000 >= made.until ? 1 : next;
}

// What is likely a mistake: lines that begin after the end, and weights within a slope that another line began. Each line is named once.
export function remarksOf(made) {
  const { until } = made, events = [...made.segments.map(it => ({ ...it, at: it.from })), ...made.inputs, ...made.requests, ...made.changes];
  const late = until === null ? [] : events.filter(it => it.at > until).map(({ line }) => ({ line, sentence: `begins after the end, which is at ${until} ms: it is left out` }));
  const within = inTime(made.segments).flatMap((it, place, all) => place && all[place - 1].to > it.from && all[place - 1].from < it.from
    ? [{ line: it.line, sentence: `begins within the slope of line ${all[place - 1].line}, which goes no further` }] : []);
  const found = new Map();
  for (const remark of [...late, ...within]) if (!found.has(remark.line)) found.set(remark.line, remark);
  return [...found.values()].sort((a, b) => a.line - b.line);
}

const inTime = segments => inOrder(segments.map(segment => ({ ...segment, at: segment.from })));
const inOrder = events => events.map((event, place) => [event, place]).sort(([a, i], [b, j]) => a.at - b.at || i - j).map(([event]) => event);

// Counts of a weight in 10^-12 g over a divisor; a tie goes away from zero.
function countsOf(plate, weight, divisor) {
  const size = MASS[plate.unit] * 10n ** BigInt(PLACES - plate.decimals) * BigInt(plate.max) * divisor;
  const twice = 2n * (weight < 0n ? -weight : weight) * BigInt(plate.span_counts);
  const counts = (twice + size) / (2n * size);
  return weight < 0n ? -counts : counts;
}

// The weight at a moment, as parts of 10^-12 g and a divisor: that of the segment that began last.
function weightAt(segments, at) {
  const segment = segments.findLast(it => it.from <= at);
  if (!segment) return [0n, 1n];
  if (at >= segment.to) return [segment.last, 1n];
  const length = BigInt(segment.to - segment.from);
  return [segment.first * length + (segment.last - segment.first) * BigInt(at - segment.from), length];
}

// A weight in 10^-12 g as a number of a unit, with up to nine digits after the point.
function amountText(weight, unit) {
  const digits = String((weight < 0n ? -weight : weight) / MASS[unit] / 1000n).padStart(10, "0");
  return `${weight < 0n ? "-" : ""}${digits.slice(0, -9)}.${digits.slice(-9)}`.replace(/\.?0+$/, "");
}

// The slope that is under way at a moment; none if the weight holds there, or another begins.
export function slopeAt(made, at) {
  const segment = inTime(made.segments).findLast(it => it.from <= at);
  return segment && segment.from < at && segment.to > at ? segment : null;
}

// The line with which a slope goes on from a moment.
export function restOf(slope, at, unit) {
  const [parts, divisor] = weightAt([slope], at);
  return `from ${at} to ${slope.to} ms weight from ${amountText(parts / divisor, unit)} to ${amountText(slope.last, unit)} ${unit}`;
}

// The curve of the weight in units of the plate, for drawing: [ms, weight].
export function weightPoints(made, plate) {
  const unit = Number(MASS[plate.unit]) * 10 ** PLACES, segments = inTime(made.segments), end = endOf(made);
  const points = [[0, 0]], last = () => points[points.length - 1][1];
  segments.forEach((segment, place) => {
    const stop = Math.min(segments[place + 1]?.from ?? end, end);
    const first = Number(segment.first) / unit, length = segment.to - segment.from;
    points.push([segment.from, last()], [segment.from, first]);
    if (!length) return;
    const until = Math.min(segment.to, stop);
    points.push([until, first + (Number(segment.last) / unit - first) * (until - segment.from) / length]);
  });
  return [...points, [end, last()]];
}

const hexOf = texts => texts.map(text => "0a" + [...text].map(letter => letter.charCodeAt(0).toString(16).padStart(2, "0")).join("") + "0d").join("");

// The log of a scenario on a plate. Raises a Mistake.
export function makeLog(text, plate) {
  const made = readScenario(text), end = endOf(made);
  if (end / made.samples + end / made.scans + made.requests.length + made.inputs.length > MOST_ROWS)
    throw new Mistake(1, "the log has more rows than a log may have");
  const rows = [...inputRows(made), ...sampleRows(made, plate, end)];
  for (const { at, texts } of made.requests) rows.push({ at, rank: 2, text: `L,${hexOf(texts)}` });
  for (const { at } of made.changes) rows.push({ at, rank: 3, text: "P," });
  for (let at = 0; at <= end; at += made.scans) rows.push({ at, rank: 4, text: "S," });
  const ordered = rows.filter(row => row.at <= end).map((row, place) => ({ ...row, place }));
  ordered.sort((a, b) => a.at - b.at || a.rank - b.rank || a.place - b.place);
  return HEADING + ordered.map(row => `${row.at},${row.text}\n`).join("");
}

// One row for all inputs that change at a moment.
function inputRows(made) {
  const rows = [];
  let bits = 0;
  inOrder(made.inputs).forEach(({ at, bit, on }, place, all) => {
    bits = on ? bits | 1 << bit : bits & ~(1 << bit);
    if (all[place + 1]?.at !== at) rows.push({ at, rank: 0, text: `I,${bits.toString(16).padStart(4, "0")}` });
  });
  return rows;
}

function sampleRows(made, plate, end) {
  const segments = inTime(made.segments);
  const most = Number(countsOf(plate, made.noise, 1n)), rows = [];
  let chance = made.seed;
  for (let at = 0; at <= end; at += made.samples) {
    chance = chance * FACTOR % MODULUS;
    const counts = BigInt(plate.zero_counts) + countsOf(plate, ...weightAt(segments, at)) + BigInt(chance % (2 * most + 1) - most);
    rows.push({ at, rank: 1, text: `C,${counts < LEAST_COUNTS ? LEAST_COUNTS : counts > MOST_COUNTS ? MOST_COUNTS : counts}` });
  }
  return rows;
}
