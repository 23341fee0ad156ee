// A run: the program is called over the texts, and what it has written is kept as columns. Every value is one that the program wrote.
import { rowsOf, sampledLog, bytesText } from "./log.js";
import { readPlate } from "./plate.js";
import { unitsOf } from "./messages.js";
import { weightText } from "./elements.js";
import { meaningOf, requestsIn } from "./answers.js";

const NOTHING = "PROGRAM NOTHING\nEND_PROGRAM\n";
const INPUTS = Array.from({ length: 16 }, (_, bit) => `%IX0.${bit}`);
const STATUS = Array.from({ length: 6 }, (_, bit) => `%IX1.${bit}`);
export const STATUS_NAMES = ["stable", "over", "under", "centre of zero", "tare active", "valid"];
export const WEIGHTS = { gross: "%ID0", net: "%ID1", tare: "%ID2" };
const IMAGE = [...Object.values(WEIGHTS), ...INPUTS, ...STATUS];
// the most numbers that are kept of a run, and the most rows whose samples are shown between scans
const MOST_CELLS = 24e6, MOST_SAMPLED = 400000;

// The variables of a program text, as the program names them: { name, type }, those of a standard block with its fields.
export async function variablesOf(caller, text, fields) {
  const answer = await caller.call(["check", "--next", "program.il", "nothing.il"], { "program.il": text, "nothing.il": NOTHING });
  const rows = answer.output.split("\n").filter(line => line.startsWith("first ")).map(line => line.split(" "));
  return rows.flatMap(([, name, type]) => fields[type] ? fields[type].map(([field, , kind]) => ({ name: `${name}.${field}`, type: kind })) : [{ name, type }]);
}

export class Run {
  // what is shown of a run: its scans by number from 0
  constructor(texts) { this.texts = texts; this.traces = new Map(); this.origin = "run"; }

  get count() { return this.own?.ms.length ?? 0; }
  get hasNext() { return Boolean(this.texts.next.trim()); }
  ms(index) { return this.own.ms[index]; }

  // whether a scan is of the next program
  programOf(index) { return index >= this.changedAt ? 2 : 1; }
  bound(index) { return this.bounds[this.programOf(index) - 1] ?? this.bounds[0]; }
  textOf(index) { return this.programOf(index) === 2 ? this.texts.next : this.texts.program; }

  // The number that a name has after a scan; NaN if it has none.
  value(name, index) {
    const key = WEIGHTS[name] ?? name, bit = /^%QX0\.(\d+)$/.exec(key);
    if (bit) return this.own.bits[index] >> Number(bit[1]) & 1;
    if (/^%QD\d$/.test(key)) return this.own[key.slice(1)][index];
    return this.columns[key]?.[index] ?? NaN;
  }

  typeOf(name) {
    if (/^%[IQ]X/.test(name)) return "BOOL";
    return this.types.get(name) ?? "DINT";
  }

  // A value as the language writes it; a weight with its unit.
  text(name, value) {
    if (Number.isNaN(value)) return "";
    if (WEIGHTS[name]) return this.weight(value);
    const type = this.typeOf(name);
    return type === "BOOL" ? value ? "TRUE" : "FALSE" : type === "TIME" ? `T#${value}ms` : String(value);
  }

  weight(value) { return this.plate ? `${weightText(value, this.plate.decimals)} ${this.plate.unit}` : String(value); }

  // The last scan at or before a moment; the first if there is none.
  scanAt(ms) {
    let low = 0, high = this.count;
    while (low < high) { const middle = low + high >> 1; if (this.own.ms[middle] <= ms) low = middle + 1; else high = middle; }
    return Math.max(0, low - 1);
  }

  // All names that can be found, watched or drawn.
  get names() {
    const outputs = [...Array.from({ length: 16 }, (_, bit) => `%QX0.${bit}`), "%QD0", "%QD1", "%QD2", "%QD3"];
    return [...Object.keys(WEIGHTS), ...this.variables.map(it => it.name), ...INPUTS, ...STATUS, ...outputs];
  }

  // The name as the run spells it, for any letter case, an address with or without its % or X, or a caption; null if it has none.
  nameOf(text) {
    const wanted = text.trim().toUpperCase().replace(/\s+/g, " "), address = wanted.replace(/^%?/, "%").replace(/^%([IQ])(?=\d)/, "%$1X");
    const status = STATUS_NAMES.findIndex(label => label.toUpperCase() === wanted), weight = Object.keys(WEIGHTS).find(name => WEIGHTS[name] === address);
    return this.names.find(name => name.toUpperCase() === wanted) ?? STATUS[status] ?? weight ?? this.names.find(name => name === address) ?? null;
  }

  // Names and captions that are nearest to one that the run does not have, if any is near.
  near(text) {
    const typed = text.trim().toUpperCase(), most = Math.max(1, Math.floor(typed.length / 3));
    const scored = [...this.names, ...STATUS_NAMES].map(name => ({ name, far: name.toUpperCase().includes(typed) ? 1 : lettersBetween(typed, name.toUpperCase()) }));
    const least = scored.reduce((far, it) => Math.min(far, it.far), most);
    return scored.filter(it => it.far === least).slice(0, 3).map(it => it.name);
  }

  isFlat(name) {
    const first = this.value(name, 0);
    for (let index = 1; index < this.count; index++) if (!Object.is(this.value(name, index), first)) return false;
    return true;
  }
}

// The letters to insert, leave out or change in one text so that it becomes another.
function lettersBetween(one, other) {
  let row = Array.from({ length: other.length + 1 }, (_, at) => at);
  for (const letter of one) {
    const next = [row[0] + 1];
    for (let at = 1; at < row.length; at++) next.push(Math.min(row[at] + 1, next[at - 1] + 1, row[at - 1] + (letter !== other[at - 1])));
    row = next;
  }
  return row.at(-1);
}

const filesOf = texts => ({ "plate.toml": texts.plate, "program.il": texts.program, "log.csv": texts.log, ...(texts.next.trim() ? { "next.il": texts.next } : {}) });
export const runWords = texts => ["--plate", "plate.toml", "--program", "program.il", ...(texts.next.trim() ? ["--next", "next.il"] : []), "--log", "log.csv"];

// Runs the texts. Gives a Run; its `messages` say why it ended, if it was refused.
export async function makeRun(caller, texts, fields) {
  const run = new Run(texts);
  run.plate = readPlate(texts.plate);
  run.rows = rowsOf(texts.log);
  await nameVariables(caller, run, fields);
  const scans = run.rows.reduce((sum, row) => sum + (row.kind === "S"), 0), most = Math.floor(MOST_CELLS / Math.max(1, scans));
  run.leftOut = Math.max(0, IMAGE.length + run.variables.length - Math.max(most, IMAGE.length));
  run.variables = run.variables.slice(0, run.variables.length - run.leftOut);
  const names = [...IMAGE, ...run.variables.map(it => it.name)];
  const answer = await caller.call(["run", "--message", "json", ...runWords(texts), "--watch", names.join(",")], filesOf(texts), { reader: "columns", more: { names } });
  run.status = answer.status;
  run.messages = answer.messages;
  run.errors = answer.messages.length ? "" : answer.errors.trim();
  Object.assign(run, answer.read);
  run.changedAt = changeOf(run);
  await readHost(caller, run);
  await readSamples(caller, run, texts);
  return run;
}

async function nameVariables(caller, run, fields) {
  const { texts } = run, found = new Map();
  run.types = new Map();
  run.bounds = [];
  run.programs = [];
  for (const text of [texts.program, ...(run.hasNext ? [texts.next] : [])]) {
    for (const variable of await variablesOf(caller, text, fields)) if (!found.has(variable.name)) found.set(variable.name, variable);
    const checked = await caller.call(["check", "program.il"], { "program.il": text });
    const unit = unitsOf(checked.output).at(-1);
    run.bounds.push(unit?.cost ?? 0);
    run.programs.push(unit?.name ?? "");
  }
  run.variables = [...found.values()];
  for (const { name, type } of run.variables) run.types.set(name, type);
}

// the number of the first scan after the row that changes the program
function changeOf(run) {
  const place = run.rows.findIndex(row => row.kind === "P");
  if (place < 0 || !run.hasNext) return Infinity;
  return run.rows.slice(0, place).filter(row => row.kind === "S").length;
}

// What the host sent, and what it was answered, in the program's words.
async function readHost(caller, run) {
  const decoded = run.answers.length ? (await caller.call(["decode"], {}, { input: run.answers.join("\n") + "\n" })).output.split("\n") : [];
  const answers = new Map();
  let at = 0;
  for (const line of run.answers) {
    const [, ms, hex] = line.split(" "), count = (hex.match(/../g) ?? []).filter(pair => pair === "0d").length;
    const texts = decoded.slice(at, at += count).map(text => text.replace(/^L \d+ +/, ""));
    answers.set(Number(ms), [...answers.get(Number(ms)) ?? [], ...texts]);
  }
  run.host = [];
  // rows of one moment are shown as one
  for (const { ms, data } of run.rows.filter(row => row.kind === "L")) {
    const last = run.host.at(-1), sent = bytesText(data.toLowerCase()), requests = requestsIn(data.toLowerCase());
    if (last?.ms === ms) { last.sent += ` ${sent}`; last.requests.push(...requests); }
    else run.host.push({ ms, sent, requests, answers: answers.get(ms) ?? [] });
  }
  for (const it of run.host) it.meanings = it.answers.map((answer, at) => meaningOf(it.requests.length === it.answers.length ? it.requests[at] : "", answer));
}

// The indication after each sample and each request: the same log with a scan after each, and a program that does nothing.
async function readSamples(caller, run, texts) {
  run.samples = null;
  const rows = run.rows.filter(row => row.kind === "C" || row.kind === "L");
  if (!rows.length || rows.length > MOST_SAMPLED) return;
  const names = [...Object.values(WEIGHTS), ...STATUS];
  const files = { "plate.toml": texts.plate, "program.il": NOTHING, "log.csv": sampledLog(rows) };
  const words = ["run", "--plate", "plate.toml", "--program", "program.il", "--log", "log.csv", "--watch", names.join(",")];
  const { read } = await caller.call(words, files, { reader: "columns", more: { names } });
  run.samples = { ms: read.own.ms, ...read.columns };
}

// The scan line by line, as the program traces it.
export async function traceOf(caller, run, index) {
  if (run.traces.has(index)) return run.traces.get(index);
  const words = ["trace", "--message", "json", ...runWords(run.texts), "--scan", String(index + 1)];
  const line = (await caller.call(words, filesOf(run.texts))).output.split("\n")[0];
  const trace = line.startsWith('{"scan":') ? JSON.parse(line) : null;
  if (run.traces.size > 300) run.traces.delete(run.traces.keys().next().value);
  if (trace) run.traces.set(index, trace);
  return trace;
}

// For each line of a text the scans in which it ran: a trace of all scans is read once.
export async function linesOf(caller, run) {
  if (!run.lineIndex) {
    const words = ["trace", "--message", "json", ...runWords(run.texts)];
    run.lineIndex = (await caller.call(words, filesOf(run.texts), { reader: "lines" })).read;
  }
  return run.lineIndex;
}

export const otherOutput = (caller, texts, words, input) => caller.call([...words, ...runWords(texts)], filesOf(texts), { input });
