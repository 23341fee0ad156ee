// A trace that `trace --message json` wrote elsewhere, opened as a run. It shows what the trace has and no more: a variable has no value
// here but in the line that wrote it, since a trace says nothing of the scans that it leaves out.
import { Run } from "./run.js";
import { readPlate } from "./plate.js";
import { unitsOf } from "./messages.js";

export const isTrace = text => /^\s*\{"scan":/.test(text) || /^\s*\{"scans":/.test(text);

class TraceRun extends Run {
  // the program of a scan is the one that the trace names
  programOf(index) { return this.scans[index].program; }
  bound(index) { return this.scans[index].bound; }
}

// The objects of a trace, the number of scans that its run had if the trace ends with it, and the sentences about what it lacks.
function objectsOf(text) {
  const scans = [], notes = [], lines = text.split("\n");
  let end = null;
  for (const [at, line] of lines.entries()) {
    if (!line.trim()) continue;
    if (line.startsWith("refused ")) { notes.push(`the run was ${line}`); end = scans.length; continue; }
    let found = null;
    try { found = JSON.parse(line); } catch { notes.push(`line ${at + 1} of the trace is cut or is not an object: the scans above it are shown`); break; }
    if (Number.isInteger(found.scans)) end = found.scans;
    else if (isScan(found)) scans.push(found);
    else { notes.push(`line ${at + 1} of the trace is not a scan: the scans above it are shown`); break; }
  }
  if (end === null) notes.push("the trace has no last line: more scans may have followed");
  else if (end > scans.length) notes.push(`${scans.length} of ${end} scans are in the trace`);
  return { scans, notes };
}

const isScan = found => ["scan", "ms", "program", "inputs", "status", "steps", "bound", "outputs"].every(name => Number.isInteger(found[name]))
  && Array.isArray(found.items) && found.items.every(item => Number.isInteger(item?.line) && Number.isInteger(item.depth)) && Array.isArray(found.weights) && Array.isArray(found.words);

const column = (scans, value) => Float64Array.from(scans, value);

// A run out of a trace, next to the texts that are in the editor. Gives the run, or a sentence if the trace has no scan.
export async function openTrace(caller, text, texts) {
  const { scans, notes } = objectsOf(text);
  if (!scans.length) return notes[0] ?? "the trace has no scan";
  const run = Object.assign(new TraceRun({ ...texts }), {
    origin: "trace", scans, rows: [], host: [], samples: null, variables: [], types: new Map(), bounds: [], leftOut: 0, messages: [], errors: "", changedAt: Infinity,
    plate: readPlate(texts.plate), numbers: scans.map(scan => scan.scan), traces: new Map(scans.map((scan, index) => [index, scan])),
  });
  run.own = { ms: column(scans, it => it.ms), steps: column(scans, it => it.steps), bits: column(scans, it => it.outputs) };
  for (let word = 0; word < 4; word++) run.own[`QD${word}`] = column(scans, it => it.words[word]);
  run.columns = {};
  for (let bit = 0; bit < 16; bit++) run.columns[`%IX0.${bit}`] = column(scans, it => it.inputs >> bit & 1);
  for (let bit = 0; bit < 6; bit++) run.columns[`%IX1.${bit}`] = column(scans, it => it.status >> bit & 1);
  for (let word = 0; word < 3; word++) run.columns[`%ID${word}`] = column(scans, it => it.weights[word]);
  run.changedAt = scans.findIndex(scan => scan.program === 2);
  if (run.changedAt < 0) run.changedAt = Infinity;
  run.lineIndex = lineIndex(scans);
  run.note = [...notes, ...await textFaults(caller, scans, texts)].join(". ");
  return run;
}

function lineIndex(scans) {
  const ran = new Map();
  scans.forEach((scan, index) => {
    for (const line of new Set(scan.items.map(item => item.line))) {
      const key = `${scan.program}:${line}`;
      if (!ran.has(key)) ran.set(key, []);
      ran.get(key).push(index);
    }
  });
  return ran;
}

// Why the trace cannot be of the texts in the editor. A trace does not name its text: another bound, a line that is not there, or a call
// at a line that has none show that it is of another one.
async function textFaults(caller, scans, texts) {
  const faults = [];
  for (const [number, text] of [[1, texts.program], [2, texts.next]]) {
    const own = scans.filter(scan => scan.program === number);
    if (!own.length) continue;
    const name = number === 1 ? "the program" : "the next program", lines = text.split("\n");
    const cost = unitsOf((await caller.call(["check", "program.il"], { "program.il": text })).output).at(-1)?.cost;
    const isOther = own.some(scan => scan.bound !== cost || scan.items.some(item => !lines[item.line - 1]?.trim() || item.call !== undefined && !/\bCAL/i.test(lines[item.line - 1])));
    faults.push(isOther ? `the trace is not of ${name} in the editor: its lines do not belong to that text` : `whether the trace is of ${name} in the editor no trace says: lines and bound agree`);
  }
  return faults;
}
