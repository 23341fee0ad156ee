// The search over the scans of a run. What is typed is a name (its next change), a comparison (the next scan in which it becomes so), a
// line's number (the next scan in which it ran), a text in quotes (the next answer of the scale that has it), or a scan or a moment itself.
import { linesOf, WEIGHTS } from "./run.js";
import { listed, timeText } from "./elements.js";
import { MASS, decimal } from "./scenario.js";

const COMPARE = {
  "=": (a, b) => a === b, "<>": (a, b) => a !== b, "<": (a, b) => a < b, ">": (a, b) => a > b, "<=": (a, b) => a <= b, ">=": (a, b) => a >= b,
};
const TRUTHS = { TRUE: 1, FALSE: 0, 1: 1, 0: 0 };
const TIME_UNITS = { MS: 1, S: 1000, MIN: 60000, M: 60000, H: 3600000, D: 86400000 };

// The milliseconds of a time as it is typed, `12.5 s` or `T#1m30s`; null if it is none.
export function timeOf(text) {
  const typed = /^(?:T(?:IME)?#)?(-?)((?:\d+(?:\.\d+)?\s*(?:MS|MIN|S|M|H|D)\s*)+)$/.exec(text.trim().toUpperCase().replaceAll(",", "."));
  if (!typed) return null;
  const parts = [...typed[2].matchAll(/([\d.]+)\s*([A-Z]+)/g)].map(([, number, unit]) => Math.round(Number(number) * TIME_UNITS[unit] * 1000) / 1000);
  return parts.reduce((sum, part) => sum + part, 0) * (typed[1] ? -1 : 1);
}

// What a text asks for; an object with the reason if it asks for nothing that the run has.
export function asked(run, text) {
  const words = text.trim();
  if (!words) return { fault: "type what to find" };
  const quoted = /^["“'](.+?)["”']?$/.exec(words);
  if (quoted) return { answer: quoted[1].toLowerCase() };
  const scan = /^scan\s+(\d+)$/i.exec(words), line = /^(?:line\s+)?(\d+)$/i.exec(words), moment = timeOf(words);
  if (scan) return scanOf(run, Number(scan[1]));
  if (line) return lineOf(run, Number(line[1]));
  if (moment !== null) return momentOf(run, moment);
  const compared = /^(.+?)\s*(<=|>=|<>|!=|==|:=|=|<|>)\s*(.+)$/.exec(words), typed = (compared ? compared[1] : words).trim(), name = run.nameOf(typed);
  if (!name) { const near = run.near(typed); return { fault: `the run has no ${typed}${near.length ? `: did you mean ${near.join(" or ")}?` : ""}` }; }
  if (!compared) return { name };
  const sign = { "!=": "<>", "==": "=", ":=": "=" }[compared[2]] ?? compared[2], value = valueOf(run, name, compared[3].trim());
  if (typeof value === "string") return { fault: value };
  if (!Number.isInteger(value) && /^(=|<>)$/.test(sign)) return { fault: `no ${name} is ${compared[3]}: the plate shows ${run.weight(1)} at least` };
  return { name, sign, value, said: `${name} ${sign} ${Number.isInteger(value) ? run.text(name, value) : compared[3]}: ` };
}

function momentOf(run, ms) {
  const first = run.ms(0), last = run.ms(run.count - 1);
  if (ms < first) return { fault: `the first scan is at ${timeText(first)}` };
  return ms > last ? { fault: `the last scan is at ${timeText(last)}` } : { index: run.scanAt(ms) };
}

function lineOf(run, line) {
  const last = Math.max(...[run.texts.program, run.texts.next].map(text => text.replace(/\n$/, "").split("\n").length));
  return line > 0 && line <= last ? { line } : { fault: `there is no line ${line}: the last one is ${last}` };
}

function scanOf(run, number) {
  const index = run.numbers ? run.numbers.indexOf(number) : number - 1;
  return index >= 0 && index < run.count ? { index } : { fault: `there is no scan ${number}: ${number < 1 ? "the first one is 1" : `the last one is ${run.numbers?.at(-1) ?? run.count}`}` };
}

// A value as it is typed, as the number that the run has for it; or a sentence.
function valueOf(run, name, typed) {
  const type = run.typeOf(name), isWhole = /^[+-]?\d{1,10}$/.test(typed);
  if (type === "BOOL") return TRUTHS[typed.toUpperCase()] ?? `${name} is a BOOL: compare it with TRUE or FALSE`;
  if (type === "TIME") return timeOf(typed) ?? (isWhole ? Number(typed) : `${name} is a TIME: compare it with such as 1.5 s or T#500ms`);
  // a bare number is one of units of the last decimal, as the program has it
  if (isWhole) return Number(typed);
  return WEIGHTS[name] ? weightOf(run, typed) : `${name} is a DINT without a unit: compare it with a whole number`;
}

// A weight in units of the plate's last decimal.
function weightOf(run, typed) {
  const found = /^([+-]?)(\d{1,12}(?:\.\d{1,9})?)\s*([A-Za-z]*)$/.exec(typed.replace(",", ".")), { plate } = run;
  if (!plate) return "the values of the plate cannot be read, so no unit can be";
  const unit = found?.[3].toLowerCase() || plate.unit;
  if (!found || !MASS[unit]) return `${typed} is no weight: write a number with ${listed(Object.keys(MASS)).replace("and", "or")}, as ${run.weight(plate.e)}`;
  const weight = decimal((found[1] === "-" ? "-" : "") + found[2]) * MASS[unit], one = MASS[plate.unit] * 10n ** BigInt(12 - plate.decimals);
  return weight % one ? Number(weight) / Number(one) : Number(weight / one);
}

// Whether a scan meets what is asked; a comparison is fulfilled when it becomes so.
function meets(run, what, index) {
  if (what.sign) {
    const is = at => COMPARE[what.sign](run.value(what.name, at), what.value);
    return is(index) && (index === 0 || !is(index - 1));
  }
  return index > 0 && !Object.is(run.value(what.name, index), run.value(what.name, index - 1));
}

// The next scan (step 1) or the one before (-1) that meets what is asked, from a scan on; null if there is none. Of an answer also its time.
export async function find(caller, run, what, from, step) {
  if (what.index !== undefined) return what;
  if (what.answer !== undefined) return findAnswer(run, what.answer, from, step);
  const ran = what.line !== undefined ? await scansOfLine(caller, run, what.line) : null;
  for (let index = from + step; index >= 0 && index < run.count; index += step)
    if (ran ? ran.has(index) : meets(run, what, index)) return { index };
  return null;
}

async function scansOfLine(caller, run, line) {
  const index = await linesOf(caller, run);
  const found = new Set(index.get(`1:${line}`) ?? []);
  for (const scan of index.get(`2:${line}`) ?? []) found.add(scan);
  return found;
}

// the scan before an answer shows what held at it
function findAnswer(run, text, from, step) {
  const hits = run.host.filter(it => [it.sent, ...it.answers, ...it.meanings].some(answer => answer.toLowerCase().includes(text)));
  const places = hits.map(it => ({ index: run.scanAt(it.ms), ms: it.ms }));
  const found = step > 0 ? places.find(it => it.index > from) : places.findLast(it => it.index < from);
  return found ?? null;
}
