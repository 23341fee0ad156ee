// Files that are opened or dropped: which text each one is. Nothing is taken by the order of names.
import { shownText } from "./elements.js";
import { isTrace } from "./trace_file.js";
import { PLATE_KEYS } from "./plate.js";

const SCENARIO = /^\s*(?:#[^\n]*\n\s*)*(?:samples|scans|noise|until|at|from)\s/;
const KEY_LINE = new RegExp(`^\\s*"?(${PLATE_KEYS.join("|")})"?\\s*=`, "gm");
// a unit or a section; a text that begins with one, or with an operator, after its comments
const UNIT = "(?:PROGRAM|FUNCTION|FUNCTION_BLOCK|VAR(?:_\\w+)?)\\b";
const UNIT_LINE = new RegExp(`^[ \\t]*${UNIT}`, "im"), BEGINNING = new RegExp(`^(?:\\s|\\(\\*[^]*?\\*\\)|//.*|\\{[^}]*\\})*(?:${UNIT}|(?:\\w+\\s*:\\s*)?(?:LDN?|CAL|JMP)[ \\t]+\\S)`, "i");

// What a file is: program, next, plate, scenario, log, trace or job; null if none of these.
export function kindOf(name, text) {
  const bare = name.toLowerCase(), isPlain = /(?:^[^.]*|\.txt)$/.test(bare);
  if (isTrace(text)) return "trace";
  if (/^@plate\r?\n/.test(text)) return "job";
  if (/^"?ms"?,"?kind"?,/.test(text)) return "log";
  if (/\.(?:il|awl|st|exp)$/.test(bare) || BEGINNING.test(text) || isPlain && UNIT_LINE.test(text)) return /^next|[._-]next\b/.test(bare) ? "next" : "program";
  const keys = new Set([...text.matchAll(KEY_LINE)].map(found => found[1])).size;
  if (isPlain && keys > 2 || keys && /\.toml$/.test(bare)) return "plate";
  return /scenario/.test(bare) || SCENARIO.test(text) ? "scenario" : null;
}

// The text of a file's bytes, and a remark if they are not of UTF-8; null if they are no text.
function textOf(bytes) {
  const decoded = (name, more) => new TextDecoder(name, more).decode(bytes), isText = text => !/[\u0000-\u0008\u000e-\u001f]/.test(text);
  try { const text = decoded("utf-8", { fatal: true }); return isText(text) ? { text, remark: "" } : null; } catch { /* other letters */ }
  const text = decoded("windows-1252");
  return isText(text) ? { text, remark: " (it is not UTF-8: its letters are read as those of Windows)" } : null;
}

function whyNot(name, found) {
  if (!found) return `${name} is not opened: it is no text of UTF-8 or Windows`;
  const more = /plcopen/i.test(found.text) ? " (tools/from_plcopen takes the programs out of an export)" : /\.csv$/i.test(name) ? " (a log begins with the line ms,kind,data)" : "";
  return `${name} is not opened: it is no program, plate, log, scenario, job or trace${more}`;
}

// The sections of a job: a section goes on to the next heading that may follow it.
export function sectionsOf(job) {
  const found = {}, after = { plate: ["program"], program: ["next", "log"], next: ["log"], log: [] };
  let now = null;
  for (const line of job.split(/(?<=\n)/)) {
    const heading = /^@(plate|program|next|log)\r?\n?$/.exec(line)?.[1];
    if (heading && (now === null ? heading === "plate" : after[now].includes(heading))) { now = heading; found[now] = ""; }
    else if (now) found[now] += line;
  }
  return found;
}

// The texts of files by what they are, and a sentence that says which file became which. Of two programs of which neither is named next
// the second in the order in which they were given is the next program.
export async function readFiles(files) {
  const texts = {}, said = [];
  const take = (kind, text, name, remark = "") => {
    const place = kind === "program" && texts.program !== undefined && texts.next === undefined ? "next" : kind;
    if (texts[place] !== undefined) { said.push(`${name} is left out: there is another ${place}`); return; }
    texts[place] = text;
    said.push(`${name} is the ${place === "next" ? "next program" : place}${remark}`);
  };
  let isJob = false;
  for (const file of files) {
    const name = shownText(file.name), found = textOf(await file.arrayBuffer()), kind = found && kindOf(file.name, found.text);
    if (!kind) said.push(whyNot(name, found));
    else if (kind !== "job") take(kind, found.text, name, found.remark);
    else {
      for (const [part, own] of Object.entries(sectionsOf(found.text))) take(part, own, `the ${part} of ${name}`);
      isJob = true;
    }
  }
  // a job is a whole run: without its own it has no next program, and its log is of no scenario
  if (isJob) { texts.next ??= ""; texts.scenario ??= ""; }
  return { texts, said: said.join("; ") };
}
