// A run on paper: the program's own picture, a table of what happened, and what identifies the program and the files.
import { element, timeText, shownText, listed } from "./elements.js";
import { ABOUT } from "./trust.js";
import { otherOutput } from "./run.js";

const MOST_EVENTS = 400;

const digestOf = async text => [...new Uint8Array(await crypto.subtle.digest("SHA-256", new TextEncoder().encode(text)))].map(byte => byte.toString(16).padStart(2, "0")).join("");

// of a status that became so, or no longer is
const STATES = {
  "%IX1.1": ["the scale is over its range", "the scale is no longer over"], "%IX1.2": ["the scale is under its range", "the scale is no longer under"],
  "%IX1.4": ["a tare is active", "no tare is active any more"], "%IX1.5": ["the weight is valid", "the weight is not valid"],
};
const switched = (name, is) => STATES[name]?.[is ? 0 : 1] ?? `${name[1] === "I" ? "input" : "output"} ${name} switches ${is ? "on" : "off"}`;

// What happened: requests and answers, what switched as the scans saw it, the change of the program; in order of time.
function eventsOf(run) {
  const events = run.host.map(({ ms, sent, answers, meanings }) => ({ ms, what: `the host sends ${shownText(sent)}`, more: answers.map((answer, at) => `${answer} – ${meanings[at]}`).join("; ") }));
  const names = run.names.filter(name => (/^%(IX0|QX)/.test(name) || STATES[name]) && !(run.isFlat(name) && run.value(name, 0) === 0));
  for (let index = 0; index < run.count; index++)
    for (const name of names) {
      const now = run.value(name, index), past = index ? run.value(name, index - 1) : 0;
      if (now !== past) events.push({ ms: run.ms(index), what: switched(name, now), more: `net ${run.value("%IX1.5", index) === 1 ? run.text("net", run.value("net", index)) : "not valid"}` });
    }
  if (run.changedAt < run.count) events.push({ ms: run.ms(run.changedAt), what: "the first scan of the next program", more: "" });
  return events.sort((a, b) => a.ms - b.ms);
}

// What happened, as a text.
export const eventsText = run => [`${headOf(run)}\n\n`, ...eventsOf(run).map(({ ms, what, more }) => `${timeText(ms).padStart(9)}  ${what}${more ? ` (${more})` : ""}\n`)].join("");

// Which program on which scale: the picture names neither the program nor the unit of its weights.
function headOf(run) {
  const programs = listed((run.programs ?? []).filter(Boolean)), { plate } = run;
  return `${programs ? `Program ${programs}` : "A trace"}${plate ? ` on a scale of ${run.weight(plate.max)} in steps of ${run.weight(plate.e)}; weights in ${plate.unit}` : ""}`;
}

let address = "";

export async function fillPaper(place, caller, run, identity) {
  const events = eventsOf(run), { texts } = run;
  const picture = run.origin === "run" ? (await otherOutput(caller, texts, ["show"])).output : "";
  if (address) URL.revokeObjectURL(address);
  address = picture ? URL.createObjectURL(new Blob([picture], { type: "image/svg+xml" })) : "";
  const files = Object.entries({ program: texts.program, plate: texts.plate, log: texts.log, ...(run.hasNext ? { "next program": texts.next } : {}) });
  const sums = await Promise.all(files.map(async ([name, text]) => element("tr", {}, element("td", {}, name), element("td", { className: "code" }, await digestOf(text)))));
  const rows = events.slice(0, MOST_EVENTS).map(it => element("tr", {}, element("td", { className: "number" }, timeText(it.ms)), element("td", {}, it.what), element("td", {}, shownText(it.more))));
  const head = element("tr", {}, ...["time", "what", "with"].map(name => element("th", { scope: "col" }, name)));
  place.replaceChildren(
    element("h1", {}, headOf(run)),
    element("p", {}, `${run.count} scans, ${run.host.length} requests${run.messages[0] ? `; refused: ${run.messages[0].sentence}` : ""}`),
    ...(address ? [element("img", { src: address, alt: "the run over time" })] : []),
    element("h2", {}, "What happened"),
    element("table", {}, element("thead", {}, head), element("tbody", {}, ...rows)),
    ...(events.length > MOST_EVENTS ? [element("p", {}, `and ${events.length - MOST_EVENTS} more`)] : []),
    element("h2", {}, "Identity"),
    element("pre", {}, `${identity}module sha256 ${ABOUT.moduleSha256}${ABOUT.isProved ? "" : ", NOT PROVED"}`),
    element("p", {}, "SHA-256 of the files:"), element("table", {}, element("tbody", {}, ...sums)),
    element("p", {}, "A simulation, made by narbeddo.html; no result of a legal scale."));
}
