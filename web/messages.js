// What the program says of a text, below that text: each refusal or warning with its hint, and its page at a click.
import { element, button, shownText } from "./elements.js";

// Of objects of `--message json`: what is shown and marked.
export const shownMessages = objects => objects.map(it => ({ ...it, isWarning: it.severity === "warning" }));

// Fills a place with messages. goTo(line, column) leads to one in its text; explain(word) gives the page of a number.
export function showMessages(place, messages, { goTo, explain, where = it => it.line ? `${it.line}:${it.column ?? 1}` : it.file ?? "" } = {}) {
  const items = messages.map(it => it.leftOut ? element("li", {}, it.severity ? `and ${it.leftOut} more warnings` : `and at least ${it.leftOut} more`) : item(it, { goTo, explain, where }));
  place.replaceChildren(...(items.length ? [element("ol", {}, ...items)] : []));
}

function item(message, { goTo, explain, where }) {
  const number = `${message.isWarning ? "W" : ""}${message.number ?? ""}`, kind = message.isWarning ? "warning" : "error";
  const page = element("pre", { hidden: true });
  const open = message.number && explain ? button(`explain ${number}`, async () => {
    if (page.hidden && !page.textContent) page.textContent = await explain(number);
    page.hidden = !page.hidden;
    open.setAttribute("aria-expanded", String(!page.hidden));
  }, { className: "small", "aria-expanded": "false" }) : null;
  const lead = goTo && message.line
    ? button(where(message), () => goTo(message.line, message.column), { className: "link", title: "go there" }) : where(message);
  const head = element("span", {}, lead, lead ? " " : "", element("strong", {}, number ? `${kind} ${number}` : kind), " ", shownText(message.sentence), " ", open);
  return element("li", { className: message.isWarning ? "suspicious" : "mistake" }, head, message.hint ? element("span", { className: "hint" }, shownText(message.hint)) : null, page);
}

// What `check --path` prints of an accepted text: each unit with its bound and its worst path.
export function unitsOf(output) {
  const units = [];
  for (const line of output.split("\n")) {
    const unit = /^unit (\w+) cost (\d+)$/.exec(line);
    if (unit) units.push({ name: unit[1], cost: Number(unit[2]), path: [] });
    else if (line.startsWith("path") && units.length) units[units.length - 1].path = line.split(" ").slice(1).map(Number);
  }
  return units;
}

// Appends the units of an accepted text to its messages.
export function showUnits(place, units, goTo) {
  if (!units.length) return;
  const main = units[units.length - 1];
  const rows = units.map(unit => element("tr", {},
    element("td", { className: "code" }, unit.name), element("td", { className: "number" }, String(unit.cost)),
    element("td", {}, ...unit.path.slice(0, 400).flatMap(line => [button(String(line), () => goTo(line), { className: "link" }), " "]))));
  place.append(
    element("p", {}, element("strong", {}, `accepted: a scan of ${main.name} takes at most ${main.cost} instructions`)),
    element("details", { className: "units" }, element("summary", {}, "bounds and worst paths (marked at the margin)"),
      element("table", {}, element("thead", {}, element("tr", {}, ...["unit", "at most", "lines of a worst path"].map(name => element("th", { scope: "col" }, name)))),
        element("tbody", {}, ...rows))));
}

export function pathLines(units) {
  const lines = new Map();
  for (const unit of units) for (const line of unit.path) lines.set(line, `on the worst path of ${unit.name}, ${unit.cost} instructions`);
  return lines;
}
