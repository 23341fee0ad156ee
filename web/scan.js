// The scan at the cursor: the values that it left, its lines with their results, and what the host had asked by then. Elements stay and
// only their texts change, so that the focus and the place of a list are kept from scan to scan.
import { element, button, timeText, shownText } from "./elements.js";
import { STATUS_NAMES } from "./run.js";

const literal = value => value === true ? "TRUE" : value === false ? "FALSE" : value === undefined ? "" : String(value);

// Values: weights, statuses, inputs, outputs, variables.
export class Values {
  // jump(name, step): to the next or the last change of a name; choose(name, is): whether it has a lane
  constructor(place, { jump, choose }) { Object.assign(this, { place, jump, choose, cells: new Map(), picked: new Set() }); }

  // lanes: the names that have one
  build(run, before, lanes) {
    this.cells.clear();
    this.place.classList.toggle("compared", Boolean(before));
    Object.assign(this, { run, before, lanes: new Set(lanes) });
    const numbered = (letter, count) => Array.from({ length: count }, (_, bit) => [`%${letter}X0.${bit}`, `${letter}X0.${bit}`]);
    this.place.replaceChildren(
      element("h2", {}, "Indicator"), this.table(["gross", "net", "tare"]), this.lamps("status", ...STATUS_NAMES.map((label, bit) => [`%IX1.${bit}`, label])),
      element("h2", {}, "Inputs"), this.lamps("inputs", ...numbered("I", 16)), element("h2", {}, "Outputs"), this.lamps("outputs", ...numbered("Q", 16)), this.table(["%QD0", "%QD1", "%QD2", "%QD3"]),
      ...(run.variables.length ? [element("h2", {}, "Variables"), this.table(run.variables.map(it => it.name))] : []),
      ...(run.leftOut ? [element("p", { className: "note" }, `${run.leftOut} more variables are not shown: the run has too many scans for all`)] : []));
  }

  // Lamps; the one that was picked has its jumps and its lane below them. Arrows lead from one to the next.
  lamps(what, ...names) {
    const tools = element("div", { className: "row" }), group = element("div", { className: "bits", role: "group", "aria-label": what });
    const pick = (name, label) => {
      for (const [other] of names) {
        const { cell } = this.cells.get(other);
        cell.tabIndex = other === name ? 0 : -1;
        cell.setAttribute("aria-pressed", String(other === name));
        this.picked.delete(other);
      }
      this.picked.add(name);
      tools.replaceChildren(element("span", { className: "code" }, name.slice(1) === label ? name : `${label}, ${name}`), this.jumps(name), element("label", {}, this.lane(name), " lane"));
    };
    for (const [name, label] of names) {
      const cell = button(label, () => pick(name, label), { className: "bit" });
      this.cells.set(name, { cell, isBit: true });
      group.append(cell);
    }
    group.addEventListener("keydown", event => {
      const next = { ArrowRight: "nextElementSibling", ArrowLeft: "previousElementSibling" }[event.key], cell = next && event.target[next];
      if (!cell) return;
      event.preventDefault();
      cell.focus();
      cell.click();
    });
    pick(...(names.find(([name]) => this.picked.has(name)) ?? names.find(([name]) => !this.run.isFlat(name)) ?? names[0]));
    return element("div", {}, group, tools);
  }

  jumps(name) {
    const jump = (text, step, title) => button(text, () => this.jump(name, step), { className: "small", "aria-label": `${title} of ${name}`, title });
    return element("span", {}, jump("◂", -1, "the change before"), " ", jump("▸", 1, "the next change"));
  }

  lane(name) {
    const choose = is => { if (is) this.lanes.add(name); else this.lanes.delete(name); this.choose(name, is); };
    return element("input", { type: "checkbox", checked: this.lanes.has(name), "aria-label": `a lane for ${name}`, onchange: event => choose(event.target.checked) });
  }

  table(names) {
    const head = ["name", "value", ...(this.before ? ["before"] : []), "type", "changes", "lane"];
    return element("table", {}, element("thead", {}, element("tr", {}, ...head.map(name => element("th", { scope: "col" }, name)))),
      element("tbody", {}, ...names.map(name => this.row(name))));
  }

  row(name) {
    const value = element("td", { className: "code value" }), before = this.before ? element("td", { className: "code faint" }) : null;
    const row = element("tr", { "data-name": name }, element("td", { className: "code" }, name), value, before, element("td", { className: "faint" }, this.run.typeOf(name)),
      element("td", {}, this.jumps(name)), element("td", {}, this.lane(name)));
    this.cells.set(name, { cell: value, before, row });
    return row;
  }

  show(index, other) {
    const { run, before } = this;
    for (const [name, entry] of this.cells) {
      const now = run.value(name, index), past = index ? run.value(name, index - 1) : now, isNew = !Object.is(now, past);
      const then = before && other !== null ? before.value(name, other) : NaN;
      entry.cell.classList.toggle("new", isNew);
      if (entry.isBit) {
        entry.cell.classList.toggle("on", now === 1);
        entry.cell.classList.toggle("differs", Boolean(before) && !Object.is(now, then));
        entry.cell.title = `${name} is ${now === 1 ? "TRUE" : "FALSE"}${before ? `, before ${then === 1 ? "TRUE" : "FALSE"}` : ""}`;
      } else {
        const isHidden = /^(gross|net)$/.test(name) && run.value("%IX1.5", index) !== 1;
        entry.cell.textContent = isHidden ? "not valid" : Number.isNaN(now) ? "not in this program" : run.text(name, now);
        if (entry.before) {
          entry.before.textContent = Number.isNaN(then) ? "" : before.text(name, then);
          entry.before.classList.toggle("differs", !Object.is(now, then));
        }
      }
    }
  }

  // shows the row or the lamp of a name
  reveal(name) {
    const { isBit, cell, row } = this.cells.get(name) ?? {};
    if (isBit && !this.picked.has(name)) cell.click();
    reveal(this.place, isBit ? cell : row);
  }
}

// marks a row as what was searched for, and scrolls its list to it
function reveal(place, row) {
  for (const other of place.querySelectorAll(".hit")) other.classList.remove("hit");
  if (!row) return;
  row.classList.add("hit");
  const box = place.getBoundingClientRect(), its = row.getBoundingClientRect();
  if (its.top < box.top || its.bottom > box.bottom) place.scrollTop += its.top - box.top - place.clientHeight / 2;
  // no farther than needed, so that the curves stay in view where they can
  const { top, bottom } = row.getBoundingClientRect();
  if (bottom > innerHeight || top < 0) row.scrollIntoView({ block: "nearest" });
}

// The lines of the text of a scan, with what each gave.
export class ScanLines {
  constructor(place, find) { this.place = place; this.find = find; this.text = null; }

  build(text, heading) {
    if (text === this.text && heading === this.heading) return;
    Object.assign(this, { text, heading });
    this.isPlaced = false;
    const lines = text.replace(/\n$/, "").split("\n");
    this.rows = lines.map((line, at) => {
      const cells = [element("td", { className: "code number" }, button(String(at + 1), () => this.find(at + 1), { className: "link", title: "the next scan in which this line runs", tabIndex: -1 })),
        element("td", { className: "code" }, shownText(line.replace(/\r$/, ""))), element("td", { className: "code" }), element("td", { className: "code faint" })];
      return { row: element("tr", {}, ...cells), result: cells[2], wrote: cells[3] };
    });
    this.note = element("p", { className: "note", hidden: true });
    const head = element("tr", {}, ...["line", "text", "result", "writes"].map(name => element("th", { scope: "col" }, name)));
    const columns = element("colgroup", {}, ...["n", "t", "r", "w"].map(name => element("col", { className: name })));
    this.place.replaceChildren(element("h2", {}, heading), this.note, element("table", {}, columns, element("thead", {}, head), element("tbody", {}, ...this.rows.map(it => it.row))));
  }

  // null: there is no trace of the scan yet
  show(trace, note = "") {
    const items = grouped(trace?.items ?? []);
    const paths = callPaths(trace?.items ?? []);
    this.note.hidden = !note;
    this.note.textContent = note;
    this.rows.forEach(({ row, result, wrote }, at) => {
      const own = items.get(at + 1) ?? [];
      row.classList.toggle("ran", own.length > 0);
      const results = own.filter(item => item.result !== undefined), isSeveral = results.length > 1 && results.some(item => paths.get(item));
      setText(result, few(results.map(item => (isSeveral && paths.get(item) ? `${paths.get(item)} ` : "") + literal(item.result)), 3));
      setText(wrote, few(own.map(writes).filter(Boolean), 4));
    });
    if (trace?.items.length && !this.isPlaced) this.toProgram(trace);
  }

  // a text is first shown from the lines that the program itself ran
  toProgram(trace) {
    this.isPlaced = true;
    const first = trace.items.filter(item => item.depth === 0).reduce((least, item) => Math.min(least, item.line), Infinity), row = this.rows[first - 1]?.row;
    if (row) this.place.scrollTop = Math.max(0, row.offsetTop - 2 * row.offsetHeight);
  }

  reveal(line) { reveal(this.place, this.rows?.[line - 1]?.row); }
}

const few = (texts, most) => texts.slice(0, most).join("  ") + (texts.length > most ? `  … ${texts.length} times` : "");
const setText = (cell, text) => { if (cell.textContent !== text) { cell.textContent = text; cell.title = text; } };

function writes(item) {
  if (item.block !== undefined) return `${item.block}()` + Object.entries(item.outputs ?? {}).map(([name, value]) => ` ${name}=${literal(value)}`).join("");
  return item.variable !== undefined ? `${item.variable} := ${literal(item.value)}` : "";
}

function grouped(items) {
  const found = new Map();
  for (const item of items) found.set(item.line, [...found.get(item.line) ?? [], item]);
  return found;
}

// the instances through which each item was called, as `a.b`
function callPaths(items) {
  const paths = [""], found = new Map();
  for (const item of items) {
    const path = paths[item.depth] ?? "";
    if (path) found.set(item, path);
    if (item.call !== undefined) paths[item.depth + 1] = path ? `${path}.${item.call}` : item.call;
  }
  return found;
}

// What the host sent, and what it was answered.
export class Host {
  constructor(place, go) { this.place = place; this.go = go; }

  build(run) {
    this.rows = run.host.slice(0, 2000).map(({ ms, sent, answers, meanings }) => {
      const said = answers.map((answer, at) => element("div", {}, `${shownText(answer)} `, element("span", { className: "faint" }, meanings[at])));
      const row = element("tr", {}, element("td", { className: "number" }, button(timeText(ms), () => this.go(ms), { className: "link", title: "go to the scan before" })),
        element("td", { className: "code" }, shownText(sent)), element("td", {}, ...(said.length ? said : ["—"])));
      return { ms, row };
    });
    this.place.hidden = !this.rows.length;
    const head = element("tr", {}, ...["time", "the host sends", "the scale answers"].map(name => element("th", { scope: "col" }, name)));
    const more = run.host.length - this.rows.length;
    this.place.replaceChildren(element("h2", {}, "Host"), element("table", {}, element("thead", {}, head), element("tbody", {}, ...this.rows.map(it => it.row))),
      ...(more ? [element("p", { className: "note" }, `and ${more} more rows`)] : []));
  }

  // marks the last request before a moment
  show(ms) {
    const last = this.rows.findLast(it => it.ms <= ms);
    for (const it of this.rows) it.row.classList.toggle("at-line", it === last);
    if (last) this.place.scrollTop = Math.max(0, last.row.offsetTop - this.place.offsetTop - this.place.clientHeight / 2);
  }

  reveal(ms) { reveal(this.place, this.rows.find(it => it.ms === ms)?.row); }
}
