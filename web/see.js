// What is seen of a run: curves, the cursor with the scan at it, the search, and a run before to compare with.
import { $, element, button, timeText } from "./elements.js";
import { Curves, lanesOf } from "./curves.js";
import { Values, ScanLines, Host } from "./scan.js";
import { traceOf, WEIGHTS } from "./run.js";
import { asked, find } from "./search.js";
import { shownMessages, showMessages } from "./messages.js";

export class See {
  constructor({ caller, explain, goToLog }) {
    Object.assign(this, { caller, explain, goToLog, run: null, before: null, at: 0, chosen: new Map() });
    this.curves = new Curves($("plot"), index => this.go(index));
    this.values = new Values($("values"), { jump: (name, step) => this.search(name, step), choose: (name, is) => this.choose(name, is) });
    this.lines = new ScanLines($("lines"), line => this.search(String(line), 1));
    this.host = new Host($("host"), ms => this.go(this.run.scanAt(ms)));
    this.buildZoom();
    this.listen();
  }

  buildZoom() {
    const tools = [["|◂", "first scan (Home)", () => this.go(0)], ["◂", "scan before (←)", () => this.go(this.at - 1)], ["▸", "next scan (→)", () => this.go(this.at + 1)], ["▸|", "last scan (End)", () => this.go(Infinity)],
      ["+", "nearer (+)", () => this.curves.zoom(0.5)], ["−", "farther (-)", () => this.curves.zoom(2)], ["all", "the whole run (0)", () => this.curves.showAll()]];
    $("zoom_row").replaceChildren(...tools.map(([text, title, action]) => button(text, () => this.run?.count && action(), { title, "aria-label": title, className: "small" })),
      element("span", { className: "hint" }, "drag to move the cursor, Ctrl and the wheel to zoom"));
  }

  listen() {
    $("search").addEventListener("submit", event => { event.preventDefault(); this.search($("what").value, 1); });
    $("find_before").onclick = () => this.search($("what").value, -1);
    $("keep_before").onclick = () => { this.before = this.run; this.show(this.run); };
    $("drop_before").onclick = () => { this.before = null; this.show(this.run); $("keep_before").focus(); };
    $("lines_before").onchange = () => this.showLines();
    $("next_difference").onclick = () => this.nextDifference();
    $("plot").addEventListener("keydown", event => this.key(event));
  }

  key(event) {
    if (event.ctrlKey || event.altKey || event.metaKey || !this.run?.count) return;
    const view = this.curves.to - this.curves.from, nearby = ms => this.run.scanAt(this.run.ms(this.at) + ms);
    const action = {
      ArrowLeft: () => this.go(this.at - 1), ArrowRight: () => this.go(this.at + 1), Home: () => this.go(0), End: () => this.go(Infinity),
      PageUp: () => this.go(Math.min(nearby(-view / 10), this.at - 1)), PageDown: () => this.go(Math.max(nearby(view / 10), this.at + 1)),
      "+": () => this.curves.zoom(0.5), "-": () => this.curves.zoom(2), 0: () => this.curves.showAll(),
    }[event.key];
    if (!action) return;
    event.preventDefault();
    action();
  }

  // Shows a run; the cursor stays at its moment.
  show(run) {
    const ms = this.run?.count ? this.run.ms(this.at) : null;
    this.run = run;
    $("found").textContent = "";
    showMessages($("run_messages"), shownMessages(run.messages), { explain: this.explain, goTo: line => this.goToLog(line), where: it => `${it.file ?? ""}${it.line ? ` line ${it.line}` : ""}` });
    for (const id of ["plot_box", "cursor_row", "search", "search_hint", "scan_box", "compare_row", "compared"]) $(id).hidden = !run.count;
    if (!run.count) return;
    $("drop_before").hidden = $("next_difference").hidden = $("of_before").hidden = !this.before;
    this.curves.isComparable = this.isSamePlate;
    $("compared").textContent = this.before ? this.comparison() : "";
    $("names").replaceChildren(...run.names.map(name => element("option", { value: name })));
    this.draw();
    this.values.build(run, this.before, this.curves.lanes.map(it => it.name));
    this.host.build(run);
    this.go(ms === null ? 0 : run.scanAt(ms));
  }

  draw() { this.curves.set(this.run, this.before, lanesOf(this.run, this.chosen, this.before)); }

  choose(name, is) {
    this.chosen.set(name, is);
    this.draw();
  }

  // The scan of the run before that belongs to a scan: the last one at its time or earlier.
  other(index) {
    if (!this.before?.count || this.before.ms(0) > this.run.ms(index)) return null;
    return this.before.own.ms[index] === this.run.own.ms[index] ? index : this.before.scanAt(this.run.ms(index));
  }

  // Goes to a scan: the cursor, its values, its lines.
  go(index) {
    const { run } = this;
    if (!run?.count) return;
    this.at = Math.max(0, Math.min(run.count - 1, index));
    this.curves.go(this.at);
    const ms = run.ms(this.at), bound = run.bound(this.at), steps = run.own.steps[this.at], number = run.numbers?.[this.at] ?? this.at + 1;
    const where = `scan ${number} at ${timeText(ms)} · ${steps} of at most ${bound} instructions${run.programOf(this.at) === 2 ? " · next program" : ""}`;
    $("where").textContent = where;
    Object.assign($("steps"), { max: Math.max(bound, 1), value: steps });
    const plot = $("plot"), net = run.value("%IX1.5", this.at) === 1 ? `net ${run.text("net", run.value("net", this.at))}` : "no valid weight";
    plot.setAttribute("aria-valuemax", run.count);
    plot.setAttribute("aria-valuenow", this.at + 1);
    plot.setAttribute("aria-valuetext", `${where}, ${net}`);
    this.values.show(this.at, this.other(this.at));
    this.host.show(ms);
    this.showLines();
  }

  // The run and the scan whose lines are shown: those at the cursor, or of the run before.
  get traced() {
    const other = this.before && $("lines_before").checked ? this.other(this.at) : null;
    return other === null ? [this.run, this.at] : [this.before, other];
  }

  // The lines of the scan come from the program; while the cursor moves only the last one asked for is fetched.
  async showLines() {
    const [run, at] = this.traced, kept = run.traces.get(at), isAsked = () => this.traced[0] === run && this.traced[1] === at;
    this.lines.build(run.textOf(at), run === this.run ? "Lines of this scan" : "Lines of this scan in the run before");
    if (kept) { this.lines.show(kept, run.note); return; }
    if (this.isTracing) return;
    this.isTracing = true;
    try {
      const trace = await traceOf(this.caller, run, at);
      if (isAsked()) this.lines.show(trace, trace ? "" : "no trace of this scan");
    } catch { /* it was stopped */ } finally { this.isTracing = false; }
    if (!isAsked()) this.showLines();
  }

  async search(text, step) {
    $("what").value = text;
    const { run } = this, what = asked(run, text);
    for (const hit of document.querySelectorAll("#scan_box .hit")) hit.classList.remove("hit");
    if (what.fault) { $("found").textContent = what.fault; return; }
    $("found").textContent = "searching …";
    const hit = await find(this.caller, run, what, this.at, step);
    if (this.run !== run) return;
    const said = hit ? `found at ${timeText(hit.ms ?? run.ms(hit.index))}` : await this.elsewhere(run, what, step);
    if (this.run !== run) return;
    $("found").textContent = (what.said ?? "") + said;
    if (!hit) return;
    this.go(hit.index);
    if (what.name) this.values.reveal(what.name);
    else if (what.line) this.lines.reveal(what.line);
    else if (what.answer) this.host.reveal(hit.ms);
  }

  // Of what is not found in one direction: the nearest one in the other.
  async elsewhere(run, what, step) {
    const [side, button] = step > 0 ? ["after", "Previous"] : ["before", "Next"], other = await find(this.caller, run, what, this.at + step, -step);
    if (!other) return what.line ? `line ${what.line} runs in no scan` : "nowhere in this run";
    return `none ${side} the cursor: ${other.index === this.at ? "it is here" : `${button} goes to the one at ${timeText(other.ms ?? run.ms(other.index))}`}`;
  }

  // whether weights of both runs are counted in the same unit
  get isSamePlate() { return ["unit", "decimals"].every(key => this.before?.plate?.[key] === this.run.plate?.[key]); }

  // names that both runs have, and whose numbers mean the same in both
  get common() { return this.run.names.filter(name => this.before.names.includes(name) && (this.isSamePlate || !WEIGHTS[name])); }

  isDifferent(index, names) {
    const other = this.other(index);
    return other === null || this.before.ms(other) !== this.run.ms(index) || names.some(name => !Object.is(this.run.value(name, index), this.before.value(name, other)));
  }

  comparison() {
    const names = this.common;
    let count = 0;
    for (let index = 0; index < this.run.count; index++) count += this.isDifferent(index, names);
    const kept = `before: ${this.before.programs?.[0] ?? "a trace"}, ${this.before.count} scans${this.isSamePlate ? "" : ", on a plate of another unit"}`;
    return `${count ? `${count} of ${this.run.count} scans differ from before` : "no scan differs from before"} (${kept})`;
  }

  nextDifference() {
    const names = this.common;
    let index = this.at + 1;
    while (index < this.run.count && !this.isDifferent(index, names)) index++;
    if (index >= this.run.count) { $("compared").textContent = `${this.comparison()}; none after the cursor`; return; }
    this.go(index);
    const other = this.other(index), differing = names.filter(it => other !== null && !Object.is(this.run.value(it, index), this.before.value(it, other))), [name] = differing;
    // with its time, since it stays when the cursor moves on
    const said = name ? `${name}: ${this.run.text(name, this.run.value(name, index))}, before ${this.before.text(name, this.before.value(name, other))}` : "the scans are at other times";
    $("compared").textContent = `at ${timeText(this.run.ms(index))}: ${said}${differing.length > 1 ? `, and ${differing.length - 1} more` : ""}`;
    if (name) this.values.reveal(name);
  }
}
