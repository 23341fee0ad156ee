// What is written: the texts with their editors, what the program says of each while one types, and the log that comes of a scenario.
import { $, element, button, settled, weightText } from "./elements.js";
import { Editor, MOST_SHOWN } from "./editor.js";
import { PlateForm } from "./plate_view.js";
import { readPlate } from "./plate.js";
import { Sketch, withDrawn } from "./sketch.js";
import { makeLog, readScenario, freeSecond, remarksOf, Mistake } from "./scenario.js";
import { shownMessages, showMessages, unitsOf, showUnits, pathLines } from "./messages.js";
import { HEADING } from "./log.js";

const TABS = { program: "1 Program", plate: "2 Plate", scenario: "3 Scenario", log: "Log", next: "Next program" };
const MODES = { program: "il", next: "il", plate: "plate", scenario: "scenario", log: "log" };
const KEPT = "narbeddo texts";
// the lines that buttons insert at a moment
const INSERTED = {
  "+ step": (at, weight) => `at ${at} s weight ${weight}`, "+ slope": (at, weight) => `from ${at} to ${at + 2} s weight from 0 to ${weight}`,
  "+ button": at => `from ${at} to ${(at + 0.3).toFixed(1)} s input 0 on`, "+ input on": at => `at ${at} s input 0 on`, "+ request": at => `at ${at} s request W`,
  "+ end": at => `until ${Math.max(10, at + 2)} s`,
};
// a tenth of Max in whole intervals
const tenthOf = ({ max, e, decimals, unit }) => `${weightText(Math.max(1, Math.round(max / e / 10)) * e, decimals)} ${unit}`;

export class Work {
  // changed(): a text was changed, and has been checked; explain(number): the page of a refusal; say(..): a sentence for the user
  constructor({ caller, changed, explain, say }) {
    Object.assign(this, { caller, changed, explain, say, accepted: {}, saved: {} });
    this.buildTabs();
    this.editors = Object.fromEntries(Object.entries(MODES).map(([name, mode]) =>
      [name, new Editor($(`editor_${name}`), mode, TABS[name].replace(/^\d /, ""), () => this.typed(name))]));
    this.plate = new PlateForm($("plate_form"), $("plate_hint"), text => this.editors.plate.change(text));
    this.sketch = new Sketch($("sketch"), (...drawn) => this.drawn(...drawn));
    $("sketch").addEventListener("keydown", event => { if (event.ctrlKey && event.key === "z") { event.preventDefault(); this.editors.scenario.undo(); } });
    this.buildTools();
    for (const id of ["by_scenario", "by_log"]) $(id).addEventListener("change", () => this.typed("source"));
    this.checkSoon = settled(() => this.check(), 250);
  }

  buildTabs() {
    const tabs = Object.entries(TABS).map(([name, label]) => button(label, () => this.open(name), { id: `tab_${name}`, role: "tab", "aria-controls": `panel_${name}` }));
    $("tabs").replaceChildren(...tabs);
    $("tabs").addEventListener("keydown", event => {
      const step = { ArrowRight: 1, ArrowLeft: -1 }[event.key], names = Object.keys(TABS);
      if (!step) return;
      event.preventDefault();
      this.open(names[(names.indexOf(this.tab) + step + names.length) % names.length]);
      $(`tab_${this.tab}`).focus();
    });
  }

  buildTools() {
    const tools = Object.entries(INSERTED).map(([label, line]) => button(label, () => {
      const plate = readPlate(this.text("plate")), text = this.text("scenario").replace(/\s*$/, "\n");
      this.editors.scenario.change(text.replace(/^\n$/, "") + line(freeSecond(text), plate && this.accepted.plate ? tenthOf(plate) : "1 kg") + "\n");
      this.editors.scenario.goTo(this.text("scenario").split("\n").length - 1);
    }, { className: "small" }));
    $("sketch_tools").replaceChildren(...tools, element("span", { className: "hint" }, "or drag on the picture to draw the weight"));
  }

  // What is drawn takes the place of the weights that it covers.
  drawn(from, to, lines) {
    const { text, said } = withDrawn(this.text("scenario"), from, to, lines, this.sketch.plate.unit);
    if (text) this.editors.scenario.change(text);
    const drawn = this.text("scenario");
    const undo = () => {
      if (this.text("scenario") !== drawn) { this.say("the scenario was changed after the drawing: Ctrl+Z in its text undoes step by step"); return; }
      this.editors.scenario.undo();
      this.say("undone");
    };
    this.say(said, ...(text ? [" ", button("undo", undo, { className: "small" })] : []));
  }

  open(name) {
    this.tab = name;
    for (const other of Object.keys(TABS)) {
      $(`panel_${other}`).hidden = other !== name;
      $(`tab_${other}`).setAttribute("aria-selected", String(other === name));
      $(`tab_${other}`).tabIndex = other === name ? 0 : -1;
    }
    this.editors[name].refresh();
    if (name === "scenario") this.sketch.draw();
  }

  text(name) { return this.editors[name].text; }
  get isByScenario() { return $("by_scenario").checked; }
  get texts() { return Object.fromEntries(Object.keys(MODES).map(name => [name, this.text(name)])); }

  // names of the texts that are in no file and no example as they are
  get unsaved() { return Object.keys(MODES).filter(name => this.text(name).trim() && this.text(name) !== this.saved[name] && !(name === "log" && (this.isByScenario || this.text(name) === this.made))); }
  get state() { return { ...this.texts, isByScenario: this.isByScenario, unsaved: this.unsaved }; }

  // Takes texts; those that are not named stay, or become empty if `isWhole`. They are in files, but for the names in `texts.unsaved`.
  take(texts, isWhole = false) {
    for (const name of Object.keys(MODES)) {
      if (texts[name] === undefined && !isWhole) continue;
      this.editors[name].text = texts[name] ?? "";
      this.saved[name] = texts.unsaved?.includes(name) ? null : this.text(name);
    }
    if (texts.scenario?.trim()) $("by_scenario").checked = true;
    else if (texts.log !== undefined) $("by_log").checked = true;
    if (texts.isByScenario !== undefined) $(texts.isByScenario ? "by_scenario" : "by_log").checked = true;
    return this.check();
  }

  typed(name) {
    if (name === "log" || name === "scenario") $(`by_${name}`).checked = true;
    // at once: what is typed before the texts are checked would be lost
    this.editors.log.isReadOnly = this.isByScenario;
    this.checkSoon();
  }

  keep() {
    const { log, ...others } = this.state;
    try { localStorage.setItem(KEPT, JSON.stringify(this.isByScenario ? others : { ...others, log })); } catch { /* too long, or the browser keeps nothing */ }
  }

  kept() {
    try { return JSON.parse(localStorage.getItem(KEPT)); } catch { return null; }
  }

  // Checks all texts; of two checks at once the later one counts.
  async check() {
    const number = this.number = (this.number ?? 0) + 1, isLast = () => number === this.number;
    this.keep();
    this.plate.show(this.text("plate"));
    this.showScenario();
    await this.checkProgram("program", isLast);
    await this.checkPlate(isLast);
    await this.checkNext(isLast);
    if (isLast()) this.changed();
  }

  async checkProgram(name, isLast) {
    const answer = await this.caller.call(["check", "--message", "json", "--path", `${name}.il`], { [`${name}.il`]: this.text(name) });
    if (!isLast()) return;
    const messages = shownMessages(answer.messages), units = unitsOf(answer.output), goTo = (line, column) => this.editors[name].goTo(line, column);
    this.accepted[name] = answer.status === 0;
    showMessages($(`messages_${name}`), messages, { goTo, explain: this.explain });
    this.editors[name].showMessages(messages);
    if (answer.status !== 0) { this.mark(name, false); return; }
    showUnits($(`messages_${name}`), units, goTo);
    this.editors[name].showPath(pathLines(units));
    this.mark(name, true);
  }

  // the tab of a text that is refused says so
  mark(name, is) { $(`tab_${name}`).textContent = TABS[name] + (is ? "" : " ✗"); $(`tab_${name}`).title = is ? "" : "refused"; }

  async checkPlate(isLast) {
    const answer = await this.caller.call(["line", "--message", "json", "--plate", "plate.toml", "--log", "log.csv"], { "plate.toml": this.text("plate"), "log.csv": HEADING });
    if (!isLast()) return;
    const messages = shownMessages(answer.messages);
    this.accepted.plate = answer.status === 0;
    showMessages($("messages_plate"), messages, { goTo: (line, column) => this.editors.plate.goTo(line, column), explain: this.explain });
    this.editors.plate.showMessages(messages);
    this.mark("plate", answer.status === 0);
  }

  async checkNext(isLast) {
    if (!this.text("next").trim()) {
      this.accepted.next = true;
      $("messages_next").replaceChildren();
      $("preview").replaceChildren();
      this.editors.next.clear();
      this.mark("next", true);
      return;
    }
    await this.checkProgram("next", isLast);
    if (!isLast()) return;
    if (!this.accepted.next || !this.accepted.program) { $("preview").replaceChildren(); return; }
    const answer = await this.caller.call(["check", "--next", "next.il", "program.il"], { "next.il": this.text("next"), "program.il": this.text("program") });
    if (isLast()) showPreview($("preview"), answer.output);
  }

  // the picture of the scenario, the log that it makes, and its first mistake
  showScenario() {
    const plate = readPlate(this.text("plate")), text = this.text("scenario");
    this.sketch.show(text, plate);
    this.editors.log.isReadOnly = this.isByScenario;
    $("log_hint").textContent = this.isByScenario ? "Made of the scenario. Choose the line above to type or paste one." : "A row has a time in ms, a kind and data: C counts, L bytes of the host in hex, I inputs in hex, S a scan, P the next program.";
    let mistake = null, remarks = [];
    if (this.isByScenario) {
      try {
        if (!plate) throw new Mistake(0, "the plate's values cannot be read: write them as seven lines of key = value");
        this.takeMade(makeLog(text, plate));
        remarks = remarksOf(readScenario(text)).map(it => ({ ...it, column: 1, endColumn: 200, isWarning: true }));
      } catch (error) {
        if (!(error instanceof Mistake)) throw error;
        mistake = { line: error.line || undefined, column: error.line ? 1 : undefined, endColumn: 200, sentence: error.sentence, isWarning: false };
      }
    }
    if (this.editors.log.isCut) $("log_hint").textContent += ` It has ${this.text("log").split("\n").length - 1} lines: the first ${MOST_SHOWN} are shown, and it is too long to be edited here.`;
    this.accepted.scenario = !mistake;
    this.mistake = mistake && (mistake.line ? `line ${mistake.line}: ` : "") + mistake.sentence;
    const shown = mistake ? [mistake] : remarks;
    showMessages($("messages_scenario"), shown, { goTo: line => this.editors.scenario.goTo(line), where: it => it.line ? `line ${it.line}` : "" });
    this.editors.scenario.showMessages(shown);
    this.mark("scenario", !mistake);
  }

  // The log of the scenario takes the place of one that was typed, which can be had back.
  takeMade(log) {
    const own = this.text("log");
    if (own.trim() && own !== log && own !== this.made && own !== this.saved.log)
      this.say("the log that was typed has given way to that of the scenario ", button("bring it back", () => { this.take({ log: own, unsaved: ["log"] }); this.say("it is here again"); }, { className: "small" }));
    this.editors.log.text = this.made = log;
  }

  // what keeps the texts from being run, or an empty text
  get obstacle() {
    const names = { program: "the program", plate: "the plate", next: "the next program", scenario: "the scenario" };
    const refused = Object.keys(names).filter(name => this.accepted[name] === false).map(name => names[name]);
    return refused.length ? `${refused.join(" and ")} is refused` : "";
  }
}

const WORDS = { kept: "keeps its value", first: "starts with", lost: "is lost" };

// What a change keeps and loses, as `check --next` prints it.
function showPreview(place, output) {
  const rows = output.split("\n").map(line => line.split(" ")).filter(words => WORDS[words[0]]).map(([what, names, type, ...rest]) => {
    const value = rest.length > 1 && !["new", "was"].includes(rest[0]) ? rest[0] : null, why = what === "first" ? rest.slice(value === null ? 0 : 1).join(" ") : "";
    const sentence = what === "first" ? value === null ? "starts over" : `starts with ${value}` : WORDS[what];
    return element("tr", {}, element("td", { className: "code" }, names), element("td", {}, sentence), element("td", { className: "faint" }, [type, why && `(${why})`].filter(Boolean).join(" ")));
  });
  const head = element("tr", {}, ...["variable", "at the change", "type"].map(name => element("th", { scope: "col" }, name)));
  place.replaceChildren(element("h2", {}, "What the change keeps and loses"), element("table", {}, element("thead", {}, head), element("tbody", {}, ...rows)));
}
