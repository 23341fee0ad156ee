// The page: it loads the program, puts the parts together, and runs what is written.
import { $, element, button, download, settled, ask, listed } from "./elements.js";
import { Caller, loadModule, lacking } from "./calls.js";
import { Work } from "./work.js";
import { See } from "./see.js";
import { makeRun, otherOutput } from "./run.js";
import { openTrace } from "./trace_file.js";
import { readFiles, sectionsOf } from "./files.js";
import { showTrust, ABOUT } from "./trust.js";
import { fillPaper, eventsText } from "./paper.js";
import { languageHelp } from "./language_help.js";

const EXAMPLES = JSON.parse($("examples").textContent);
const FIELDS = JSON.parse($("language").textContent).fields;
const FILE_NAMES = { program: "program.il", plate: "plate.toml", scenario: "scenario.txt", log: "log.csv", next: "next.il" };
const NAMES_OF_FILES = Object.fromEntries(Object.entries(FILE_NAMES).map(([name, file]) => [file, name]));
const LONG_NAMES = { next: "next program" };
// what there is when somebody begins with nothing
const EMPTY = {
  program: "PROGRAM Mine\nVAR\nEND_VAR\n    LD %IX0.0           (* a button *)\n    ST %QX0.0           (* a lamp *)\nEND_PROGRAM\n",
  plate: 'unit = "kg"\ndecimals = 3\nmax = 15000\ne = 5\nzero_counts = 10000\nspan_counts = 600000\nwindow = 4\n',
  scenario: "samples every 10 ms\nscans every 20 ms\nfrom 1 to 1.5 s input 0 on\nfrom 2 to 4 s weight from 0 to 1 kg\nuntil 6 s\n",
};
const KEYS = [
  ["Ctrl+Enter", "runs what is written"], ["Tab", "leads on, also out of an editor"], ["Alt+1 … Alt+5", "program, plate, scenario, log, next program"],
  ["/", "the search, outside of a text; scan 120 or 12.5 s there"], ["Ctrl+Z", "undoes, also what was drawn"], ["on the curves", ""], ["← →", "a scan back, on"], ["Page Up, Page Down", "a tenth of the view"], ["Home, End", "first, last scan"], ["+ − 0", "nearer, farther, all"],
];

const say = (...parts) => $("said").replaceChildren(...parts);

async function start() {
  const lacks = lacking();
  if (lacks) {
    $("lacking").textContent = `This browser has ${lacks}, so the program cannot run here. Use Chromium, Chrome or Edge from 133 on, or Firefox from 134 on; or the command line (narbeddo) on Linux.`;
    $("lacking").hidden = false;
    return;
  }
  const module = await loadModule(), checker = new Caller(module), runner = new Caller(module);
  const identity = (await checker.call(["--version"])).output;
  showTrust($("trust_text"), identity);
  document.querySelector("h1").textContent = `Narbeddo ${ABOUT.version}${ABOUT.isProved ? "" : " (not proved)"}`;
  new Page(checker, runner, identity);
}

class Page {
  constructor(checker, runner, identity) {
    Object.assign(this, { checker, runner, identity });
    const explain = async number => (await checker.call(["explain", number])).output;
    this.see = new See({ caller: runner, explain, goToLog: line => { this.work.open("log"); this.work.editors.log.goTo(line); } });
    this.work = new Work({ caller: checker, explain, say, changed: () => this.changed() });
    this.paperSoon = settled(() => this.fillPaper(), 700);
    this.build();
    const kept = this.work.kept();
    this.work.open("program");
    if (kept?.program) { this.work.take({ unsaved: Object.keys(kept), ...kept }); say("what you wrote last is here again"); }
    else this.takeExample("filling");
  }

  build() {
    $("language_help").append(languageHelp(FIELDS));
    $("example").append(element("option", { value: "empty" }, "empty: begin with a program of three lines"), ...Object.entries(EXAMPLES).map(([name, { title }]) => element("option", { value: name }, `${name}: ${title}`)));
    $("example").onchange = event => { const name = event.target.value; event.target.value = ""; if (name) this.chooseExample(name); };
    $("open").onchange = event => { this.openFiles([...event.target.files]); event.target.value = ""; };
    $("run").onclick = () => this.run();
    $("stop").onclick = () => this.runner.stop();
    $("print").onclick = async () => { await this.fillPaper(); print(); };
    $("keys_text").append(element("table", {}, element("tbody", {}, ...KEYS.map(([key, what]) => element("tr", {}, element("td", {}, what ? element("kbd", {}, key) : element("strong", {}, key)), element("td", {}, what))))));
    this.buildSave();
    this.listen();
    for (const menu of document.querySelectorAll(".menu")) menu.addEventListener("toggle", () => placeBox(menu));
  }

  buildSave() {
    const texts = () => this.see.run?.origin === "run" ? this.see.run.texts : this.currentTexts;
    const written = async words => (await otherOutput(this.runner, texts(), words)).output;
    const report = () => written(["run"]);
    const decoded = async more => (await this.runner.call(["decode", ...more], {}, { input: await report() })).output;
    const inWords = () => this.see.run ? eventsText(this.see.run) : "";
    const text = name => [`${FILE_NAMES[name]}`, () => name === "log" ? this.log() : this.work.text(name), undefined, name];
    const files = [
      ...["program", "plate", "scenario", "log", "next"].map(text), ["job.txt", () => this.job(), "plate, programs and log in one file, which the program takes; the scenario is a file of its own"],
      ["picture.svg", () => written(["show"]), "the run, as `show` draws it"], ["report.txt", report, "what `run` prints"], ["report_in_words.txt", inWords, "what happened, and what the answers mean"],
      ["report_decoded.txt", () => decoded([]), "the report, as `decode` writes it"], ["report.csv", () => decoded(["--csv"]), "a table, for a spreadsheet"],
      ["trace.txt", () => written(["trace"]), "each scan line by line"], ["trace.jsonl", () => written(["trace", "--message", "json"]), "the same for programs"],
    ];
    $("save_list").replaceChildren(...files.map(([name, make, what, own]) => button(what ? `${name} – ${what}` : name, () => this.save(name, make, own))));
  }

  // Gives a file to the browser; says why if there is nothing to save, and of what it is if that is not what is written.
  async save(name, make, own) {
    $("save").open = false;
    $("save").firstElementChild.focus();
    try {
      const content = await make();
      if (!content) throw own ? "it is empty" : "there is no run";
      download(name, content, name.endsWith(".svg") ? "image/svg+xml" : "text/plain");
      if (own) this.work.saved[own] = content;
      const isOfRun = !own && name !== "job.txt", isTrace = this.see.run?.origin === "trace" && name !== "report_in_words.txt";
      say(`${name} is saved${!isOfRun ? "" : isTrace ? ": it is of the texts here, not of the trace" : document.body.classList.contains("stale") ? ": it is of the run below, of the texts before" : ""}`);
    } catch (why) {
      if (typeof why !== "string") throw why;
      say(`${name} is not saved: ${why}`);
    }
  }

  // The log; it is none of the scenario that is written if that has a mistake.
  log() {
    this.work.showScenario();
    if (this.work.mistake) throw `the scenario makes no log: ${this.work.mistake}`;
    return this.work.text("log");
  }

  job() {
    const parts = { ...this.currentTexts, log: this.log() }, lacks = ["plate", "program", "log"].filter(name => !parts[name].trim());
    if (lacks.length) throw `there is no ${listed(lacks)}`;
    if (!parts.next.trim()) delete parts.next;
    const whole = ["plate", "program", "next", "log"].filter(name => name in parts).map(name => `@${name}\n${parts[name].replace(/(?<!\n)$/, "\n")}`).join("");
    const others = Object.entries(sectionsOf(whole)).filter(([name, text]) => text.trimEnd() !== parts[name]?.trimEnd());
    if (others.length) throw `a line of the ${others[0][0]} is a heading of a job`;
    return whole;
  }

  listen() {
    addEventListener("keydown", event => this.key(event));
    addEventListener("beforeunload", () => this.work.keep());
    addEventListener("dragover", event => { event.preventDefault(); document.body.classList.add("dropping"); });
    addEventListener("dragleave", event => { if (!event.relatedTarget) document.body.classList.remove("dropping"); });
    addEventListener("drop", event => { event.preventDefault(); document.body.classList.remove("dropping"); this.openFiles([...event.dataTransfer.files]); }, true);
    addEventListener("click", event => { for (const menu of document.querySelectorAll(".menu[open]")) if (!menu.contains(event.target)) menu.open = false; });
  }

  key(event) {
    const isText = event.target.matches?.("input:not([type=checkbox]):not([type=radio]), select, textarea, [contenteditable]") || event.target.isContentEditable;
    if (event.ctrlKey && event.key === "Enter") { event.preventDefault(); this.run(); }
    else if (event.altKey && /^[1-5]$/.test(event.key)) { event.preventDefault(); const name = ["program", "plate", "scenario", "log", "next"][event.key - 1]; this.work.open(name); $(`tab_${name}`).focus(); }
    else if (event.key === "/" && !isText) { event.preventDefault(); $("what").focus(); $("what").select(); }
    else if (event.key === "Escape") {
      const menu = document.querySelector(".menu[open]");
      if (menu) { menu.open = false; menu.firstElementChild.focus(); }
    }
  }

  get currentTexts() { const { program, plate, next, log } = this.work.texts; return { program, plate, next, log }; }

  // Takes texts, and offers to bring back what was written and is in no file.
  replace(texts, said, isWhole = true) {
    if (this.work.unsaved.length) this.old = this.work.state;
    const done = this.work.take(texts, isWhole), { old } = this;
    const bringBack = () => { this.old = null; this.replace(old, "it is here again"); };
    say(said, ...(old ? [" ", button("bring back what was written", bringBack, { className: "small" })] : []));
    return done;
  }

  async chooseExample(name) {
    const names = listed(this.work.unsaved.map(it => `the ${LONG_NAMES[it] ?? it}`));
    if (names && await ask(`What is written here is not saved, and would be replaced: ${names}.`, ["Replace", "Cancel"]) !== "Replace") { say("the example is not taken"); return; }
    this.takeExample(name, true);
  }

  takeExample(name, isChosen = false) {
    if (name === "empty") return this.replace({ ...EMPTY, isByScenario: true }, "a program, a plate and a scenario to begin with");
    const texts = Object.fromEntries(Object.entries(EXAMPLES[name].files).map(([file, text]) => [NAMES_OF_FILES[file], text]));
    return this.replace({ ...texts, isByScenario: texts.scenario !== undefined }, isChosen ? `the example ${name}` : "this is the example filling: change it, or choose another");
  }

  async openFiles(files) {
    const { texts, said } = await readFiles(files), { trace, ...others } = texts, lost = this.lostBy(others), names = listed(lost.map(name => `the ${LONG_NAMES[name] ?? name}`));
    const answer = lost.length ? await ask(`What is written here is not saved, and would be replaced: ${names}. (${said})`, ["Keep mine", "Replace", "Cancel"]) : "Replace";
    if (answer === "" || answer === "Cancel") { say("nothing is opened"); return; }
    if (answer === "Keep mine") for (const name of [...lost, ...(lost.includes("log") ? ["scenario"] : [])]) delete others[name];
    await (Object.keys(others).length ? this.replace(others, said, false) : say(said));
    if (answer === "Keep mine") say(`kept as it was: ${names}`);
    if (trace === undefined) return;
    const run = await openTrace(this.checker, trace, this.currentTexts);
    if (typeof run === "string") { say(run); return; }
    this.dropRun();
    this.see.show(run);
    this.isStale(false);
    $("outcome").textContent = `${run.count} scans of the trace that was opened; variables have values only in the lines that wrote them`;
  }

  // Names of what is not saved and would be another text, or a log that gives way to a scenario.
  lostBy(texts) {
    const isOther = name => texts[name] !== undefined && texts[name] !== this.work.text(name);
    return this.work.unsaved.filter(name => isOther(name) || name === "log" && texts.log === undefined && texts.scenario !== undefined);
  }

  // after a text was changed and checked: runs it if nothing is refused
  changed() {
    const { run } = this.see, isSame = run && Object.entries(this.currentTexts).every(([name, text]) => run.texts[name] === text);
    if (this.work.obstacle) this.isStale(Boolean(run), this.work.obstacle);
    else if (isSame) this.isStale(false);
    else this.run();
  }

  isStale(is, why = "") {
    const { run } = this.see, below = run?.origin === "trace" ? "the trace that was opened" : "the run of the texts before";
    $("stale").textContent = why ? `${why}: ${is ? `below is ${below}` : "there is nothing to run"}` : run?.note ?? "";
    document.body.classList.toggle("stale", is);
  }

  // Ends a run that is under way; it shows nothing.
  dropRun() {
    this.number = (this.number ?? 0) + 1;
    if (this.isRunning) this.runner.stop();
    this.isRunning = false;
    $("stop").hidden = true;
  }

  // Runs what is written, in place of a run that is under way.
  async run() {
    if (this.work.obstacle) { this.isStale(Boolean(this.see.run), this.work.obstacle); return; }
    this.dropRun();
    const { number } = this;
    this.isRunning = true;
    const later = setTimeout(() => { $("stop").hidden = false; $("outcome").textContent = "running …"; }, 300);
    try {
      const run = await makeRun(this.runner, this.currentTexts, FIELDS);
      if (number === this.number) this.ended(run);
    } catch (error) {
      if (number === this.number) $("outcome").textContent = `the run was ended: ${error.message}`;
    } finally {
      clearTimeout(later);
      if (number === this.number) { this.isRunning = false; $("stop").hidden = true; }
    }
  }

  ended(run) {
    const refused = run.messages.length ? "; the log is refused, so the run ends there" : "", rows = `${run.rows.length} rows, ${run.count} scans, ${run.host.length} requests`;
    $("outcome").textContent = run.count ? rows + refused : `${rows}: the log has no scan, so there is nothing to see${refused}`;
    if (run.errors) $("outcome").textContent = `${rows}; ${run.errors}`;
    this.see.show(run);
    this.isStale(false);
    this.paperSoon();
  }

  async fillPaper() {
    const { run } = this.see;
    if (run && !this.isRunning) await fillPaper($("paper"), this.checker, run, this.identity);
  }
}

// a menu's box within the window
function placeBox(menu) {
  const box = menu.lastElementChild;
  box.style.left = "0";
  const { left, right } = box.getBoundingClientRect(), most = document.documentElement.clientWidth - 8;
  box.style.left = `${Math.max(8, Math.min(left, left - (right - most))) - left}px`;
}

start();
