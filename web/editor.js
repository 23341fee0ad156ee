// The editor of a text, over CodeMirror: colours of the language, and marks of what the program says of the text.
import { element } from "./elements.js";

const LANGUAGE = JSON.parse(document.getElementById("language").textContent);
const GROUPS = {
  operator: "operator", jump: "operator", call: "operator", return: "operator", unit: "keyword", unit_end: "keyword", section: "keyword",
  section_end: "keyword", kept: "keyword", truth: "atom", type: "type", block: "builtin",
};
const STYLES = new Map(Object.entries(GROUPS).flatMap(([group, style]) => LANGUAGE.words[group].map(word => [word, style])));
const ADDRESSES = new Set(LANGUAGE.addresses.flatMap(address => [address, address.replace(/^%([IQ])X/, "%$1")]));

// The style of the next token of a program text; a comment may go on over lines.
function programToken(stream, state) {
  if (state.isComment || stream.match("(*")) {
    state.isComment = !stream.match(/^.*?\*\)/);
    if (state.isComment) stream.skipToEnd();
    return "comment";
  }
  if (stream.eatSpace()) return null;
  const address = stream.match(/^%[A-Za-z]+[\d.]*/);
  if (address) return ADDRESSES.has(address[0].toUpperCase()) ? "variable-2" : null;
  if (stream.match(/^(?:T|TIME)#-?[\w.]+/i) || stream.match(/^(?:BOOL|DINT)#[+-]?[\w#]+/i) || stream.match(/^\d[\w#]*/)) return "number";
  const word = stream.match(/^\w+/);
  if (word) return STYLES.get(word[0].toUpperCase()) ?? null;
  stream.next();
  return null;
}

CodeMirror.defineMode("il", () => ({ startState: () => ({ isComment: false }), token: programToken }));

const SCENARIO_WORDS = /^(?:samples|scans|every|at|from|to|weight|input|request|next|program|noise|seed|until|on|off)\b/;
const simple = (comment, words) => () => ({
  token(stream) {
    if (stream.match(comment)) { stream.skipToEnd(); return "comment"; }
    if (stream.match(words)) return "keyword";
    if (stream.match(/^"[^"]*"?/)) return "string";
    if (stream.match(/^-?\d[\d_.]*/)) return "number";
    if (!stream.match(/^\w+/)) stream.next();
    return null;
  },
});
CodeMirror.defineMode("scenario", simple("#", SCENARIO_WORDS));
CodeMirror.defineMode("plate", simple("#", /^\w+(?=\s*=)/));
CodeMirror.defineMode("log", simple("\u0000", /^[CLISP](?=,)/));

// the place in a line of CodeMirror of a column that counts characters
function placeOf(text, column) { return [...text].slice(0, column - 1).join("").length; }

// characters of a text that can be edited, and lines of a longer one that are shown
const MOST_EDITED = 200000;
export const MOST_SHOWN = 500;

export class Editor {
  // mode: il, scenario, plate or log; changed(text) is called after each change by the user
  constructor(place, mode, label, changed) {
    this.held = null;
    this.ending = "\n";
    // its other style of input, an editable element, loses what is typed over a selection of many lines
    this.mirror = CodeMirror(place, {
      mode, lineNumbers: true, inputStyle: "textarea", screenReaderLabel: label, extraKeys: { Tab: false, "Shift-Tab": false },
      gutters: mode === "il" ? ["gutter-messages", "CodeMirror-linenumbers", "gutter-path"] : ["gutter-messages", "CodeMirror-linenumbers"],
      indentUnit: 4, smartIndent: false, spellcheck: false, autocorrect: false, autocapitalize: false,
      cursorBlinkRate: matchMedia("(prefers-reduced-motion: reduce)").matches ? 0 : 530,
    });
    this.mirror.on("change", (_, change) => { if (change.origin !== "setValue") changed(this.text); });
    this.marks = [];
  }

  // A text that is too long to be edited is held, and its first lines are shown.
  get text() { return this.held ?? this.mirror.getValue(this.ending); }
  set text(text) {
    if (text === this.text) return;
    this.held = text.length > MOST_EDITED ? text : null;
    // the lines end as those of the file
    this.ending = text.includes("\r\n") ? "\r\n" : "\n";
    this.mirror.setValue(this.isCut ? text.split("\n", MOST_SHOWN).join("\n") : text);
    this.mirror.clearHistory();
    this.isReadOnly = this.isLocked;
  }

  get isCut() { return this.held !== null; }
  set isReadOnly(is) {
    this.isLocked = is === true;
    const now = this.isLocked || this.isCut;
    if (this.mirror.getOption("readOnly") !== now) this.mirror.setOption("readOnly", now);
  }

  // Changes the text as its user does, so that it can be undone: from the first letter that differs to the last.
  change(text) {
    const { mirror } = this, old = mirror.getValue(), now = text.replaceAll("\r\n", "\n"), most = Math.min(old.length, now.length);
    let first = 0, last = 0;
    while (first < most && old[first] === now[first]) first++;
    while (last < most - first && old.at(-1 - last) === now.at(-1 - last)) last++;
    mirror.replaceRange(now.slice(first, now.length - last), mirror.posFromIndex(first), mirror.posFromIndex(old.length - last), "change");
  }

  undo() { this.mirror.undo(); }

  // after its panel was hidden
  refresh() { this.mirror.refresh(); }

  goTo(line, column = 1) {
    const at = { line: line - 1, ch: placeOf(this.mirror.getLine(line - 1) ?? "", column) };
    this.mirror.focus();
    this.mirror.setCursor(at);
    this.mirror.scrollIntoView(at, 80);
  }

  clear() {
    for (const mark of this.marks) mark.clear();
    this.marks = [];
    this.mirror.clearGutter("gutter-messages");
    if (this.mirror.getOption("mode") === "il") this.mirror.clearGutter("gutter-path");
  }

  // Marks each message at its place: { line, column, endColumn, isWarning, sentence }.
  showMessages(messages) {
    this.clear();
    const placed = messages.filter(it => it.line && it.line <= this.mirror.lineCount());
    for (const [line, own] of Map.groupBy(placed, it => it.line)) {
      const isWarning = own.every(it => it.isWarning), title = own.map(it => it.sentence).join("\n");
      this.mirror.setGutterMarker(line - 1, "gutter-messages", element("span", { className: `sign ${isWarning ? "suspicious" : "mistake"}`, title },
        isWarning ? "▲" : "●", own.length > 1 ? element("sup", {}, String(own.length)) : null));
    }
    for (const { line, column, endColumn, isWarning, sentence } of placed) {
      if (!column) continue;
      const kind = isWarning ? "suspicious" : "mistake", text = this.mirror.getLine(line - 1);
      const from = placeOf(text, column), to = Math.max(placeOf(text, endColumn), from + 1);
      this.marks.push(this.mirror.markText({ line: line - 1, ch: from }, { line: line - 1, ch: to }, { className: `underlined ${kind}`, title: sentence }));
    }
  }

  // Marks the lines of the units' worst paths at the margin: Map of line to a sentence.
  showPath(lines) {
    for (const [line, sentence] of lines)
      this.mirror.setGutterMarker(line - 1, "gutter-path", element("div", { className: "on-path", title: sentence }));
  }
}
