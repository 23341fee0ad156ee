// The language in short, next to the program: docs/LANGUAGE.md has it whole. Words and fields are those of the program's own tables.
import { element } from "./elements.js";
import { STATUS_NAMES } from "./run.js";

const MEANINGS = [
  ["%IX0.0 … %IX0.15", "inputs, BOOL"], [`%IX1.0 … %IX1.${STATUS_NAMES.length - 1}`, STATUS_NAMES.join(", ")],
  ["%ID0, %ID1, %ID2", "gross, net, tare in units of the last decimal; 0 when not valid"], ["%QX0.0 … %QX0.15", "outputs, BOOL"], ["%QD0 … %QD3", "output words, DINT"],
];
const LINES_IN_SHORT = [
  ["LD a, ST a", "loads into the current result, stores it; LDN and STN negate it"], ["S a, R a", "sets or clears a, if the result is TRUE"],
  ["AND a, OR a, XOR a, NOT", "of BOOL; ANDN, ORN, XORN negate a"], ["ADD a, SUB a, MUL a, DIV a, MOD a", "of DINT or TIME"], ["GT a, GE a, EQ a, NE a, LE a, LT a", "compare; the result is BOOL"],
  ["JMP l, JMPC l, JMPCN l", "jumps on to the label l: always, if TRUE, if FALSE"], ["CAL t(IN := a, PT := T#1s, Q => b)", "calls an instance of a block; CALC, CALCN if TRUE, if FALSE"],
  ["RET, RETC, RETCN", "ends the unit"], ["(* .. *)", "a comment"], ["7, -7, 16#FF; T#1s500ms; TRUE", "a DINT, a TIME, a BOOL"],
];

const table = rows => element("table", {}, element("tbody", {}, ...rows.map(([left, right]) => element("tr", {}, element("td", { className: "code" }, left), element("td", {}, right)))));

export function languageHelp(fields) {
  const blocks = Object.entries(fields).map(([name, all]) => [name, all.map(([field, section, type]) => `${field} : ${type}${section === "Output" ? " (output)" : ""}`).join(", ")]);
  return element("details", {}, element("summary", {}, "The language in short"),
    element("h2", {}, "Addresses"), table(MEANINGS), element("h2", {}, "Lines"), table(LINES_IN_SHORT), element("h2", {}, "Standard blocks"), table(blocks));
}
