// What a user is asked to trust, and what identifies the program in the page.
import { element } from "./elements.js";

export const ABOUT = JSON.parse(document.getElementById("about").textContent);

const TRUSTED = [
  "all that the command line asks to trust as well: the toolchain of Rattle with its logic and its checker, and the libraries that it ports (the README names them)",
  "that the change of the module's target, from Linux on x86-64 to WebAssembly with a 64-bit memory, keeps what it means",
  "the compiler and the linker of that module, and 70 lines of C that it calls (web/runtime.c)",
  "the functions of the program's host in this page, with which it reads files in memory and writes (web/program.js)",
  "this browser's engine, and what this page shows of what the program wrote; the page computes no value of a program, a scale or a log itself, but the counts of a scenario",
];

export function showTrust(place, identity) {
  const proof = ABOUT.isProved
    ? "The program in this page is the LLVM module of the proved program, linked for Linux the same bytes as the program of the command line."
    : "The program in this page is NOT PROVED: it was made of a module for trying.";
  place.replaceChildren(
    element("p", {}, element("strong", {}, proof)),
    element("pre", { id: "identity" }, identity + `module sha256 ${ABOUT.moduleSha256}, ${ABOUT.moduleBytes} bytes\ncompiled by ${ABOUT.compiler}`),
    element("p", {}, "No result here is a legal one: the page is a simulation of a scale, and the log or the scenario takes the place of the load cell. Beyond the proof it is trusted:"),
    element("ul", {}, ...TRUSTED.map(text => element("li", {}, text))),
    element("p", {}, "tools/try_web compares this program with the one of the command line, byte for byte, on all worked cases, the examples and made logs. The page sends nothing to any network: the policy in its second line forbids it to the browser."),
    element("details", {}, element("summary", {}, "The editor in this page, and its licence"), element("pre", {}, ABOUT.editorLicence)));
}
