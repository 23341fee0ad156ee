// Calls the program of the page in Node: reads calls from standard input, an object on a line, and writes what each printed, an object on a line too.
//   node --experimental-wasm-memory64 tests/web/calls.mjs MODULE
import { readFileSync } from "node:fs";
import { createInterface } from "node:readline";
import { callProgram } from "../../web/program.js";

const module = new WebAssembly.Module(readFileSync(process.argv[2]));
const bytes = text => new Uint8Array(Buffer.from(text, "base64"));
const text = found => Buffer.from(found).toString("base64");

for await (const line of createInterface({ input: process.stdin })) {
  const { name, words, files, input } = JSON.parse(line);
  const given = Object.fromEntries(Object.entries(files).map(([path, content]) => [path, bytes(content)]));
  const { status, output, errors } = callProgram(module, words, given, bytes(input), null, name);
  process.stdout.write(JSON.stringify([status, text(output), text(errors)]) + "\n");
}
