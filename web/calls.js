// Calls of the program from the page: its module, the worker that runs it, and whether this browser can.

const bytesOf = text => Uint8Array.from(atob(text), letter => letter.charCodeAt(0));

// A module that is nothing but a 64-bit memory.
const MEMORY64 = new Uint8Array([0, 97, 115, 109, 1, 0, 0, 0, 5, 3, 1, 4, 1]);

// What this browser lacks, or an empty text.
export function lacking() {
  if (typeof WebAssembly === "undefined") return "no WebAssembly";
  if (!WebAssembly.validate(MEMORY64)) return "no WebAssembly with a 64-bit memory";
  return typeof DecompressionStream === "undefined" ? "no DecompressionStream" : "";
}

// The program's module, out of the page.
export async function loadModule() {
  const packed = new Blob([bytesOf(document.getElementById("module").textContent.replace(/\s/g, ""))]);
  const bytes = await new Response(packed.stream().pipeThrough(new DecompressionStream("gzip"))).arrayBuffer();
  return WebAssembly.compile(bytes);
}

// One call that has ended: what it wrote, as texts, and the objects of its messages.
class Answer {
  constructor({ status, output, errors, read }) {
    const decoder = new TextDecoder();
    this.status = status;
    this.output = decoder.decode(output);
    this.errors = decoder.decode(errors);
    this.read = read;
  }

  get messages() {
    return this.errors.split("\n").filter(line => line.startsWith("{")).map(line => JSON.parse(line));
  }
}

// A worker that calls the program, one call after the other. `stop` ends what is under way.
export class Caller {
  constructor(module) { this.module = module; this.number = 0; this.waiting = new Map(); this.start(); }

  start() {
    const address = URL.createObjectURL(new Blob([document.getElementById("worker").textContent], { type: "text/javascript" }));
    this.worker = new Worker(address);
    this.worker.onmessage = ({ data }) => this.answered(data);
    this.worker.onerror = event => this.failed(event.message);
    this.worker.postMessage({ module: this.module });
    URL.revokeObjectURL(address);
  }

  answered(data) {
    const waiting = this.waiting.get(data.number);
    this.waiting.delete(data.number);
    if (data.fault) waiting?.refuse(new Error(data.fault));
    else waiting?.give(new Answer(data));
  }

  failed(why) {
    for (const { refuse } of this.waiting.values()) refuse(new Error(why));
    this.waiting.clear();
  }

  // words: arguments; files: texts by name; input: the text of standard input; reader: one of worker.js, with what it needs
  call(words, files = {}, { input = "", reader, more } = {}) {
    const encoder = new TextEncoder(), number = ++this.number;
    const bytes = Object.fromEntries(Object.entries(files).map(([name, text]) => [name, encoder.encode(text)]));
    return new Promise((give, refuse) => {
      this.waiting.set(number, { give, refuse });
      this.worker.postMessage({ number, words, files: bytes, input: encoder.encode(input), reader, more });
    });
  }

  get isBusy() { return this.waiting.size > 0; }

  stop() {
    this.worker.terminate();
    this.failed("stopped");
    this.start();
  }
}
