// The worker in which the page calls the program, so that the page always answers. It gets the module once, then calls, each with a
// number; it answers with that number, the status and what was written. A call may name a reader, which makes columns of the output.
import { callProgram } from "./program.js";
import { ReportColumns, LineIndex } from "./columns.js";

let loaded = null;
const READERS = { columns: more => new ReportColumns(more), lines: () => new LineIndex() };

self.onmessage = ({ data }) => {
  if (data.module) { loaded = data.module; return; }
  const { number, name, words, files, input, reader, more } = data;
  try {
    const reading = reader ? READERS[reader](more) : null;
    const { status, output, errors } = callProgram(loaded, words, files, input, reading && (chunk => reading.take(chunk)), name);
    self.postMessage({ number, status, output, errors, read: reading?.end() });
  } catch (error) {
    self.postMessage({ number, fault: String(error?.message ?? error) });
  }
};
