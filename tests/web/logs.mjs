// The logs that the page makes of scenarios, in Node: reads an object {scenario, plate} on each line, writes the log or the mistake.
import { createInterface } from "node:readline";
import { makeLog, Mistake } from "../../web/scenario.js";
import { readPlate } from "../../web/plate.js";

for await (const line of createInterface({ input: process.stdin })) {
  const { scenario, plate } = JSON.parse(line);
  try { process.stdout.write(JSON.stringify(makeLog(scenario, readPlate(plate))) + "\n"); } catch (error) {
    if (!(error instanceof Mistake)) throw error;
    process.stdout.write(JSON.stringify(error.message) + "\n");
  }
}
