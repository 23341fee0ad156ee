// What an answer of the scale means, in words: of what `decode` writes of it, and of the request (docs/INSTRUMENT.md, 2 and 3).

const DONE = { Z: "zero is set", T: "the tare is set", C: "the tare is cleared" };
const INVALID = { over: ": the load is above the range", under: ": the load is below the range", "no sample": ": no sample has come" };
const REFUSED = { "zero refused": "zero is not set", "tare refused": "the tare is not set" };

// `answer` as `14720 kg gross, in motion, tare refused`; the request is not known if its bytes came in several rows.
export function meaningOf(request, answer) {
  if (answer === "not understood") return "the scale knows no such request";
  const [weight, motion, state = ""] = answer.split(", "), isValid = /\d/.test(weight), isMoving = motion === "in motion";
  if (REFUSED[state]) return `${REFUSED[state]}: ${!isValid ? "no weight is valid" : isMoving ? "the weight is in motion" : "the weight is out of the range for that"}`;
  const what = isValid ? request === "M" ? "the value of the tare" : isMoving ? "a weight in motion" : "a weight at rest" : `no valid weight${INVALID[state] ?? ""}`;
  return [DONE[request], what].filter(Boolean).join("; ");
}

// The requests whose first and last bytes are in the bytes of a row `L`.
export const requestsIn = hex => [...hex.matchAll(/0a((?:(?!0[ad]|1b)..)*)0d/g)].map(([, text]) => text.replace(/../g, pair => String.fromCharCode(parseInt(pair, 16))));
