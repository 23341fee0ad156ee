// The rows of a log as the page needs them: what is at which moment. The program reads and checks the log; this only cuts it.

export const HEADING = "ms,kind,data\n";

// The rows after the heading, as far as each has three fields: { ms, kind, data }.
export function rowsOf(text) {
  const rows = [];
  let isHeading = true;
  for (const line of text.replace(/^\ufeff/, "").split(/\r\n|\n|\r/)) {
    if (!line) continue;
    const fields = line.split(",").map(field => /^".*"$/.test(field) ? field.slice(1, -1) : field);
    if (!isHeading) {
      if (fields.length !== 3 || !/^\d+$/.test(fields[0])) break;
      rows.push({ ms: Number(fields[0]), kind: fields[1], data: fields[2] });
    }
    isHeading = false;
  }
  return rows;
}

// A log in which a scan follows each sample and each request, and no other is: with a program that does nothing it shows the indication
// between the scans of a run.
export function sampledLog(rows) {
  const lines = [];
  for (const { ms, kind, data } of rows)
    if (kind === "C" || kind === "L") lines.push(`${ms},${kind},${data}\n${ms},S,\n`);
  return HEADING + lines.join("");
}

// The bytes of the host in a row `L`, as text: a request by its text, other bytes that are no characters of ASCII in hexadecimal digits.
export function bytesText(hex) {
  const all = String.fromCharCode(...(hex.match(/../g) ?? []).map(pair => parseInt(pair, 16)));
  const requests = all.replace(/\n([ -~]*)\r/g, (_, text) => ` ${text || "(empty)"} `);
  return requests.replace(/[^ -~]/g, letter => `\\x${letter.charCodeAt(0).toString(16).padStart(2, "0")}`).replace(/ +/g, " ").trim();
}
