// Readers of what the program writes, a chunk at a time: columns of numbers of a watched report, and which lines ran in which scan of a
// trace. They read, and compute nothing of a program or a scale.

// Cuts chunks of bytes into lines.
class Lines {
  constructor() { this.decoder = new TextDecoder(); this.rest = ""; }

  take(chunk) {
    const parts = (this.rest + this.decoder.decode(chunk, { stream: true })).split("\n");
    this.rest = parts.pop();
    for (const line of parts) this.line(line);
  }
}

// A column that grows.
class Column {
  constructor() { this.values = new Float64Array(256); this.count = 0; }

  push(value) {
    if (this.count === this.values.length) {
      const larger = new Float64Array(2 * this.count);
      larger.set(this.values);
      this.values = larger;
    }
    this.values[this.count++] = value;
  }

  end() { return this.values.slice(0, this.count); }
}

// The number that a value of a `V` line is kept as: 1 and 0 of a BOOL, the milliseconds of a TIME.
export function numberOf(text) {
  if (text === "TRUE") return 1;
  if (text === "FALSE") return 0;
  return text.startsWith("T#") ? Number(text.slice(2, -2)) : Number(text);
}

// Columns of a report with `V` lines: a scan is a row. A name that the running program does not have is NaN there.
export class ReportColumns extends Lines {
  constructor({ names }) {
    super();
    this.names = names;
    this.watched = names.map(() => new Column());
    this.own = Object.fromEntries(["ms", "steps", "bits", "QD0", "QD1", "QD2", "QD3"].map(name => [name, new Column()]));
    this.answers = [];
    this.refused = "";
  }

  line(text) {
    const words = text.split(" ");
    if (words[0] === "S") this.scan(words);
    else if (words[0] === "V") this.values(words);
    else if (words[0] === "L") this.answers.push(text);
    else if (words[0] === "refused") this.refused = text;
  }

  scan(words) {
    Object.values(this.own).forEach((column, at) => column.push(at === 2 ? parseInt(words[3], 16) : Number(words[at + 1])));
  }

  // the names of the line are some of those asked for, in their order
  values(words) {
    let at = 2;
    this.names.forEach((name, place) => {
      const is = words[at]?.startsWith(name + "=");
      this.watched[place].push(is ? numberOf(words[at].slice(name.length + 1)) : NaN);
      if (is) at++;
    });
  }

  end() {
    const columns = Object.fromEntries(this.names.map((name, at) => [name, this.watched[at].end()]));
    const own = Object.fromEntries(Object.entries(this.own).map(([name, column]) => [name, column.end()]));
    return { columns, own, answers: this.answers, refused: this.refused };
  }
}

// For each line of a text the scans of a trace (from 0) in which it ran.
export class LineIndex extends Lines {
  constructor() { super(); this.count = 0; this.ran = new Map(); }

  line(text) {
    if (!text.startsWith('{"scan":')) return;
    const program = Number(/"program":(\d)/.exec(text)?.[1] ?? 1);
    for (const line of new Set([...text.matchAll(/"line":(\d+)/g)].map(found => found[1]))) {
      const key = `${program}:${line}`;
      if (!this.ran.has(key)) this.ran.set(key, new Column());
      this.ran.get(key).push(this.count);
    }
    this.count++;
  }

  end() { return new Map([...this.ran].map(([key, column]) => [key, column.end()])); }
}
