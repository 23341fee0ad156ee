// The picture of a scenario's weight, and drawing on it: what is drawn becomes lines of the scenario.
import { timeText, listed } from "./elements.js";
import { roundStep, roundTime, merged } from "./steps.js";
import { readScenario, weightPoints, endOf, slopeAt, restOf } from "./scenario.js";

const EDGE = { left: 70, right: 12, top: 36, bottom: 28 };

export class Sketch {
  // drawn(from, to, lines): the user has drawn these lines over that time
  constructor(canvas, drawn) {
    this.canvas = canvas;
    this.drawn = drawn;
    this.points = [];
    this.stroke = null;
    new ResizeObserver(() => this.draw()).observe(canvas);
    matchMedia("(prefers-color-scheme: dark)").addEventListener("change", () => this.draw());
    canvas.addEventListener("pointerdown", event => { if (this.plate) { canvas.setPointerCapture(event.pointerId); this.stroke = [this.place(event)]; } });
    canvas.addEventListener("pointermove", event => { if (this.stroke) { this.stroke.push(this.place(event)); this.draw(); } });
    canvas.addEventListener("pointerup", () => this.end());
  }

  // the scenario may have a mistake: then the picture stays as it was
  show(text, plate) {
    this.plate = plate;
    try {
      const made = readScenario(text);
      this.last = endOf(made);
      this.points = plate ? weightPoints(made, plate) : [];
      this.inputs = made.inputs;
      this.requests = made.requests;
    } catch { return; }
    this.draw();
  }

  get most() { return Math.max(this.plate.max / 10 ** this.plate.decimals * 0.1, ...this.points.map(point => point[1])) * 1.25; }
  get least() { return Math.min(0, ...this.points.map(point => point[1])) * 1.1; }
  get wide() { return this.canvas.clientWidth - EDGE.left - EDGE.right; }
  get high() { return this.canvas.clientHeight - EDGE.top - EDGE.bottom; }
  x(ms) { return EDGE.left + ms / this.last * this.wide; }
  y(weight) { return EDGE.top + this.high - (weight - this.least) / (this.most - this.least) * this.high; }

  // a point of the pointer: milliseconds, and the weight as a multiple of e
  place(event) {
    const box = this.canvas.getBoundingClientRect(), e = this.plate.e / 10 ** this.plate.decimals;
    const ms = Math.round(Math.min(Math.max((event.clientX - box.left - EDGE.left) / this.wide, 0), 1) * this.last / 10) * 10;
    const weight = this.least + (EDGE.top + this.high - (event.clientY - box.top)) / this.high * (this.most - this.least);
    return [ms, Math.round(Math.min(Math.max(weight, this.least), this.most) / e) * e];
  }

  end() {
    const stroke = this.stroke;
    this.stroke = null;
    if (!stroke) return;
    const points = simplified(stroke.sort((a, b) => a[0] - b[0]), (this.most - this.least) / 50);
    const number = weight => weight.toFixed(this.plate.decimals), { unit } = this.plate;
    if (points.at(-1)[0] - points[0][0] < 20) { this.drawn(points[0][0], points[0][0], [`at ${points[0][0]} ms weight ${number(points[0][1])} ${unit}`]); return; }
    const lines = points.slice(1).map(([ms, weight], at) => `from ${points[at][0]} to ${ms} ms weight from ${number(points[at][1])} to ${number(weight)} ${unit}`)
      .filter((_, at) => points[at + 1][0] > points[at][0]);
    this.drawn(points[0][0], points.at(-1)[0], lines);
  }

  draw() {
    const { canvas, plate } = this;
    if (!canvas.clientWidth) return;
    const ratio = devicePixelRatio || 1, pen = canvas.getContext("2d"), css = getComputedStyle(document.documentElement), ink = name => css.getPropertyValue(`--${name}`).trim();
    canvas.width = canvas.clientWidth * ratio;
    canvas.height = canvas.clientHeight * ratio;
    pen.scale(ratio, ratio);
    pen.font = "12px system-ui, sans-serif";
    pen.textBaseline = "middle";
    pen.fillStyle = ink("faint");
    if (!plate || !this.points.length) { pen.fillText("no picture: the plate or the scenario cannot be read", EDGE.left, 30); return; }
    pen.strokeStyle = ink("line");
    pen.textAlign = "right";
    const step = roundStep((this.most - this.least) * 10 ** plate.decimals, 5) / 10 ** plate.decimals;
    for (let weight = Math.ceil(this.least / step) * step; weight <= this.most; weight += step) {
      pen.beginPath(); pen.moveTo(EDGE.left, this.y(weight)); pen.lineTo(EDGE.left + this.wide, this.y(weight)); pen.stroke();
      pen.fillText(`${Number(weight.toFixed(plate.decimals))} ${plate.unit}`, EDGE.left - 5, this.y(weight));
    }
    pen.textAlign = "center";
    const every = roundTime(this.last, Math.max(2, Math.floor(this.wide / 80)));
    for (let ms = 0; ms <= this.last; ms += every) pen.fillText(timeText(ms), Math.min(this.x(ms), EDGE.left + this.wide - 16), canvas.clientHeight - 9);
    const marks = (all, y, colour) => { pen.fillStyle = ink(colour); for (const { x, text } of merged(all, pen)) pen.fillText(text, x, y); };
    pen.textAlign = "left";
    marks(this.inputs.map(({ at, on, bit }) => [this.x(at), `I${bit}${on ? "↑" : "↓"}`]), 10, "net");
    marks(this.requests.map(({ at, texts }) => [this.x(at), texts.join(" ").slice(0, 6)]), 25, "accent");
    this.path(pen, this.points, ink("ink"));
    if (this.stroke) this.path(pen, this.stroke, ink("accent"));
  }

  path(pen, points, ink) {
    pen.strokeStyle = ink;
    pen.lineWidth = 1.8;
    pen.beginPath();
    for (const [ms, weight] of points) pen.lineTo(this.x(ms), this.y(weight));
    pen.stroke();
    pen.lineWidth = 1;
  }
}

// A drawn line with fewer points, none farther from it than `most` (Ramer, Douglas and Peucker).
function simplified(points, most) {
  if (points.length < 3) return points;
  const [first, last] = [points[0], points.at(-1)];
  let far = 0, place = 0;
  for (let at = 1; at < points.length - 1; at++) {
    const [ms, weight] = points[at], share = last[0] === first[0] ? 0 : (ms - first[0]) / (last[0] - first[0]);
    const distance = Math.abs(weight - (first[1] + (last[1] - first[1]) * share));
    if (distance > far) { far = distance; place = at; }
  }
  if (far <= most) return [first, last];
  return [...simplified(points.slice(0, place + 1), most), ...simplified(points.slice(place), most).slice(1)];
}

// A scenario in which the weights of a span of time are replaced by other lines, and a sentence that says what they replace; a slope goes on
// after the span. Of a scenario with a mistake only the sentence.
export function withDrawn(text, from, to, lines, unit) {
  let made;
  try { made = readScenario(text); } catch (mistake) { return { said: `nothing is drawn: in ${mistake.message}` }; }
  const rows = text.trim() ? text.replace(/\s*$/, "").split(/\r?\n/).map((row, at) => ({ row, line: at + 1 })) : [];
  const gone = new Set(made.segments.filter(it => it.from === from || it.from > from && it.from < to).map(it => it.line));
  const cut = slopeAt(made, from), slope = to > from ? slopeAt(made, to) : null;
  const kept = rows.filter(it => !gone.has(it.line)), next = Math.min(...gone, ...made.segments.filter(it => it.from >= to).map(it => it.line));
  const place = kept.findIndex(it => it.line >= next), at = place < 0 ? kept.length : place;
  kept.splice(at, 0, ...[...lines, ...(slope ? [restOf(slope, to, unit)] : [])].map(row => ({ row })));
  const replaced = rows.filter(it => gone.has(it.line)).map(it => `\`${it.row.trim()}\``), where = from === to ? `at ${timeText(from)}` : `from ${timeText(from)} to ${timeText(to)}`;
  const said = [`drawn ${where}`, replaced.length ? `in place of ${listed(replaced)}` : "",
    slope ? `the slope of line ${slope.line} goes on after it` : "", cut && cut.line !== slope?.line ? `the slope of line ${cut.line} ends at ${timeText(from)}` : ""];
  return { text: kept.map(it => it.row).join("\n") + "\n", said: said.filter(Boolean).join(", ") };
}
