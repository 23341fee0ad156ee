// The curves of a run over time: the weights, and below them a lane for each request, input, output and chosen variable. The cursor is on
// a scan; the canvas itself is the control that moves it.
import { timeText } from "./elements.js";
import { roundStep, roundTime, merged } from "./steps.js";

const LEFT = 104, RIGHT = 84, TOP = 8, WEIGHTS_HIGH = 190, AXIS_HIGH = 24, BIT_HIGH = 17, NUMBER_HIGH = 36;
export class Curves {
  // moved(index) is called when the user moves the cursor
  constructor(canvas, moved) {
    this.canvas = canvas;
    this.moved = moved;
    this.run = this.before = null;
    this.lanes = [];
    this.at = 0;
    this.from = 0;
    this.to = 1;
    new ResizeObserver(() => this.draw()).observe(canvas);
    matchMedia("(prefers-color-scheme: dark)").addEventListener("change", () => this.draw());
    this.listen();
  }

  set(run, before, lanes) {
    const isSame = this.run && run && this.first === firstOf(run) && this.last === lastOf(run);
    this.run = run;
    this.before = before;
    this.lanes = lanes;
    if (!isSame) this.showAll();
    else this.draw();
  }

  showAll() {
    if (!this.run) return;
    this.first = firstOf(this.run);
    this.last = lastOf(this.run);
    this.view(this.first, this.last);
  }

  view(from, to) {
    const length = Math.min(Math.max(to - from, 5), Math.max(5, this.last - this.first));
    this.from = Math.min(Math.max(from, this.first), Math.max(this.first, this.last - length));
    this.to = this.from + length;
    this.draw();
  }

  zoom(factor, around = this.run ? this.run.ms(this.at) : 0) {
    this.view(around - (around - this.from) * factor, around + (this.to - around) * factor);
  }

  // moves the cursor to a scan, and the view with it
  go(index) {
    this.at = index;
    const ms = this.run.ms(index), length = this.to - this.from;
    if (ms < this.from || ms > this.to) this.view(ms - length / 2, ms + length / 2);
    else this.draw();
  }

  get span() { return this.canvas.clientWidth - LEFT - RIGHT; }
  x(ms) { return LEFT + (ms - this.from) / (this.to - this.from) * this.span; }
  ms(x) { return this.from + (x - LEFT) / this.span * (this.to - this.from); }

  listen() {
    const pick = event => {
      if (!this.run?.count || !(event.buttons & 1)) return;
      const ms = this.ms(event.clientX - this.canvas.getBoundingClientRect().left), at = this.run.scanAt(ms);
      const isNextNearer = at + 1 < this.run.count && this.run.ms(at + 1) - ms < ms - this.run.ms(at);
      this.moved(isNextNearer ? at + 1 : at);
    };
    this.canvas.addEventListener("pointerdown", event => { this.canvas.setPointerCapture(event.pointerId); this.canvas.focus(); pick(event); });
    this.canvas.addEventListener("pointermove", pick);
    this.canvas.addEventListener("wheel", event => {
      if (!event.ctrlKey || !this.run) return;
      event.preventDefault();
      this.zoom(event.deltaY > 0 ? 1.25 : 0.8, this.ms(event.clientX - this.canvas.getBoundingClientRect().left));
    }, { passive: false });
  }

  get height() {
    return TOP + WEIGHTS_HIGH + this.lanes.reduce((sum, lane) => sum + this.laneHeight(lane), 0) + AXIS_HIGH;
  }

  laneHeight(lane) { return (lane.isBit ? BIT_HIGH : NUMBER_HIGH) * (this.before && !lane.isHost ? lane.isBit ? 1.6 : 1 : 1); }

  draw() {
    const { canvas } = this;
    if (!this.run || !canvas.clientWidth) return;
    const ratio = devicePixelRatio || 1, high = this.height;
    canvas.style.height = `${high}px`;
    canvas.width = Math.round(canvas.clientWidth * ratio);
    canvas.height = Math.round(high * ratio);
    this.pen = canvas.getContext("2d");
    this.pen.scale(ratio, ratio);
    this.pen.textBaseline = "middle";
    this.pen.font = "12px system-ui, sans-serif";
    const css = getComputedStyle(document.documentElement);
    this.ink = name => css.getPropertyValue(`--${name}`).trim();
    this.drawTime(high);
    this.drawWeights();
    let top = TOP + WEIGHTS_HIGH;
    for (const lane of this.lanes) {
      this.drawLane(lane, top, this.laneHeight(lane));
      top += this.laneHeight(lane);
    }
    this.drawChange(high);
    this.drawCursor(high);
  }

  line(x, y, toX, toY, ink, dash = []) {
    const { pen } = this;
    pen.strokeStyle = this.ink(ink);
    pen.setLineDash(dash);
    pen.beginPath();
    pen.moveTo(x, y);
    pen.lineTo(toX, toY);
    pen.stroke();
    pen.setLineDash([]);
  }

  // a text over curves, which stays apart from them
  mark(text, x, y, ink, align = "left") {
    const { pen } = this;
    Object.assign(pen, { strokeStyle: this.ink("paper"), lineWidth: 4, lineJoin: "round", textAlign: align });
    pen.strokeText(text, x, y);
    this.label(text, x, y, ink, align);
  }

  label(text, x, y, ink = "faint", align = "left", width = undefined) {
    this.pen.fillStyle = this.ink(ink);
    this.pen.textAlign = align;
    this.pen.fillText(text, x, y, width);
  }

  drawTime(high) {
    const step = roundTime(this.to - this.from, Math.max(2, Math.floor(this.span / 90)));
    this.pen.lineWidth = 1;
    for (let ms = Math.ceil(this.from / step) * step; ms <= this.to; ms += step) {
      this.line(this.x(ms), TOP, this.x(ms), high - AXIS_HIGH, "line");
      this.label(timeText(ms), this.x(ms), high - AXIS_HIGH / 2, "faint", "center");
    }
  }

  drawChange(high) {
    const { run } = this, x = run.changedAt < run.count ? this.x(run.ms(run.changedAt)) : -1;
    if (x < LEFT || x > LEFT + this.span) return;
    this.line(x, TOP, x, high - AXIS_HIGH, "net", [6, 3]);
    this.mark("next program", x + 3, TOP + 8, "net");
  }

  // the weights: of the samples, or of the scans if samples are not shown
  series(run) {
    return run.samples ?? { ms: run.own.ms, ...run.columns };
  }

  drawWeights() {
    const { run } = this, before = this.isComparable ? this.before : null, series = this.series(run), scale = this.weightScale([series, ...(before ? [this.series(before)] : [])]);
    this.pen.save();
    this.pen.lineWidth = 1;
    for (let weight = Math.ceil(scale.least / scale.step) * scale.step; weight <= scale.most; weight += scale.step) {
      this.line(LEFT, scale.y(weight), LEFT + this.span, scale.y(weight), "line");
      this.label(run.weight(weight), LEFT - 6, scale.y(weight), "faint", "right", LEFT - 10);
    }
    this.clip(TOP, WEIGHTS_HIGH);
    this.drawGaps(series);
    if (before) this.curve(this.series(before), "%ID0", scale, "old", [2, 3]);
    this.curve(series, "%ID1", scale, "net", [7, 4], "%IX1.4");
    this.curve(series, "%ID0", scale, "ink", []);
    this.pen.restore();
    this.label("— gross", LEFT + this.span + 6, TOP + 8, "ink");
    this.label("- - net", LEFT + this.span + 6, TOP + 24, "net");
    if (before) this.label("··· before", LEFT + this.span + 6, TOP + 40, "old");
  }

  clip(top, high) {
    this.pen.beginPath();
    this.pen.rect(LEFT, top, this.span, high);
    this.pen.clip();
  }

  weightScale(all) {
    let least = 0, most = 0;
    for (const series of all)
      for (let index = 0; index < series.ms.length; index++) {
        if (!series["%IX1.5"][index]) continue;
        for (const name of series["%IX1.4"][index] ? ["%ID0", "%ID1"] : ["%ID0"]) {
          least = Math.min(least, series[name][index]);
          most = Math.max(most, series[name][index]);
        }
      }
    if (most === least) most = least + 10;
    const step = roundStep(most - least, 6), margin = (most - least) * 0.06;
    least -= margin;
    most += margin;
    return { least, most, step, y: weight => TOP + WEIGHTS_HIGH - 8 - (weight - least) / (most - least) * (WEIGHTS_HIGH - 16) };
  }

  // where no weight is valid
  drawGaps(series) {
    const { ms } = series, valid = series["%IX1.5"];
    for (let index = 0; index < ms.length; index++) {
      if (valid[index]) continue;
      const first = index;
      while (index + 1 < ms.length && !valid[index + 1]) index++;
      const x = this.x(ms[first]), wide = Math.max(2, this.x(ms[Math.min(index + 1, ms.length - 1)]) - x);
      this.pen.fillStyle = this.ink("band");
      this.pen.fillRect(x, TOP, wide, WEIGHTS_HIGH);
      const why = series["%IX1.1"][first] ? "over" : series["%IX1.2"][first] ? "under" : "no sample";
      if (wide > 50) this.mark(why, x + wide / 2, TOP + WEIGHTS_HIGH / 2, "faint", "center");
    }
  }

  // a curve that holds each weight until the next; of several in one column of pixels the least and the greatest are drawn
  curve(series, name, scale, ink, dash, only = null) {
    const { ms } = series, values = series[name], valid = series["%IX1.5"], { pen } = this;
    pen.strokeStyle = this.ink(ink);
    pen.lineWidth = 1.6;
    pen.setLineDash(dash);
    pen.beginPath();
    let isOpen = false, lastX = NaN, lastY = 0;
    const first = Math.max(0, firstAfter(ms, this.from) - 1), end = Math.min(ms.length, firstAfter(ms, this.to) + 1);
    for (let index = first; index < end; index++) {
      if (!valid[index] || only && !series[only][index]) { isOpen = false; continue; }
      const x = this.x(ms[index]), y = scale.y(values[index]);
      if (!isOpen) pen.moveTo(x, y);
      else { if (x - lastX > 1.5) pen.lineTo(x, lastY); pen.lineTo(x, y); }
      isOpen = true;
      lastX = x;
      lastY = y;
    }
    pen.stroke();
    pen.setLineDash([]);
  }

  drawLane(lane, top, high) {
    const { run, before } = this, middle = top + high / 2;
    this.pen.lineWidth = 1;
    this.line(4, top + 0.5, LEFT + this.span, top + 0.5, "line");
    let range = "";
    this.pen.save();
    this.clip(top, high);
    if (lane.isHost) this.drawHost(top, high);
    else if (lane.isBit) {
      this.bars(run, lane.name, top + 3, before ? high / 1.6 - 5 : high - 6, "on", false);
      if (before) this.bars(before, lane.name, top + high / 1.6, high - high / 1.6 - 2, "old", true);
    } else range = this.steps(lane, top, high);
    this.pen.restore();
    this.label(lane.name, LEFT - 6, range ? middle - 7 : middle, "ink", "right", LEFT - 10);
    if (range) this.label(range, LEFT - 6, middle + 8, "faint", "right", LEFT - 10);
    if (!lane.isHost && run.count) this.label(run.text(lane.name, run.value(lane.name, this.at)), LEFT + this.span + 6, middle, "ink", "left", RIGHT - 8);
  }

  drawHost(top, high) {
    const seen = this.run.host.map(({ ms, sent }) => [this.x(ms) + 3, sent.slice(0, 8)]).filter(([x]) => x > LEFT - 20 && x < LEFT + this.span + 20);
    for (const [x] of seen) this.line(x - 3, top + 2, x - 3, top + high, "accent");
    for (const { x, text } of merged(seen, this.pen)) this.label(text, x, top + high / 2, "accent");
  }

  bars(run, name, top, high, ink, isHollow) {
    const { pen } = this, { ms } = run.own;
    pen.fillStyle = pen.strokeStyle = this.ink(ink);
    for (let index = Math.max(0, firstAfter(ms, this.from) - 1); index < run.count && ms[index] <= this.to; index++) {
      if (run.value(name, index) !== 1) continue;
      const first = index;
      while (index + 1 < run.count && run.value(name, index + 1) === 1) index++;
      const x = this.x(ms[first]), wide = Math.max(1.5, this.x(ms[Math.min(index + 1, run.count - 1)]) - x);
      if (isHollow) pen.strokeRect(x, top, wide, high);
      else pen.fillRect(x, top, wide, high);
    }
  }

  steps(lane, top, high) {
    const { run, before } = this;
    let least = Infinity, most = -Infinity;
    for (const it of before ? [run, before] : [run])
      for (let index = 0; index < it.count; index++) {
        const value = it.value(lane.name, index);
        if (!Number.isNaN(value)) { least = Math.min(least, value); most = Math.max(most, value); }
      }
    if (least > most) return "";
    const y = value => top + high - 5 - (most === least ? 0.5 : (value - least) / (most - least)) * (high - 10);
    if (before) this.stepsOf(before, lane.name, y, "old", [2, 3]);
    this.stepsOf(run, lane.name, y, "on", []);
    return most === least ? "" : `${run.text(lane.name, least)} to ${run.text(lane.name, most)}`;
  }

  stepsOf(run, name, y, ink, dash) {
    const { pen } = this, { ms } = run.own;
    pen.strokeStyle = this.ink(ink);
    pen.lineWidth = 1.4;
    pen.setLineDash(dash);
    pen.beginPath();
    let isOpen = false, last = 0;
    for (let index = Math.max(0, firstAfter(ms, this.from) - 1); index < run.count; index++) {
      const value = run.value(name, index);
      if (Number.isNaN(value)) { isOpen = false; continue; }
      const x = this.x(ms[index]);
      if (isOpen) { pen.lineTo(x, last); pen.lineTo(x, y(value)); } else pen.moveTo(x, y(value));
      isOpen = true;
      last = y(value);
      if (ms[index] > this.to) break;
    }
    pen.stroke();
    pen.setLineDash([]);
  }

  drawCursor(high) {
    if (!this.run.count) return;
    const x = this.x(this.run.ms(this.at));
    this.pen.lineWidth = 2;
    this.line(x, TOP, x, high - AXIS_HIGH + 4, "accent");
    this.pen.fillStyle = this.ink("accent");
    this.pen.beginPath();
    this.pen.moveTo(x - 6, 0);
    this.pen.lineTo(x + 6, 0);
    this.pen.lineTo(x, TOP);
    this.pen.fill();
  }
}

// the place of the first moment above `ms`
function firstAfter(moments, ms) {
  let low = 0, high = moments.length;
  while (low < high) { const middle = low + high >> 1; if (moments[middle] <= ms) low = middle + 1; else high = middle; }
  return low;
}

const firstOf = run => Math.min(run.rows?.[0]?.ms ?? Infinity, run.count ? run.ms(0) : Infinity, 1e15);
const lastOf = run => Math.max(run.rows?.at(-1)?.ms ?? 0, run.count ? run.ms(run.count - 1) : 0);

// The lanes of a run: requests, what changed of inputs and outputs in it or in the run that is kept, or differs between them, and other names
// that the user has chosen; `chosen` maps names to whether.
export function lanesOf(run, chosen, before) {
  const lanes = run.host.length ? [{ name: "host", isHost: true, isBit: true }] : [];
  const isStill = name => run.isFlat(name) && (!before?.count || before.isFlat(name) && Object.is(before.value(name, 0), run.value(name, 0)));
  const image = run.names.filter(name => /^%(IX0|QX|QD)/.test(name) && (chosen.get(name) ?? !isStill(name)));
  const names = [...image, ...[...chosen.keys()].filter(name => chosen.get(name) && run.names.includes(name) && !image.includes(name))];
  return [...lanes, ...names.slice(0, 40).map(name => ({ name, isBit: run.typeOf(name) === "BOOL" }))];
}
