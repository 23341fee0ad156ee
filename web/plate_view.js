// The form of the plate over its text: each value changes the text where it is, and the text fills the form.
import { element, weightText } from "./elements.js";
import { readPlate, withValue, allowedDecimals, allowedIntervals, UNITS, LEAST_INTERVALS, MOST_INTERVALS } from "./plate.js";

const LABELS = {
  unit: "unit", decimals: "decimals", e: "interval e (units of the last decimal)", max: "Max (units of the last decimal)", zero_counts: "counts of the empty scale",
  span_counts: "counts from zero to Max", window: "samples that decide whether it is stable",
};

export class PlateForm {
  // changed(text): the text after a value of the form was changed
  constructor(form, hint, changed) {
    this.hint = hint;
    this.fields = {};
    for (const [key, label] of Object.entries(LABELS)) {
      const isChoice = ["unit", "decimals", "e"].includes(key);
      const field = isChoice ? element("select") : element("input", { type: "number", step: 1 });
      field.addEventListener("change", () => { this.text = withValue(this.text, key, field.value); changed(this.text); this.show(this.text); });
      this.fields[key] = field;
      form.append(element("label", {}, label, field));
    }
    form.addEventListener("submit", event => event.preventDefault());
    Object.assign(this.fields.window, { min: 2, max: 16 });
    Object.assign(this.fields.zero_counts, { min: -8388608, max: 8388607 });
  }

  show(text) {
    this.text = text;
    const values = readPlate(text);
    for (const field of Object.values(this.fields)) field.disabled = !values;
    if (!values) { this.hint.textContent = "This plate is not written as seven lines of key = value; change its text below."; return; }
    this.choices("unit", UNITS, values.unit);
    this.choices("decimals", allowedDecimals(values.unit), values.decimals);
    const intervals = allowedIntervals(values.unit, values.decimals);
    this.choices("e", intervals, values.e);
    for (const key of ["max", "zero_counts", "span_counts", "window"]) if (this.fields[key].value !== String(values[key])) this.fields[key].value = values[key];
    const [least, most] = [LEAST_INTERVALS, MOST_INTERVALS].map(count => count * values.e);
    Object.assign(this.fields.max, { min: least, max: most, step: values.e });
    Object.assign(this.fields.span_counts, { min: Math.ceil(4 * values.max / values.e), max: 8000000 });
    const weight = units => `${weightText(units, Math.min(Math.max(values.decimals, 0), 9))} ${values.unit}`;
    this.hint.textContent = `Max ${weight(values.max)} in steps of ${weight(values.e)}: ${values.max / values.e} intervals. With this unit and interval Max may be ${weight(least)} to ${weight(most)} (${least} to ${most}), and the span at least ${Math.ceil(4 * values.max / values.e)} counts.`;
  }

  // what is allowed, and what the text has if that is not
  choices(key, allowed, value) {
    const options = allowed.includes(value) ? allowed : [...allowed, value], field = this.fields[key];
    if (field.dataset.options !== String(options)) {
      field.replaceChildren(...options.map(it => element("option", { value: it }, allowed.includes(it) ? String(it) : `${it} (not allowed)`)));
      field.dataset.options = String(options);
    }
    field.value = String(value);
  }
}

