// Elements of the page. Texts of files and names are only ever set as text.

export const $ = id => document.getElementById(id);

// An element with properties, attributes (`aria..`, `role`, `data..`), and children or text.
export function element(name, more = {}, ...children) {
  const made = document.createElement(name);
  for (const [key, value] of Object.entries(more)) {
    if (value === undefined || value === null) continue;
    if (/^(aria-|role$|data-|for$|list$|colspan$|scope$)/.test(key)) made.setAttribute(key, value);
    else made[key] = value;
  }
  made.append(...children.filter(child => child !== null && child !== undefined));
  return made;
}

export const button = (text, action, more = {}) => element("button", { type: "button", onclick: action, ...more }, text);

// Asks, and gives the answer that was chosen, or an empty text if the user leaves the question by Esc.
export function ask(sentence, answers) {
  return new Promise(give => {
    const dialog = element("dialog", { role: "alertdialog", "aria-label": sentence }, element("p", {}, sentence),
      element("div", { className: "row" }, ...answers.map(answer => button(answer, () => dialog.close(answer)))));
    dialog.onclose = () => { dialog.remove(); give(dialog.returnValue); };
    document.body.append(dialog);
    dialog.showModal();
  });
}

// Names in a sentence.
export const listed = names => names.length < 2 ? names.join("") : `${names.slice(0, -1).join(", ")} and ${names.at(-1)}`;

// The last of several calls within `wait` milliseconds.
export function settled(action, wait) {
  let timer = 0;
  return (...words) => { clearTimeout(timer); timer = setTimeout(() => action(...words), wait); };
}

// Gives a text or bytes to the user as a file.
export function download(name, content, type = "text/plain") {
  const address = URL.createObjectURL(new Blob([content], { type }));
  const link = element("a", { href: address, download: name });
  document.body.append(link);
  link.click();
  link.remove();
  setTimeout(() => URL.revokeObjectURL(address), 10000);
}

// A moment or a length of time in milliseconds, for people.
export function timeText(ms) {
  if (Math.abs(ms) < 1000) return `${ms} ms`;
  const seconds = ms / 1000;
  return seconds < 3600 ? `${seconds.toFixed(3).replace(/\.?0+$/, "")} s` : `${Math.floor(seconds / 3600)} h ${Math.floor(seconds / 60) % 60} min ${(seconds % 60).toFixed(3).replace(/\.?0+$/, "")} s`;
}

// A number of units of the last decimal as a weight.
export function weightText(units, decimals) {
  const sign = units < 0 ? "-" : "", digits = String(Math.abs(units)).padStart(decimals + 1, "0");
  return decimals ? `${sign}${digits.slice(0, -decimals)}.${digits.slice(-decimals)}` : sign + digits;
}

// A text in which what is not seen, or turns the direction of writing, is shown by its number.
export const shownText = text => text.replace(/[\u0000-\u0008\u000a-\u001f\u007f-\u009f\u200b-\u200f\u2028-\u202e\u2066-\u2069\ufeff]/g,
  letter => `\\u{${letter.charCodeAt(0).toString(16)}}`);
