// Elements of the page. Every text of a volume or of a file is put in as text, never as markup.

const at = (id) => document.getElementById(id);
// made(tag, options, ..inside): options are attributes; `on` holds listeners, false and undefined leave an attribute out.
function made(tag, { on = {}, ...attributes } = {}, ...inside) {
  return filled(document.createElement(tag), on, attributes, inside);
}
function filled(element, on, attributes, inside) {
  for (const [name, value] of Object.entries(attributes)) {
    if (value !== undefined && value !== false) element.setAttribute(name, value === true ? "" : String(value));
  }
  for (const [kind, listener] of Object.entries(on)) element.addEventListener(kind, listener);
  element.append(...inside.filter((one) => one !== null));
  return element;
}
const drawn = (tag, attributes, ...inside) => filled(document.createElementNS("http://www.w3.org/2000/svg", tag), {}, attributes, inside);
const button = (text, click, more = {}) => made("button", { type: "button", on: { click }, ...more }, text);
const code = (text) => made("code", {}, text);
const labelled = (text, control) => made("label", {}, made("span", { class: "soft" }, text), " ", control);
function choice(options, chosen, change, more = {}) {
  const list = options.map(([value, text]) => made("option", { value, selected: value === chosen }, text));
  return made("select", { on: { change }, ...more }, ...list);
}
// A table in a frame that scrolls by itself where it is too wide. Heads are texts or elements; each row is an element.
function table(name, heads, rows, more = {}) {
  const head = heads.length ? [made("thead", {}, made("tr", {}, ...heads))] : [];
  return made("div", { class: "wide" }, made("table", { "aria-label": name, ...more }, ...head, made("tbody", {}, ...rows)));
}
const head = (text, kind) => made("th", { scope: "col", class: kind }, text);
const cell = (text, kind, label) => made("td", { class: kind, "data-head": label }, text);
const row = (name, ...inside) => made("tr", {}, made("th", { scope: "row" }, name), made("td", {}, ...inside));

// Says something to those who do not see the page, and shows it too where nothing else on the page does.
function say(text, visible = false) {
  at("told").className = visible ? "note" : "unseen";
  at("told").textContent = text;
}
// Copies a text; where the browser does not let it, the text is shown to be copied by hand.
async function copy(text, told) {
  try {
    await navigator.clipboard.writeText(text);
    told.replaceChildren("Copied.");
  } catch {
    const area = made("textarea", { readonly: true, rows: 6, "aria-label": "the table as CSV" });
    area.value = text;
    told.replaceChildren("The browser does not let the page copy; copy it from here: ", area);
    area.select();
  }
}
