// Elements of the page, made by hand.

/** An element of this name with its attributes, its handlers (such as `onclick`) and its children. */
export function make(name, attributes = {}, ...children) {
  const element = document.createElement(name);
  for (const [key, value] of Object.entries(attributes)) {
    if (key.startsWith("on")) element[key] = value;
    else if (value === true) element.setAttribute(key, "");
    else if (value !== false && value !== undefined) element.setAttribute(key, value);
  }
  element.append(...children);
  return element;
}

/** The element of the page that has this id. */
export const byId = (id) => document.getElementById(id);

let last = 0;

/** An id that no other element has. */
export const freshId = (name) => `${name}-${++last}`;

/** A control below its label. */
export function labelled(label, control) {
  control.id ||= freshId("control");
  return make("span", { class: "field" }, make("label", { for: control.id }, label), control);
}

/** A list to choose from. Each option is a value and the text that is shown for it. */
export function choice(options, chosen, onchange) {
  const select = make("select", { onchange });
  for (const [value, text] of options) select.append(new Option(text, value, value === chosen, value === chosen));
  return select;
}

/** A text that may be longer than its place, of this class and name. */
export const scrolled = (kind, name, ...children) => make("pre", { class: kind, tabindex: "0", role: "group", "aria-label": name }, ...children);

export const button = (text, onclick, attributes = {}) => make("button", { type: "button", onclick, ...attributes }, text);

/** A table with a caption, the names of its columns, and its rows. The first cell of each row is its heading. */
export function table(caption, columns, rows) {
  const head = make("tr", {}, ...columns.map((name) => make("th", { scope: "col" }, name)));
  const body = rows.map(([first, ...cells]) => make("tr", {}, make("th", { scope: "row" }, first), ...cells.map((cell) => make("td", {}, cell))));
  return make("table", {}, make("caption", {}, caption), make("thead", {}, head), make("tbody", {}, ...body));
}
