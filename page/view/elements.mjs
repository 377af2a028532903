// Building elements. Text is always set as text, never as HTML.

const SVG = "http://www.w3.org/2000/svg";

// Sets attributes (`on..` is a listener; one that is null or false is left out) and adds children.
export function put(element, attributes, children) {
  for (const [name, value] of Object.entries(attributes)) {
    if (value === null || value === undefined || value === false) continue;
    if (name.startsWith("on")) element.addEventListener(name.slice(2), value);
    else element.setAttribute(name, value === true ? "" : String(value));
  }
  element.append(...children.flat().filter((it) => it !== null && it !== undefined && it !== false));
  return element;
}

// An element of HTML, and one of SVG.
export const h = (tag, attributes, ...children) => put(document.createElement(tag), attributes, children);
export const s = (tag, attributes, ...children) => put(document.createElementNS(SVG, tag), attributes, children);

export const panel = (title, ...children) => h("section", { "aria-label": title }, h("h2", {}, title), ...children);

// A row of cells, and a table with a row of names above.
const cell = (it) => (it instanceof Element && it.tagName === "TD" ? it : h("td", {}, it));
export const row = (attributes, ...cells) => h("tr", attributes, ...cells.map(cell));
export const table = (names, rows) => h("table", {}, h("tr", {}, ...names.map((it) => h("th", { scope: "col" }, it))), ...rows);

export const clamp = (value, low, high) => Math.min(Math.max(value, low), high);

// How wide a text is in pixels, in the page's letters of this size. Kept, since the same labels come again and again.
const widths = new Map();
export function widthOf(text, size) {
  const key = `${size} ${text}`;
  if (!widths.has(key)) {
    const pen = document.createElement("canvas").getContext("2d");
    pen.font = `${size}px system-ui, "DejaVu Sans", sans-serif`;
    widths.set(key, pen.measureText(text).width);
  }
  return widths.get(key);
}
