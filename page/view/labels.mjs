// The labels above the steps of a lane: the events of queues, and what a step is called beyond them. None stands in another one, and none is cut.
import { s, widthOf } from "./elements.mjs";
import { LEFT } from "./moving.mjs";

const SIZE = 9.5; // of the letters, in pixels
export const LABEL_ROW = 11; // the height of a row of labels

function eventLabel([kind, queue, member]) {
  if (kind === "announce") return "announce";
  if (kind === "pass") return `pass ${queue} → ${member}`;
  return kind === "join" || kind === "settle" ? `${kind} ${queue}` : "";
}

const textOf = (step) => [...step.events.map(eventLabel), step.label].filter((it) => it !== "").join(", ");

// The lowest row in which a label that takes `width` to the right of x ends before each one that stands there or higher, and -1 where there is none. A
// label's line goes down through the rows below it, so those to its left have to end before it there too.
function rowFor(placed, x, width, rows) {
  for (let i = 0; i < rows; i++) {
    if (placed.every((it) => it.row < i || x + width < it.x)) return i;
  }
  return -1;
}

// Where a label stands: to the right of its line, or to the left where there is no room; with row -1 where there is none there either.
function spotFor(plan, placed, x, width) {
  const row = x + width > plan.width ? -1 : rowFor(placed, x, width, plan.sizes.labels);
  if (row >= 0) return { row, left: x, toTheLeft: false };
  const fits = x - width >= LEFT;
  return { row: fits ? rowFor(placed, x, 0, plan.sizes.labels) : -1, left: x - width, toTheLeft: true };
}

// The labels of all lanes, from the last step on; one that has no room keeps its line alone.
export function drawLabels(page, plan) {
  if (plan.sizes.labels === 0 || page.zoom < 4) return [];
  const parts = [];
  const placed = new Map(plan.ranks.map((rank) => [rank, []]));
  for (let i = plan.high - 1; i >= plan.low; i--) {
    const step = page.replay.steps[i];
    if (page.hidden.has(step.rank) || plan.x(i) < LEFT || plan.x(i + 1) > plan.width) continue;
    const text = textOf(step);
    if (text !== "") parts.push(...drawLabel(plan, placed.get(step.rank), plan.bandTop(step.rank), plan.x(i) + page.zoom / 2, text));
  }
  return parts;
}

function drawLabel(plan, placed, bottom, x, text) {
  const { row, left, toTheLeft } = spotFor(plan, placed, x, widthOf(text, SIZE) + 8);
  const y = bottom - 2 - LABEL_ROW * Math.max(row, 0);
  const line = s("path", { class: "label-line", d: `M${x} ${row > 0 ? y : bottom - 6}V${bottom}` });
  if (row < 0) return [line];
  placed.push({ row, x: left });
  return [line, s("text", { class: "label", x: toTheLeft ? x - 3 : x + 3, y, "text-anchor": toTheLeft ? "end" : null }, text)];
}
