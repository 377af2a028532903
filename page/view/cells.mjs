// The cells of the lanes, one for each step: coloured by what it does and by its answer, with what it does written inside where there is room.
import { MARK } from "../model/words.mjs";
import { s } from "./elements.mjs";
import { LEFT, isShown } from "./moving.mjs";

const FOR_LETTERS = 11; // widths of a column, in pixels
const FOR_VALUES = 31;
const ONE_BY_ONE = 3; // narrower columns are drawn together, several steps to a pixel

// The looks of cells; the later ones win where several share a pixel.
const LOOKS_OF_CELLS = ["read", "gate", "write", "finished", "waiting", "busy", "stale", "lost"];
const ACTS = { load: "load", "card-load": "load", store: "store", "card-store": "store", "local-cas": "cas", take: "take", leave: "leave" };
const LETTERS = { load: "r", "card-load": "r", store: "w", "card-store": "w", "local-cas": "c", take: "[", leave: "]" };

function lookOfStep(step) {
  if (step.answer === "lost") return step.name === "version" ? "stale" : "lost";
  if (step.answer !== "moved") return step.answer;
  if (step.node !== null) return "gate";
  return step.written !== null ? "write" : "read";
}

// The cells of a view, as a path for each look.
export function drawCells(page, plan) {
  const paths = new Map();
  const add = (look, dim, piece) => {
    const key = dim ? `${look} dim` : look;
    paths.set(key, (paths.get(key) || "") + piece);
  };
  const wide = page.zoom >= ONE_BY_ONE;
  if (wide) addCells(page, plan, add);
  else addPixels(page, plan, add);
  return [...paths].map(([look, d]) => s("path", { class: `cell ${look}`, d, style: wide ? null : "stroke:none" }));
}

function addCells(page, plan, add) {
  for (let i = plan.low; i < plan.high; i++) {
    const step = page.replay.steps[i];
    if (page.hidden.has(step.rank)) continue;
    const left = Math.max(plan.x(i), LEFT).toFixed(2);
    add(lookOfStep(step), !isShown(page, step), `M${left} ${plan.cellTop(step.rank)}H${plan.x(i + 1).toFixed(2)}v${plan.sizes.cell}H${left}z`);
  }
}

function addPixels(page, plan, add) {
  const lanes = new Map();
  for (let i = plan.low; i < plan.high; i++) {
    const step = page.replay.steps[i];
    if (page.hidden.has(step.rank)) continue;
    if (!lanes.has(step.rank)) lanes.set(step.rank, new Map());
    keepBest(lanes.get(step.rank), Math.floor(Math.max(plan.x(i), LEFT)), LOOKS_OF_CELLS.indexOf(lookOfStep(step)), !isShown(page, step));
  }
  for (const [rank, pixels] of lanes) {
    const y = plan.cellTop(rank);
    for (const it of stretchesOf(pixels)) add(LOOKS_OF_CELLS[it.look], it.dim, `M${it.from} ${y}H${it.to}v${plan.sizes.cell}H${it.from}z`);
  }
}

function keepBest(pixels, x, look, dim) {
  const before = pixels.get(x);
  if (!before || (before.dim && !dim) || (before.dim === dim && before.look < look)) pixels.set(x, { look, dim });
}

// Pixels side by side that look alike are one piece.
function stretchesOf(pixels) {
  const stretches = [];
  for (const [x, { look, dim }] of pixels) {
    const open = stretches[stretches.length - 1];
    if (open && open.to === x && open.look === look && open.dim === dim) open.to = x + 1;
    else stretches.push({ from: x, to: x + 1, look, dim });
  }
  return stretches;
}

// A value in few letters; `M` is a writer's mark under RMA-RW.
function short(value) {
  if (value.length <= 6) return value;
  const number = BigInt(value);
  return number >= MARK && number < 2n * MARK ? `M+${number - MARK}` : `${value.slice(0, 4)}…`;
}

function valueInside(step) {
  if (step.node !== null) return `card ${step.node}`;
  return step.written !== null ? `:=${short(step.written)}` : `=${short(step.found)}`;
}

// What is written in the cells: a letter, or with more room the act and the value.
export function drawInside(page, plan) {
  if (page.zoom < FOR_LETTERS) return [];
  const texts = [];
  const withValues = page.zoom >= FOR_VALUES && plan.sizes.cell >= 24;
  for (let i = plan.low; i < plan.high; i++) {
    const step = page.replay.steps[i];
    if (step.op === null || page.hidden.has(step.rank) || plan.x(i) < LEFT - 2 || plan.x(i + 1) > plan.width) continue;
    const look = lookOfStep(step);
    const hatched = ["waiting", "lost", "stale", "busy"].includes(look);
    const on = isShown(page, step) ? `inside on-${look}${hatched ? " halo" : ""}` : "inside faded";
    const write = (text, y) => texts.push(s("text", { class: on, x: plan.x(i) + page.zoom / 2, y: plan.cellTop(step.rank) + y }, text));
    if (withValues) {
      write(ACTS[step.op], 11);
      write(valueInside(step), 22);
    } else if (plan.sizes.cell >= 10) {
      write(LETTERS[step.op], plan.sizes.cell / 2 + 3.5);
    }
  }
  return texts;
}
