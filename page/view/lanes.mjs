// The lanes: for each rank its labels, its bands and its cells over the steps, with the cursor, the arrow to it and the dots on the same word.
import { causeOf } from "../model/explanations.mjs";
import { drawBands } from "./bands.mjs";
import { drawCells, drawInside } from "./cells.mjs";
import { clamp, put, s } from "./elements.mjs";
import { LABEL_ROW, drawLabels } from "./labels.mjs";
import { LEFT, columns, many, momentOf, numberOf, sameThing, shownShards } from "./moving.mjs";

const AXIS = 14; // heights, in pixels
const HOLDERS_ROW = 17;

// The heights of the parts of a lane; `labels` is how many rows of labels there are.
function sizesFor(lanes) {
  if (lanes <= 4) return { labels: 3, band: 14, card: 12, cell: 26, gap: 8 };
  if (lanes <= 6) return { labels: 2, band: 14, card: 12, cell: 26, gap: 8 };
  if (lanes <= 10) return { labels: 1, band: 12, card: 10, cell: 20, gap: 5 };
  return { labels: 0, band: 6, card: 4, cell: 11, gap: 3 };
}

// Which steps are drawn, and where things stand.
function planOf(page) {
  const ranks = page.replay.standings.map((_, rank) => rank).filter((rank) => !page.hidden.has(rank));
  const sizes = sizesFor(ranks.length);
  const holders = shownShards(page);
  const top = AXIS + holders.length * HOLDERS_ROW + 4;
  const laneHeight = sizes.labels * LABEL_ROW + sizes.band + sizes.card + sizes.cell + sizes.gap;
  const laneTop = (rank) => top + ranks.indexOf(rank) * laneHeight;
  const bandTop = (rank) => laneTop(rank) + sizes.labels * LABEL_ROW;
  return {
    ranks, sizes, holders, laneTop, bandTop,
    cardTop: (rank) => bandTop(rank) + sizes.band,
    cellTop: (rank) => bandTop(rank) + sizes.band + sizes.card,
    x: (moment) => LEFT + (moment - page.first) * page.zoom,
    low: Math.floor(page.first),
    high: Math.min(page.replay.steps.length, Math.ceil(page.first + columns(page))),
    width: page.parts.width,
    height: top + ranks.length * laneHeight + 4,
  };
}

// The hatches, which tell answers and standings apart without colour.
function hatches() {
  const hatch = (id, size, fill, mark) => s("pattern", { id, width: size, height: size, patternUnits: "userSpaceOnUse" },
    s("rect", { width: size, height: size, style: `fill:var(${fill})` }), mark);
  const lines = (d, colour) => s("path", { d, stroke: colour, "stroke-width": 1.2 });
  return s("defs", {},
    hatch("dots", 5, "--waiting", s("circle", { cx: 2.5, cy: 2.5, r: 1, fill: "#222" })),
    hatch("slashes", 6, "--lost", lines("M-1 1L1 -1M0 6L6 0M5 7L7 5", "#fff")),
    hatch("backslashes", 6, "--stale", lines("M-1 5L1 7M0 0L6 6M5 -1L7 1", "#222")),
    hatch("bars", 4, "--busy", lines("M0 2H4", "#222")),
    hatch("refusals", 6, "--asks", lines("M-1 1L1 -1M0 6L6 0M5 7L7 5", "var(--lost)")));
}

const EVERY = [1, 2, 5, 10, 20, 50, 100, 200, 500, 1000, 2000, 5000, 10000, 20000, 50000, 100000];

function drawAxis(page, plan) {
  const every = EVERY.find((it) => it * page.zoom >= 46) || 200000;
  const parts = [];
  for (let number = Math.ceil(numberOf(page, plan.low) / every) * every; number < numberOf(page, plan.high); number += every) {
    const x = plan.x(momentOf(page, number));
    if (x < LEFT || x > plan.width - 8 * String(number).length) continue;
    parts.push(s("path", { class: "tick", d: `M${x} ${AXIS}V${plan.height}` }));
    const farFromCursor = page.moment < 0 || Math.abs(x + 8 - plan.x(page.moment) - page.zoom / 2) > 24;
    if (farFromCursor) parts.push(s("text", { class: "small faint", x: x + 2, y: AXIS - 3 }, String(number)));
  }
  return parts;
}

// Who holds a shard, as one band over all ranks.
function drawHolders(page, plan) {
  return plan.holders.flatMap((shard, i) => {
    const y = AXIS + i * HOLDERS_ROW + 2;
    return [
      s("text", { class: "small faint", x: 2, y: y + 10 }, many(page) ? `shard ${shard} is held by` : "held by"),
      s("rect", { class: "lane", x: LEFT, y, width: plan.width - LEFT, height: 13 }),
      ...drawBands(page, plan, page.bands.holders[shard], y, 13),
    ];
  });
}

// Which rank a lane is of, and where it sits.
function drawName(page, plan, rank) {
  const node = page.replay.nodeOf[rank];
  if (plan.sizes.labels === 0) return [s("text", { class: "small", x: 2, y: plan.laneTop(rank) + 15 }, `rank ${rank}, node ${node}`)];
  const y = plan.bandTop(rank);
  return [
    s("text", { class: "name", x: 2, y: y + 11 }, `rank ${rank}`),
    s("text", { class: "small faint", x: 2, y: y + 24 }, `at ${page.replay.place.paths[rank]} (node ${node})`),
  ];
}

function drawLane(page, plan, rank) {
  const { standing, inside, stopped } = page.bands;
  return [
    s("rect", { class: "lane", x: LEFT, y: plan.cellTop(rank), width: plan.width - LEFT, height: plan.sizes.cell }),
    ...drawName(page, plan, rank),
    ...drawBands(page, plan, standing[rank], plan.bandTop(rank), plan.sizes.band),
    ...drawBands(page, plan, inside[rank], plan.cardTop(rank), plan.sizes.card),
    ...drawBands(page, plan, stopped[rank], plan.cellTop(rank), Math.min(plan.sizes.cell, 14)),
  ];
}

// Dots on the steps that touch the same word, or card, as the step at the cursor: full where they write it, or take or leave the card.
function drawDots(page, plan, here) {
  if (!here || here.op === null || page.zoom < 2) return [];
  const dots = [];
  const { cell, gap } = plan.sizes;
  for (let i = plan.low; i < plan.high; i++) {
    const step = page.replay.steps[i];
    if (i === page.moment || page.hidden.has(step.rank) || !sameThing(here, step) || plan.x(i) < LEFT) continue;
    const wrote = step.written !== null || (step.node !== null && step.answer === "moved");
    const y = plan.cellTop(step.rank) + cell + Math.min(3, gap / 2);
    dots.push(s("circle", { class: wrote ? "dot wrote" : "dot", cx: plan.x(i) + page.zoom / 2, cy: y, r: Math.min(2.6, gap / 2) }));
  }
  return dots;
}

// The arrow from the step that bears on this one: the write that it finds, or the one that took the card.
function drawCause(page, plan, here) {
  const cause = causeOf(page.replay, page.moment);
  const from = page.replay.steps[cause];
  if (!from || page.hidden.has(here.rank) || page.hidden.has(from.rank)) return [];
  const x1 = Math.max(plan.x(cause) + page.zoom / 2, LEFT);
  const x2 = plan.x(page.moment) + page.zoom / 2;
  const fromBelow = plan.ranks.indexOf(from.rank) > plan.ranks.indexOf(here.rank);
  const sameLane = from.rank === here.rank;
  const toBottom = fromBelow || sameLane;
  const y1 = plan.cellTop(from.rank) + (fromBelow ? 0 : plan.sizes.cell);
  const y2 = plan.cellTop(here.rank) + (toBottom ? plan.sizes.cell : 0);
  const bend = y1 + Math.min(18, 6 + (x2 - x1) / 20);
  const middle = sameLane ? bend : (y1 + y2) / 2;
  const back = toBottom ? 7 : -7;
  return [
    s("path", { class: "cause", d: `M${x1} ${y1}C${x1} ${middle} ${x2} ${middle} ${x2} ${y2}` }),
    s("path", { class: "cause-tip", d: `M${x2 - 4} ${y2 + back}L${x2 + 4} ${y2 + back}L${x2} ${y2}z` }),
  ];
}

function drawCursor(page, plan, here) {
  if (!here) return [];
  const x = plan.x(page.moment);
  const width = Math.max(page.zoom, 2);
  const number = String(numberOf(page, page.moment));
  const half = 3 * number.length + 2;
  return [
    s("rect", { class: "cursor", x, y: 2, width, height: plan.height - 2 }),
    s("text", { class: "small at-cursor", x: clamp(x + width / 2, LEFT + half, plan.width - half), y: AXIS - 3 }, number),
  ];
}

// The cell of the step at the cursor.
function drawHere(page, plan, here) {
  if (!here || page.zoom < 4 || page.hidden.has(here.rank)) return null;
  return s("rect", { class: "here", x: plan.x(page.moment), y: plan.cellTop(here.rank), width: page.zoom, height: plan.sizes.cell });
}

export function renderLanes(page) {
  const plan = planOf(page);
  const here = page.replay.steps[page.moment];
  const told = `The steps ${numberOf(page, plan.low)} to ${numberOf(page, plan.high) - 1}, a lane for each rank. The list of steps has the same as text.`;
  put(page.parts.lanes, { viewBox: `0 0 ${plan.width} ${plan.height}`, height: plan.height, "aria-label": told }, []);
  const parts = [
    hatches(),
    ...drawAxis(page, plan),
    ...drawHolders(page, plan),
    ...plan.ranks.flatMap((rank) => drawLane(page, plan, rank)),
    ...drawCursor(page, plan, here),
    ...drawCells(page, plan),
    ...drawInside(page, plan),
    ...drawLabels(page, plan),
    ...drawDots(page, plan, here),
    drawHere(page, plan, here),
    ...drawCause(page, plan, here),
  ];
  page.parts.lanes.replaceChildren(...parts.filter((it) => it));
}

// The moment under the pointer; -2 left of the first column.
export function momentUnder(page, event) {
  const box = page.parts.lanes.getBoundingClientRect();
  const x = ((event.clientX - box.left) / box.width) * page.parts.width;
  return x < LEFT ? -2 : Math.floor(page.first + (x - LEFT) / page.zoom);
}
