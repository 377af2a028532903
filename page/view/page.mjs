// The whole page: it is built once, and drawn again after each move.
import { read } from "../model/replay.mjs";
import { bandsOfReplay, standingsSeen, STANDING_WORDS } from "./bands.mjs";
import { barOf, helpOf, onHover, onKey, onLanes, onOverview, onWheel, renderBar } from "./controls.mjs";
import { clamp, h, s } from "./elements.mjs";
import { renderLanes } from "./lanes.mjs";
import { fitting, keepInView, newPage, readFragment } from "./moving.mjs";
import { renderNow, stepLink } from "./now.mjs";
import { paintOverview, renderOverview } from "./overview.mjs";
import { renderPanels } from "./panels.mjs";
import { journalsOf } from "./words.mjs";

function renderView(page) {
  renderLanes(page);
  renderOverview(page);
}

function render(page) {
  renderBar(page);
  renderView(page);
  renderNow(page);
  renderPanels(page);
  const step = page.replay.steps[page.moment];
  if (page.playing === null) page.parts.heard.textContent = step ? step.line : "before the first step";
}

// What the colours mean; only what is seen in this replay.
function legendOf(page) {
  const field = (look) => s("rect", { class: look, x: 0.5, y: 0.5, width: 15, height: 10 });
  const swatch = (look, told) => h("span", {}, s("svg", { viewBox: "0 0 16 11", "aria-hidden": "true" }, field(look)), told);
  const { steps, place } = page.replay;
  const has = (test, look, told) => (steps.some(test) ? [swatch(look, told)] : []);
  const isLook = (step) => step.answer === "lost" && step.name === "version";
  return h("div", { class: "legend" },
    swatch("cell read", "load (r)"),
    swatch("cell write", "store (w), won compare (c)"),
    ...has((it) => it.node !== null, "cell gate", "take [ or leave ] a card"),
    ...has((it) => it.answer === "lost" && !isLook(it), "cell lost", "compare lost"),
    ...has(isLook, "cell stale", "look lost: the version has changed"),
    ...has((it) => it.answer === "busy", "cell busy", "busy"),
    ...has((it) => it.answer === "waiting", "cell waiting", "waiting"),
    ...has((it) => it.answer === "finished", "cell finished", "finished"),
    ...standingsSeen(page.bands).map((it) => swatch(`band ${it}`, STANDING_WORDS[it] + (it === "looks" ? ", without the lock" : ""))),
    ...has((it) => it.node !== null, "band card", "in a card"),
    ...(place.lock === "combine" ? [swatch("band service", "does a posted call")] : []),
    h("span", {}, "○ ● loads and writes the same word as the step at the cursor"),
    h("span", {}, "→ comes from the step that wrote what it finds, or took the card"));
}

const counted = (n, what) => `${n} ${what}${n === 1 ? "" : "s"}`;

function stepsText({ steps, total, from }) {
  if (steps.length === total) return counted(total, "step");
  return steps.length === 0 ? `none of ${counted(total, "step")}` : `steps ${from} to ${from + steps.length - 1} of ${total}`;
}

// What is replayed, as the title says it.
function titleOf(replay) {
  const { budgets, writers, readers } = replay.place;
  return [
    `${counted(replay.ranks, "rank")} on ${counted(replay.shape.nodes.length, "node")}`,
    counted(replay.shape.homes.length, "shard"),
    budgets.length > 0 ? `budget ${budgets.join(" ")}` : "",
    writers !== null ? `writers ${writers}` : "",
    readers !== null ? `readers ${readers}` : "",
    stepsText(replay),
  ].filter((it) => it !== "").join(", ");
}

// The page tests its data: each load has to find what was written last.
function faultOf(page) {
  if (page.replay.faults.length === 0) return null;
  return h("p", { class: "fault", role: "alert" }, "The data contradict themselves: the load in step ", stepLink(page, page.replay.faults[0]),
    " finds another value than was written last. What this page shows is wrong from there on.");
}

// Of a window whose data don't tell who stood in a queue before it.
function untoldOf({ replay }) {
  const isUntold = replay.chains.some((chains) => [...chains.values()].some((it) => it.first.untold));
  if (!isUntold) return null;
  return h("p", { class: "note" }, `The data don't tell who stood in the queues before step ${replay.from}: a queue shows who joined from there on.`);
}

function buildLanes(page) {
  const { parts } = page;
  const hover = (e) => onHover(page, e);
  const strip = (e) => onOverview(page, e);
  parts.base = h("canvas", { "aria-hidden": "true" });
  parts.over = h("canvas", { "aria-hidden": "true" });
  parts.overview = h("div", { class: "overview", onpointerdown: strip, onpointermove: strip }, parts.base, parts.over);
  parts.lanes = s("svg", { class: "lanes", role: "img", onclick: (e) => onLanes(page, e), onpointermove: hover, onpointerleave: hover });
  parts.lanes.addEventListener("wheel", (e) => onWheel(page, e), { passive: false });
}

function build(page) {
  const { parts, replay } = page;
  const title = titleOf(replay);
  document.title = `A replay of ${replay.place.lock}: ${title}`;
  buildLanes(page);
  parts.hover = h("div", { class: "hover", hidden: true, "aria-hidden": "true" });
  parts.now = h("div", { class: "now", tabindex: -1 });
  parts.panels = h("div", { class: "panels" });
  parts.heard = h("div", { class: "heard", role: "status", "aria-live": "polite" });
  parts.help = helpOf();
  parts.main = h("main", {},
    h("h1", {}, `Replay of ${replay.place.lock} `, h("small", {}, title)),
    faultOf(page), untoldOf(page),
    h("div", { class: "top" }, barOf(page)),
    parts.overview, parts.lanes, legendOf(page), parts.now, parts.hover, parts.panels, parts.heard, parts.help);
  document.body.append(parts.main);
}

function measure(page) {
  page.parts.width = Math.max(400, page.parts.main.clientWidth - 28);
}

function onResize(page) {
  measure(page);
  paintOverview(page);
  keepInView(page);
  render(page);
}

// What is looked up once.
function prepare(page) {
  const { replay } = page;
  page.renderView = renderView;
  page.bands = bandsOfReplay(replay);
  page.journals = journalsOf(replay);
  page.moments = { events: replay.eventsAt.map((it) => it.moment) };
  for (const step of replay.steps) if (step.word) step.word.touched = true;
}

export function start() {
  const root = document.documentElement;
  if (!root.dataset.theme) root.dataset.theme = window.matchMedia("(prefers-color-scheme: dark)").matches ? "dark" : "light";
  const page = newPage(read(document.getElementById("data").textContent), render);
  prepare(page);
  build(page);
  measure(page);
  page.zoom = clamp(fitting(page), 11, 56);
  paintOverview(page);
  readFragment(page);
  window.addEventListener("hashchange", () => readFragment(page));
  window.addEventListener("resize", () => onResize(page));
  document.addEventListener("keydown", (event) => onKey(page, event));
  window.rmalockPage = page; // for the checks in a browser
}
