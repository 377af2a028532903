// The bar, the keys and the pointer.
import { h } from "./elements.mjs";
import { momentUnder } from "./lanes.mjs";
import {
  clearFilters, goTo, goToCause, hasFilters, lastMoment, many, momentOf, move, moveOnRank, moveOnWord, nextShard, numberOf, scrollTo, seek,
  shards, showShard, togglePlay, zoomTo,
} from "./moving.mjs";
import { momentInOverview, paintOverview } from "./overview.mjs";

const SOUGHT = [
  ["trouble", "busy, lost or waiting"], ["busy", "busy"], ["lost", "lost"], ["waiting", "waiting"], ["refused", "a reader is refused"],
  ["label", "a label of the lock's"], ["event", "event"], ["enter", "enter"], ["write", "write"],
];
const SPEEDS = [1, 2, 5, 20, 100];

const button = (label, told, act) => h("button", { type: "button", title: told, "aria-label": told, onclick: act }, label);
const group = (...children) => h("span", { class: "group" }, ...children);
const option = (value, label, selected) => h("option", { value, selected }, label);

function playButtons(page) {
  const { parts } = page;
  const anew = () => {
    if (page.playing === null) return;
    togglePlay(page);
    togglePlay(page);
  };
  parts.play = button("play", "play (space)", () => togglePlay(page));
  parts.speed = h("select", { "aria-label": "steps in a second", onchange: anew }, ...SPEEDS.map((it) => option(it, `${it}/s`, it === 2)));
  return group(
    button("|◀", "to the start (Home)", () => goTo(page, -1)),
    button("◀", "a step back (left arrow)", () => move(page, -1)),
    parts.play,
    button("▶", "a step on (right arrow)", () => move(page, 1)),
    button("▶|", "to the end (End)", () => goTo(page, lastMoment(page))),
    parts.speed);
}

function stepFields(page) {
  const last = lastMoment(page);
  const { parts } = page;
  const slide = (e) => goTo(page, Number(e.target.value));
  parts.slider = h("input", { type: "range", min: -1, max: last, value: -1, "aria-label": "the step that is shown", oninput: slide });
  parts.number = h("input", {
    type: "number", min: numberOf(page, 0), max: numberOf(page, last), "aria-label": "number of the step",
    onchange: (e) => goTo(page, momentOf(page, Number(e.target.value))),
  });
  const range = last < 0 ? "of none" : `of ${numberOf(page, 0)} to ${numberOf(page, last)}`;
  return [parts.slider, h("label", {}, "step", parts.number, h("span", {}, range))];
}

function searchFields(page) {
  const { parts } = page;
  const note = (e) => {
    page.search = e.target.value;
  };
  const filter = (e) => {
    page.text = e.target.value;
    page.render(page);
  };
  parts.search = h("select", { "aria-label": "what to look for", onchange: note }, ...SOUGHT.map(([value, label]) => option(value, label)));
  const told = "only steps whose line has this text";
  parts.text = h("input", { class: "words", type: "search", placeholder: "steps with the text …", "aria-label": told, oninput: filter });
  parts.clear = button("all steps", "show all steps again", () => clearFilters(page));
  return [
    group(h("span", { class: "faint" }, "find"), parts.search,
      button("previous", "look back for it", () => seek(page, -1, page.search)),
      button("next", "look for the next", () => seek(page, 1, page.search))),
    parts.text,
  ];
}

function shardField(page) {
  const choices = [option("follow", "of the step"), ...shards(page).map((it) => option(it, `shard ${it}`)), option("all", "all shards")];
  page.parts.shard = h("select", { "aria-label": "shard", onchange: (e) => showShard(page, e.target.value) }, ...choices);
  return many(page) ? h("label", {}, "show", page.parts.shard) : null;
}

export function barOf(page) {
  return h("div", { class: "bar", role: "toolbar", "aria-label": "moving through the replay" },
    playButtons(page),
    ...stepFields(page),
    ...searchFields(page),
    shardField(page),
    page.parts.clear,
    group(
      button("−", "narrower columns (-)", () => zoomTo(page, page.zoom / 1.5)),
      button("+", "wider columns (+)", () => zoomTo(page, page.zoom * 1.5)),
      button("whole", "the whole replay (0)", () => zoomTo(page, 0))),
    group(
      button("◐", "dark or light (d)", () => toggleTheme(page)),
      button("?", "the keys (?)", () => page.parts.help.showModal())));
}

export function renderBar(page) {
  const { parts } = page;
  parts.play.textContent = page.playing === null ? "play" : "stop";
  parts.play.setAttribute("aria-label", page.playing === null ? "play (space)" : "stop playing (space)");
  parts.slider.value = String(page.moment);
  parts.number.value = page.moment < 0 ? "" : String(numberOf(page, page.moment));
  parts.shard.value = page.shard;
  parts.clear.hidden = !hasFilters(page);
  parts.clear.textContent = page.word === "" ? "all steps" : `all steps, not only on ${page.word}`;
}

const KEYS = [
  ["← →", "a step back or on, among the steps that are shown"],
  ["shift + ← →", "a step back or on of the same rank"],
  ["n N", "the next or previous step on the same word or card"],
  ["c", "to the step that the arrow comes from: who wrote the value, or took the card"],
  ["t T", "the next or previous step that was busy, lost or waiting"],
  ["b B, l L, w W", "the next or previous one that was busy, lost, waiting"],
  ["r R", "the next or previous step in which a reader is refused"],
  ["m M", "the next or previous step with a label of the lock's: a mark, a reset, a lost look, a call done for another rank"],
  ["e E", "the next or previous step with an event"],
  ["Home, End", "the start, the last step"],
  ["space", "play, or stop"],
  ["+ − 0", "wider or narrower columns, the whole replay"],
  ["/", "to the field for a text that the steps must have"],
  ["s", "the next shard"],
  ["d", "dark or light"],
  ["?", "this list"],
];

export function helpOf() {
  const rows = KEYS.map(([key, what]) => h("tr", {}, h("td", {}, h("b", {}, key)), h("td", {}, what)));
  return h("dialog", { "aria-label": "keys" }, h("h2", {}, "Keys"), h("table", {}, ...rows),
    h("p", {}, "A click in the lanes or in the strip above them goes to that step. A word's name shows the steps on it alone."),
    h("p", {}, "The address tells the step: #step=12."),
    h("form", { method: "dialog" }, h("button", {}, "close")));
}

const SOUGHT_BY_KEY = { t: "trouble", b: "busy", l: "lost", w: "waiting", r: "refused", m: "label", e: "event" };

function actOf(page, { key, shiftKey }) {
  const sought = SOUGHT_BY_KEY[key.toLowerCase()];
  if (sought) return () => seek(page, key === key.toLowerCase() ? 1 : -1, sought);
  const acts = {
    ArrowRight: () => (shiftKey ? moveOnRank(page, 1) : move(page, 1)),
    ArrowLeft: () => (shiftKey ? moveOnRank(page, -1) : move(page, -1)),
    Home: () => goTo(page, -1),
    End: () => goTo(page, lastMoment(page)),
    " ": () => togglePlay(page),
    "+": () => zoomTo(page, page.zoom * 1.5),
    "=": () => zoomTo(page, page.zoom * 1.5),
    "-": () => zoomTo(page, page.zoom / 1.5),
    0: () => zoomTo(page, 0),
    n: () => moveOnWord(page, 1),
    N: () => moveOnWord(page, -1),
    c: () => goToCause(page),
    s: () => nextShard(page),
    d: () => toggleTheme(page),
    "/": () => page.parts.text.focus(),
    "?": () => page.parts.help.showModal(),
  };
  return acts[key];
}

// Keys act where nobody types, and no button or slider takes them.
export function onKey(page, event) {
  const { tagName, type } = event.target;
  const slides = type === "range" && !/^(Arrow|Home|End|Page)/.test(event.key);
  const types = tagName === "SELECT" || (tagName === "INPUT" && type !== "checkbox" && !slides);
  const presses = tagName === "BUTTON" && event.key === " ";
  if (event.ctrlKey || event.metaKey || event.altKey || types || presses || page.parts.help.open) return;
  const act = actOf(page, event);
  if (!act) return;
  event.preventDefault();
  act();
}

function toggleTheme(page) {
  const root = document.documentElement;
  root.dataset.theme = root.dataset.theme === "dark" ? "light" : "dark";
  paintOverview(page);
  page.render(page);
}

export function onLanes(page, event) {
  const moment = momentUnder(page, event);
  if (moment >= 0 && moment <= lastMoment(page)) goTo(page, moment);
}

// Shows the line of the step under the pointer.
export function onHover(page, event) {
  const { hover } = page.parts;
  const step = event.type === "pointerleave" ? undefined : page.replay.steps[momentUnder(page, event)];
  hover.hidden = !step;
  if (!step) return;
  hover.textContent = step.line;
  hover.style.left = `${Math.max(0, Math.min(event.clientX + 12, window.innerWidth - hover.offsetWidth - 8))}px`;
  hover.style.top = `${event.clientY + 16}px`;
}

export function onOverview(page, event) {
  if (event.type === "pointerdown" || event.buttons === 1) goTo(page, momentInOverview(page, event));
}

// The wheel moves the lanes with shift, and zooms with control.
export function onWheel(page, event) {
  if (event.ctrlKey) {
    event.preventDefault();
    zoomTo(page, page.zoom * (event.deltaY < 0 ? 1.25 : 0.8), Math.max(momentUnder(page, event), 0));
  } else if (event.shiftKey || Math.abs(event.deltaX) > Math.abs(event.deltaY)) {
    event.preventDefault();
    scrollTo(page, page.first + (event.deltaX || event.deltaY) / page.zoom);
    page.renderView(page);
  }
}
