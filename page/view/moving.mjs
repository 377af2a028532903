// The state of the page, and how one moves through the replay. The page keeps nothing about the replay itself.
import { causeOf } from "../model/explanations.mjs";
import { SEARCHES, find } from "../model/searches.mjs";
import { clamp } from "./elements.mjs";

export const LEFT = 118; // where the first column of the lanes begins
const NARROWEST = 1 / 400; // widths of a column, in pixels
const WIDEST = 84;

// The state of the page: the moment at the cursor, the moment at the left edge of the lanes, the width of a column there, and what is left out.
// `parts` are its elements; `render` draws all that depends on the state.
export function newPage(replay, render) {
  return {
    replay, render, parts: {},
    moment: -1, first: 0, zoom: 20,
    shard: "follow", hidden: new Set(), word: "", text: "", allWords: false,
    search: "trouble", playing: null,
  };
}

export const lastMoment = (page) => page.replay.steps.length - 1;
export const numberOf = (page, moment) => page.replay.from + moment;
export const momentOf = (page, number) => number - page.replay.from;
export const shards = (page) => page.replay.shape.homes.map((_, i) => i);
export const many = (page) => page.replay.shape.homes.length > 1; // shards

// The shards whose state is shown.
export function shownShards(page) {
  if (page.shard === "all") return shards(page);
  if (page.shard !== "follow") return [Number(page.shard)];
  const step = page.replay.steps[page.moment];
  return [step ? step.shard : 0];
}

const oneShard = (page) => page.shard !== "follow" && page.shard !== "all";

// Whether what is of this shard is left out.
export const isOtherShard = (page, shard) => oneShard(page) && shard !== Number(page.shard);

// Whether a step is one that the filters leave.
export function isShown(page, step) {
  if (page.hidden.has(step.rank) || isOtherShard(page, step.shard)) return false;
  return (page.word === "" || step.name === page.word) && (page.text === "" || step.line.includes(page.text));
}

export const hasFilters = (page) => page.hidden.size > 0 || oneShard(page) || page.word !== "" || page.text !== "";

export function goTo(page, moment, quietly) {
  page.moment = clamp(moment, -1, lastMoment(page));
  keepInView(page);
  page.render(page);
  if (!quietly) writeFragment(page);
}

// Goes to the nearest step that is shown and passes the test, if there is one.
export function move(page, direction, test) {
  const found = find(page.replay, page.moment, direction, (step) => isShown(page, step) && (!test || test(step)));
  if (found >= 0) goTo(page, found);
  else if (direction < 0 && !test) goTo(page, -1);
}

export const seek = (page, direction, name) => move(page, direction, SEARCHES[name]);

export function moveOnRank(page, direction) {
  const here = page.replay.steps[page.moment];
  move(page, direction, here ? (step) => step.rank === here.rank : null);
}

// Whether two steps touch the same word, or the same card.
export function sameThing(one, other) {
  if (one.shard !== other.shard) return false;
  return one.name !== null ? one.name === other.name : one.node !== null && one.node === other.node;
}

export function moveOnWord(page, direction) {
  const here = page.replay.steps[page.moment];
  if (here && here.op !== null) move(page, direction, (step) => sameThing(here, step));
}

export function goToCause(page) {
  const cause = causeOf(page.replay, page.moment);
  if (cause >= 0) goTo(page, cause);
}

// How many columns the lanes have room for.
export const columns = (page) => Math.max(1, (page.parts.width - LEFT - 6) / page.zoom);

// The width of a column with which the whole replay is seen.
export const fitting = (page) => (page.parts.width - LEFT - 6) / Math.max(1, page.replay.steps.length);

// Moves the left edge of the lanes to this moment, as far as there are steps.
export function scrollTo(page, first) {
  page.first = clamp(first, 0, Math.max(0, page.replay.steps.length - columns(page)));
}

export function keepInView(page) {
  const seen = columns(page);
  const margin = Math.min(seen * 0.2, 8);
  const inside = page.moment >= page.first + margin && page.moment <= page.first + seen - margin - 1;
  scrollTo(page, inside ? page.first : page.moment - seen / 2);
}

// Changes the width of a column; the step at `anchor` stays where it is.
export function zoomTo(page, zoom, anchor = page.moment) {
  const place = (anchor - page.first) * page.zoom;
  page.zoom = clamp(zoom, Math.max(NARROWEST, Math.min(WIDEST, fitting(page))), WIDEST);
  page.first = anchor - place / page.zoom;
  keepInView(page);
  page.render(page);
}

function stopPlaying(page) {
  clearInterval(page.playing);
  page.playing = null;
}

// Begins to play, or stops. At the end it begins anew.
export function togglePlay(page) {
  if (page.playing !== null) {
    stopPlaying(page);
  } else {
    if (page.moment >= lastMoment(page)) page.moment = -1;
    page.playing = setInterval(() => {
      const before = page.moment;
      move(page, 1);
      if (page.moment === before) togglePlay(page);
    }, 1000 / Number(page.parts.speed.value));
  }
  page.render(page);
}

export function filterWord(page, name) {
  page.word = name;
  page.render(page);
  writeFragment(page);
}

export function clearFilters(page) {
  Object.assign(page, { word: "", text: "", shard: "follow" });
  page.hidden.clear();
  page.parts.text.value = "";
  page.render(page);
  writeFragment(page);
}

export function showShard(page, shard) {
  page.shard = shard;
  page.render(page);
  writeFragment(page);
}

export function nextShard(page) {
  const all = ["follow", ...shards(page).map(String), "all"];
  showShard(page, all[(all.indexOf(page.shard) + 1) % all.length]);
}

// The address tells the cursor: #step=57&shard=1&word=local+tail
function writeFragment(page) {
  const told = new URLSearchParams();
  if (page.moment >= 0) told.set("step", String(numberOf(page, page.moment)));
  if (page.shard !== "follow") told.set("shard", page.shard);
  if (page.word !== "") told.set("word", page.word);
  try {
    history.replaceState(null, "", `#${told}`);
  } catch (error) {
    // A browser may refuse many changes in a short time; the page goes on without.
  }
}

export function readFragment(page) {
  const told = new URLSearchParams(location.hash.slice(1));
  const step = told.get("step");
  const shard = told.get("shard");
  page.shard = shard === "all" || shards(page).map(String).includes(shard) ? shard : "follow";
  page.word = told.get("word") || "";
  goTo(page, step !== null && /^[0-9]+$/.test(step) ? momentOf(page, Number(step)) : -1, true);
}
