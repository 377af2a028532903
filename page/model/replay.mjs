// A replay as the data tell it, step by step. What holds after a step is looked up in the histories that are kept here.
//
// Nothing in this folder knows of a browser, so that it can be tested under node.
import { readCalls, readPlace, readReplies, readShape, readStep, readStops, readWindow, sectionsOf } from "./data.mjs";
import { countTo, newHistory, note, stateAt } from "./histories.mjs";
import { followQueues, markUntold, newQueue, queuesOf } from "./queues.mjs";
import { LEAVES, OUT, READER, WRITER, followLabel, followStanding, newStanding, readStanding } from "./standings.mjs";
import { addWord, followWord } from "./words.mjs";

function emptyReplay(sections) {
  const lines = (name) => sections.get(name) || [];
  const place = readPlace(lines("place"));
  const shape = readShape(lines("shape"));
  const ranks = place.paths.length;
  const queues = queuesOf(place, shape);
  const eachRank = (make) => Array.from({ length: ranks }, make);
  const eachShard = (make) => shape.homes.map(make);
  return {
    place, shape, ranks, queues,
    nodeOf: place.paths.map((path) => shape.nodes.indexOf(path)),
    blocks: readCalls(lines("calls"), ranks),
    replies: readReplies(lines("report"), ranks),
    steps: [], stepsOf: eachRank(() => []), eventsAt: [],
    words: [], byName: new Map(), faults: [],
    cards: eachShard(() => shape.nodes.map(() => newHistory(null))),
    standings: eachRank(newStanding),
    chains: eachShard(() => new Map(queues.map((it) => [it.name, newQueue()]))),
  };
}

// The state before the first step that is shown: each word with its home, and what is told of cards and ranks.
function readState(replay, lines) {
  for (const line of lines) {
    const words = line.split(" ");
    const shard = Number(words[1]);
    if (words[0] === "word") {
      const at = words.indexOf("=");
      addWord(replay, shard, Number(words[2]), words.slice(3, at).join(" "), words[at + 1]);
    } else if (words[0] === "card") {
      replay.cards[shard][Number(words[2])].first = { rank: Number(words[3]), since: -1 };
    } else if (words[0] === "rank") {
      readStanding(replay, words);
    }
  }
  markUntold(replay);
}

function followCard(replay, moment, step) {
  const card = () => replay.cards[step.shard][step.node];
  if (step.op === "take" && step.answer === "moved") note(card(), moment, { rank: step.rank, since: moment });
  if (step.op === "leave") note(card(), moment, null);
}

function addStep(replay, line) {
  const step = readStep(line);
  const moment = replay.steps.length;
  replay.steps.push(step);
  replay.stepsOf[step.rank].push(moment);
  for (const event of step.events) replay.eventsAt.push({ moment, event, shard: step.shard });
}

function follow(replay, step, moment) {
  if (step.name !== null) followWord(replay, moment, step);
  followCard(replay, moment, step);
  followStanding(replay, moment, step);
  followQueues(replay, moment, step);
  followLabel(replay, moment, step);
}

// The replay that the data tell.
export function read(text) {
  const sections = sectionsOf(text);
  const replay = { ...emptyReplay(sections), ...readWindow(text) };
  replay.stops = readStops(text, replay.ranks);
  readState(replay, sections.get("state") || []);
  for (const line of (sections.get("steps") || []).slice(1)) addStep(replay, line);
  replay.steps.forEach((step, moment) => follow(replay, step, moment));
  return replay;
}

export const cardAt = (replay, shard, node, moment) => stateAt(replay.cards[shard][node], moment);

// The last step of a rank up to a moment, or -1.
export function lastStepOf(replay, rank, moment) {
  const mine = replay.stepsOf[rank];
  const n = countTo(mine, moment);
  return n === 0 ? -1 : mine[n - 1];
}

// Where the band of a rank that has given the lock back ends: behind the leave of the card by which it did so.
function endOfRelease(replay, rank, moment) {
  if (replay.steps[moment].op !== "card-store") return moment + 1;
  const mine = replay.stepsOf[rank];
  const next = mine[countTo(mine, moment)];
  return next === undefined ? replay.steps.length : next + 1;
}

// How a rank stands, as bands from one step to before another: from its first step on, a holder from the step that enters, the rest behind the step
// that changes it; a release to its last step. There is none where it is out.
export function bandsOf(replay, rank) {
  const bands = [];
  const { at, states, first } = replay.standings[rank].history;
  let open = first.standing === OUT ? null : { ...first, from: 0 };
  const close = (to) => {
    if (open && to > open.from) bands.push({ ...open, to });
  };
  at.forEach((moment, i) => {
    const { standing } = states[i];
    const holds = standing === WRITER || standing === READER;
    const begins = holds || open === null ? moment : moment + 1;
    close(open && open.standing === LEAVES && standing === OUT ? endOfRelease(replay, rank, moment) : begins);
    open = standing === OUT ? null : { ...states[i], from: begins };
  });
  close(replay.steps.length);
  return bands;
}

// When a rank is in which card.
export function cardBandsOf(replay, rank) {
  const bands = [];
  replay.cards.forEach((nodes, shard) => nodes.forEach((card, node) => {
    let held = card.first ? { ...card.first, since: 0 } : null;
    const close = (to) => {
      if (held && held.rank === rank) bands.push({ from: held.since, to, node, shard });
    };
    card.at.forEach((moment, i) => {
      close(moment + 1);
      held = card.states[i];
    });
    close(replay.steps.length);
  }));
  return bands;
}

// Whether the schedule has stopped a rank before the step behind a moment.
export function isStopped(replay, rank, moment) {
  return replay.stops[rank] !== null && replay.stops[rank] <= replay.from + moment + 1;
}

// Since when a rank makes no step any more.
export function stopBandsOf(replay, rank) {
  const from = Math.max(0, replay.stops[rank] - replay.from);
  return replay.stops[rank] === null || from >= replay.steps.length ? [] : [{ from, to: replay.steps.length }];
}

// Under `combine`: when a rank does whose call.
export function serviceBandsOf(replay, rank) {
  const bands = [];
  let open = null;
  for (const moment of replay.stepsOf[rank]) {
    const { serves, shard } = replay.steps[moment];
    if (open && open.serves === serves) {
      open.to = moment + 1;
    } else {
      open = serves < 0 ? null : { from: moment, to: moment + 1, serves, shard };
      if (open) bands.push(open);
    }
  }
  return bands;
}
