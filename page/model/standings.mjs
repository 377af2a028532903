// How each rank stands to the lock, told by its first step, by events, and by what says that it is out again.
//
// A standing is { standing, more, shard, block }: the shard that the rank's open call is of, how many of its blocks are done, and in `more` what is
// seen of it beyond its standing: a reader that was refused, or a rank whose posted call was done by another one.
import { countTo, newHistory, note, stateAt } from "./histories.mjs";
import { MARK, valueAt } from "./words.mjs";

export const OUT = "out";
export const ASKS = "asks";
export const LOOKS = "looks"; // in a get under `seq`, which takes no lock
export const WRITER = "writer";
export const READER = "reader";
export const LEAVES = "leaves";
export const REFUSED = "refused";
export const ANSWERED = "answered";

// Whose call a rank does under `combine`: a rank's number, or one of these.
export const NOBODY = -1;
export const UNTOLD = -2; // the steps shown don't tell whose

export function newStanding() {
  const first = { standing: OUT, more: "", shard: 0, block: 0 };
  return { now: first, serves: NOBODY, sweeps: false, history: newHistory(first) };
}

export const standingAt = (replay, rank, moment) => stateAt(replay.standings[rank].history, moment);

// The block of calls that a rank is at, or nothing behind its last one.
export const blockAt = (replay, rank, moment) => replay.blocks[rank][standingAt(replay, rank, moment).block];

function setStanding(who, moment, changed) {
  who.now = { ...who.now, more: "", ...changed };
  note(who.history, moment, who.now);
}

const isGet = (block) => block !== undefined && block.calls[0].startsWith("get ");

// Whether a rank's open call is one that comes in beside others under RMA-RW.
export const reads = (replay, who, rank) => replay.place.lock === "rw" && isGet(replay.blocks[rank][who.now.block]);

// Whether this block of a rank is a get under `seq`, which takes no lock.
const takesNoLock = (replay, rank, block) => replay.place.lock === "seq" && isGet(replay.blocks[rank][block]);

function begin(replay, who, moment, step) {
  const standing = takesNoLock(replay, step.rank, who.now.block) ? LOOKS : ASKS;
  setStanding(who, moment, { standing, shard: step.shard });
}

function endBlock(who, moment) {
  setStanding(who, moment, { standing: OUT, block: who.now.block + 1 });
}

// Where a window begins within a rank's call: whether the count was loaded before this step, or else is loaded in the rank's next one. Null where that
// step isn't shown, and so it isn't told.
function isBehindCount(replay, rank, moment) {
  const mine = replay.stepsOf[rank];
  const next = mine[countTo(mine, moment)];
  return next === undefined ? null : replay.steps[next].name !== "count";
}

// Whether a reader adds itself to `arrive` with this step, and finds that it may not come in.
function isRefused(replay, who, step) {
  if (step.written === null || !/^arrive /.test(step.name) || !reads(replay, who, step.rank)) return false;
  return BigInt(step.written) === BigInt(step.before) + 1n && BigInt(step.before) >= BigInt(replay.place.readers);
}

// Under `combine` another rank's posted call is done with the store of 2 to its flag.
function followAnswer(replay, moment, step) {
  const flag = /^flag ([0-9]+)$/.exec(step.name || "");
  if (!flag || step.written !== "2" || Number(flag[1]) === step.rank) return;
  const who = replay.standings[Number(flag[1])];
  if (who.now.standing === ASKS) setStanding(who, moment, { more: ANSWERED });
}

export function followStanding(replay, moment, step) {
  const who = replay.standings[step.rank];
  if (step.op === null || (who.now.standing === OUT && step.op === "leave")) return;
  if (who.now.standing === OUT) begin(replay, who, moment, step);
  const entered = step.events.find((it) => it[0].startsWith("enter-"));
  const left = step.events.find((it) => it[0].startsWith("leave-"));
  if (step.out) endBlock(who, moment);
  else if (entered) setStanding(who, moment, { standing: entered[0] === "enter-w" ? WRITER : READER });
  else if (left) setStanding(who, moment, { standing: LEAVES });
  else if (who.now.standing === ASKS && isRefused(replay, who, step)) setStanding(who, moment, { more: REFUSED });
  followAnswer(replay, moment, step);
}

// How many blocks of a rank are behind it, where it has opened so many calls; the last of them is done only where the rank is out.
function blocksBehind(blocks, opened, standing) {
  const begun = blocks.filter((it) => it.first < opened).length;
  return standing === OUT ? begun : begun - 1;
}

// How a rank stands before the first step, from the words of its line in the state.
export function readStanding(replay, words) {
  const [rank, shard, opened] = [words[1], words[2], words[5]].map(Number);
  const block = blocksBehind(replay.blocks[rank], opened, words[3]);
  const looks = words[3] === ASKS && takesNoLock(replay, rank, block);
  const answered = words[3] === ASKS && replay.place.lock === "combine" && valueAt(replay, shard, `flag ${rank}`, -1) === "2";
  const who = replay.standings[rank];
  who.now = { standing: looks ? LOOKS : words[3], more: answered ? ANSWERED : "", shard, block };
  who.sweeps = words[3] === WRITER ? null : false;
  who.serves = words[3] === WRITER ? UNTOLD : NOBODY;
  who.history.first = who.now;
}

// Under `combine`: whose posted call a writer does in this step. It looks at its own flag, loads the count, and then goes through all flags; one that it
// finds 1 there begins a call, which ends with the store of 2.
function servedBy(replay, who, moment, step) {
  if (who.now.standing !== WRITER) {
    who.sweeps = false;
    who.serves = NOBODY;
    return NOBODY;
  }
  const flag = /^flag ([0-9]+)$/.exec(step.name || "");
  if (step.name === "count") who.sweeps = true;
  if (flag && step.op === "load") {
    const sweeps = who.sweeps ?? isBehindCount(replay, step.rank, moment);
    const found = sweeps === null ? UNTOLD : Number(flag[1]);
    who.serves = step.found === "1" && sweeps !== false ? found : NOBODY;
  }
  const serves = who.serves;
  if (flag && step.written === "2") who.serves = NOBODY;
  return serves;
}

// Whose call a step serves, and what it is called beyond its atom and its answer: labels of a few words.
export function followLabel(replay, moment, step) {
  const who = replay.standings[step.rank];
  step.serves = replay.place.lock === "combine" ? servedBy(replay, who, moment, step) : NOBODY;
  step.label = step.name === null ? "" : labelOfAtom(who, step);
}

function labelOfAtom(who, step) {
  if (step.name === "version") return versionLabel(step);
  if (step.written === null) return "";
  if (step.name.startsWith("arrive ")) return arriveLabel(who, step);
  if (step.name.startsWith("depart ")) return step.written === "0" && who.now.standing === ASKS ? "reset" : "";
  if (step.name.startsWith("flag ")) return flagLabel(step);
  return "";
}

function versionLabel(step) {
  if (step.written !== null) return Number(step.written) % 2 === 1 ? "version odd" : "version even";
  if (step.answer === "lost") return "look lost";
  return step.out ? "get done" : "";
}

function arriveLabel(who, step) {
  const risen = BigInt(step.written) - BigInt(step.before);
  if (risen === MARK) return "mark";
  if (risen <= -MARK) return "mark off";
  return risen === 1n && who.now.more === REFUSED ? "refused" : "";
}

function flagLabel(step) {
  const rank = Number(step.name.split(" ")[1]);
  if (step.written === "1") return "posts";
  if (step.written === "0") return "collects";
  return rank === step.rank ? "its call is done" : `done for rank ${rank}`;
}
