// What must hold of what the model says of a replay, beside what its lines say straight away.
import assert from "node:assert";
import { explain, remark, tieAt } from "../model/explanations.mjs";
import { meaning } from "../model/meanings.mjs";
import { chainAt, queueAt } from "../model/queues.mjs";
import { bandsOf, cardAt, cardBandsOf, serviceBandsOf } from "../model/replay.mjs";
import { UNTOLD, standingAt } from "../model/standings.mjs";
import { valueAt } from "../model/words.mjs";

// The values of all words after each step, by going through the lines once, with no more than their words in hand.
function checkValues(replay) {
  const now = new Map();
  replay.steps.forEach((step, i) => {
    const words = step.line.split(" ").slice(3);
    const shard = words[0] === "shard" ? words.splice(0, 2)[1] : "0";
    const to = words.indexOf(":=");
    const swap = words.indexOf("to");
    if (to > 0) now.set(`${shard} ${words.slice(1, to).join(" ")}`, words[to + 1]);
    const won = words[0] === "local-cas" && words[swap - 1] === words[swap + 3];
    if (won) now.set(`${shard} ${words.slice(1, swap - 1).join(" ")}`, words[swap + 1]);
    if (i % 17 !== 0 && i + 1 < replay.steps.length) return;
    for (const [key, value] of now) {
      const name = key.slice(key.indexOf(" ") + 1);
      assert.strictEqual(valueAt(replay, Number(key.split(" ")[0]), name, i), value, `${key} after ${i}`);
    }
  });
}

// A queue has a member exactly where its tail isn't empty, and the tail is the last one. Each link leads to the next member, and each has a call open.
function checkQueue(replay, shard, queue, moment) {
  if (queueAt(replay, shard, queue.name, moment).untold) return;
  const what = `queue ${queue.name} of shard ${shard} after ${moment}`;
  const chain = chainAt(replay, shard, queue, moment);
  const kind = queue.ofRanks ? "rank" : "element";
  const last = chain.length === 0 ? "empty" : `${kind} ${chain[chain.length - 1].member}`;
  assert.strictEqual(meaning(replay, queue.tail, valueAt(replay, shard, queue.tail, moment)), last, what);
  chain.forEach((it, i) => {
    const next = `next ${queue.ofRanks ? "" : "of "}${it.member}`;
    if (it.linked) assert.strictEqual(meaning(replay, next, valueAt(replay, shard, next, moment)), `${kind} ${chain[i + 1].member}`, what);
    if (!queue.ofRanks) return;
    const at = standingAt(replay, Number(it.member), moment);
    assert.ok(at.standing !== "out" && at.shard === shard, `${what}: rank ${it.member} has no call open`);
  });
}

// No writer stands beside another holder.
function checkHolders(replay, shard, moment) {
  const all = replay.standings.map((_, rank) => standingAt(replay, rank, moment)).filter((it) => it.shard === shard);
  const writers = all.filter((it) => it.standing === "writer").length;
  const readers = all.filter((it) => it.standing === "reader").length;
  assert.ok(writers === 0 || (writers === 1 && readers === 0), `holders of shard ${shard} after ${moment}`);
}

// All that is said of a step is text, or a link to a step before it.
function checkTold(replay, moment) {
  const pieces = [...explain(replay, moment), ...remark(replay, moment)];
  for (const it of pieces) {
    if (typeof it === "string") assert.ok(!/undefined|NaN|null/.test(it), `${it} in ${moment}`);
    else assert.ok(it.step >= 0 && it.step <= moment, `a link to ${it.step} in ${moment}`);
  }
}

function checkMoment(replay, moment) {
  replay.shape.homes.forEach((_, shard) => {
    for (const queue of replay.queues) checkQueue(replay, shard, queue, moment);
    checkHolders(replay, shard, moment);
    if (["alock", "seq", "combine"].includes(replay.place.lock)) tieAt(replay, shard, moment);
  });
  if (moment >= 0) checkTold(replay, moment);
}

// The calls that have a reply are those of the blocks that are behind a rank; its open one may have them already.
function checkCalls(replay) {
  if (replay.place.lock === "combine") return; // there another rank may have done the call, before its own is back
  replay.standings.forEach((_, rank) => {
    const { block } = standingAt(replay, rank, replay.steps.length - 1);
    const done = replay.blocks[rank].slice(0, block).reduce((sum, it) => sum + it.calls.length, 0);
    const open = replay.blocks[rank][block];
    const told = replay.replies[rank].size;
    assert.ok(told === done || (open && told === done + open.calls.length), `rank ${rank} has done ${done} calls, told are ${told}`);
  });
}

// Bands are in order, of whole steps, and don't overlap.
function checkBands(replay) {
  replay.standings.forEach((_, rank) => {
    for (const bands of [bandsOf(replay, rank), cardBandsOf(replay, rank).sort((one, other) => one.from - other.from), serviceBandsOf(replay, rank)]) {
      bands.forEach((it, i) => {
        assert.ok(it.from < it.to && it.to <= replay.steps.length, `band of rank ${rank} at ${it.from}`);
        assert.ok(i === 0 || bands[i - 1].to <= it.from, `bands of rank ${rank} overlap at ${it.from}`);
      });
    }
  });
}

// Who is stopped makes no step from there on.
function checkStops(replay) {
  replay.stops.forEach((stop, rank) => {
    const last = replay.stepsOf[rank].at(-1);
    if (stop !== null && last !== undefined) assert.ok(replay.steps[last].number < stop, `rank ${rank} is stopped before step ${stop}`);
  });
}

// Tests a whole replay, at each moment.
export function checkReplay(replay) {
  assert.deepStrictEqual(replay.faults, [], "a load finds what was written last");
  assert.strictEqual(replay.steps.length, replay.shown);
  checkValues(replay);
  checkCalls(replay);
  checkBands(replay);
  checkStops(replay);
  const every = Math.max(1, Math.floor(replay.steps.length / 500));
  for (let i = -1; i < replay.steps.length; i += every) checkMoment(replay, i);
}

// Of a rank's standing, what a window tells: not yet whether a reader was refused before it.
const seen = ({ standing, shard, block }) => (standing === "out" ? { standing, block } : { standing, shard, block });

function compareStanding(whole, part, rank, here) {
  const there = here + part.from;
  assert.deepStrictEqual(seen(standingAt(part, rank, here)), seen(standingAt(whole, rank, there)), `rank ${rank} after ${there}`);
}

function compareMoment(whole, part, here) {
  const there = here + part.from;
  for (const word of whole.words) {
    assert.strictEqual(valueAt(part, word.shard, word.name, here), valueAt(whole, word.shard, word.name, there), `${word.name} after ${there}`);
  }
  whole.standings.forEach((_, rank) => compareStanding(whole, part, rank, here));
  whole.cards.forEach((nodes, shard) => nodes.forEach((_, node) => {
    const [one, other] = [cardAt(part, shard, node, here), cardAt(whole, shard, node, there)].map((it) => it && it.rank);
    assert.strictEqual(one, other, `card ${node} after ${there}`);
  }));
  whole.shape.homes.forEach((_, shard) => whole.queues.forEach((queue) => {
    const all = chainAt(whole, shard, queue, there);
    const told = chainAt(part, shard, queue, here);
    const { untold } = queueAt(part, shard, queue.name, here);
    if (!untold) assert.strictEqual(told.length, all.length, `${queue.name} after ${there}`);
    const names = (list) => list.map((it) => it.member);
    assert.deepStrictEqual(names(told), names(all).slice(all.length - told.length), `${queue.name} after ${there}`);
  }));
}

// A window says of its moments what the whole replay says of them.
export function checkWindow(whole, part) {
  assert.deepStrictEqual(part.faults, []);
  assert.strictEqual(part.total, whole.total);
  const every = Math.max(1, Math.floor(part.steps.length / 20));
  for (let i = -1; i < part.steps.length; i += every) compareMoment(whole, part, i);
  part.steps.forEach((step, i) => {
    const same = whole.steps[i + part.from];
    assert.strictEqual(step.line, same.line);
    assert.strictEqual(step.before, same.before, `what ${step.line} found`);
    if (step.serves !== UNTOLD) assert.strictEqual(step.serves, same.serves, `whose call ${step.line} is of`);
    checkTold(part, i);
  });
}
