// Why a step came out as it did, in sentences: lists of pieces, each a text or `{ step }`, which is a link to that moment.
import { countTo } from "./histories.mjs";
import { chainAt, queueAt } from "./queues.mjs";
import { cardAt, lastStepOf } from "./replay.mjs";
import { ASKS, LEAVES, LOOKS, OUT, REFUSED, standingAt } from "./standings.mjs";
import { MARK, valueAt, wordNamed } from "./words.mjs";

const beforeAll = (replay) => (replay.from === 0 ? "at the start" : "before the first step shown");

// Who wrote what is found.
function writtenBy(replay, source) {
  if (source < 0) return [`it was there ${beforeAll(replay)}`];
  return [`rank ${replay.steps[source].rank} wrote it in step `, { step: source }];
}

// Whether, and where, one step before this one bears on it: the write that it reads, or the step that took the card. Else -1.
export function causeOf(replay, moment) {
  const step = replay.steps[moment];
  if (step === undefined) return -1;
  if (step.answer === "busy") {
    const held = cardAt(replay, step.shard, step.node, moment);
    return held ? held.since : -1;
  }
  return step.name === null ? -1 : step.source;
}

// A writer under RMA-RW has loaded the counter's arrive one step before its depart.
function counterReason(replay, moment, step) {
  const before = replay.steps[lastStepOf(replay, step.rank, moment - 1)];
  const rule = "a writer waits until as many readers have left as came";
  if (before === undefined || !/^arrive/.test(before.name)) return rule;
  return `${BigInt(before.found) % MARK} came and ${step.found} left: ${rule}`;
}

// A refused reader looks at arrive and at the root's tail in turn.
function refusedReason(replay, moment, step) {
  const most = replay.place.readers;
  const seen = standingAt(replay, step.rank, moment).more === REFUSED;
  const who = seen ? "it was refused, and waits" : "a refused reader waits";
  return `${who} until no mark is up and fewer than ${most} have come, or until it sees no writer`;
}

const WAITS = [
  [/^status/, () => "it waits until the one before it tells it something"],
  [/^next/, () => "somebody has joined behind it and has still to link itself: it waits for that link"],
  [/^victim$/, () => "it is the victim and the other cohort's queue is taken: it waits until the other cohort is the victim or gone"],
  [/^depart/, counterReason],
  [/^version$/, () => "the version is odd: a writer stores; the get waits until it is even"],
  [/tail/, refusedReason],
];

function explainBusy(replay, moment, step) {
  const held = cardAt(replay, step.shard, step.node, moment);
  const since = held && held.since >= 0 ? [" since step ", { step: held.since }] : [];
  return [`Rank ${step.answered} is in the card of node ${step.node}`, ...since, ": nothing changes, and it will try again."];
}

// What a rank does after a compare that is lost. Who leaves a queue compares to empty it, and learns that somebody has joined.
function afterLost(replay, moment, step) {
  if (standingAt(replay, step.rank, moment).standing === LEAVES) return "Nothing is written: somebody has joined behind it.";
  return replay.place.lock === "spin" ? "Nothing is written; it will try again." : "Nothing is written; it will try with another guess.";
}

function explainLost(replay, moment, step) {
  if (step.name === "version") {
    const found = `Its first look found ${step.answered}, and this one ${step.found}: `;
    return [found, ...writtenBy(replay, step.source), ". It forgets what it read, and begins anew."];
  }
  const found = `It guessed ${step.answered} and found ${step.found}: `;
  return [found, ...writtenBy(replay, step.source), ". ", afterLost(replay, moment, step)];
}

function explainWaiting(replay, moment, step) {
  const found = WAITS.find(([names]) => names.test(step.name));
  const reason = found ? found[1](replay, moment, step) : "it waits for another value";
  return [`It found ${step.found} (`, ...writtenBy(replay, step.source), `); ${reason}.`];
}

function explainMove(replay, moment, step) {
  if (step.op === "take") return [`It is in the card of node ${step.node} now: no other operation of that card can come between, any processor's can.`];
  if (step.op === "leave") return [`The card of node ${step.node} is free again.`];
  const writer = writtenBy(replay, step.source);
  if (step.written !== null && step.before === step.written) return [`It writes ${step.written}, which stood there already (`, ...writer, ")."];
  if (step.written !== null) return [`It changes ${step.before} (`, ...writer, `) to ${step.written}.`];
  if (step.source < 0) return [`It finds what was there ${beforeAll(replay)}.`];
  return [`It finds what rank ${replay.steps[step.source].rank} wrote in step `, { step: step.source }, "."];
}

// Why the step of this moment came out as it did.
export function explain(replay, moment) {
  const step = replay.steps[moment];
  const by = { busy: explainBusy, lost: explainLost, waiting: explainWaiting, moved: explainMove };
  return step.answer in by ? by[step.answer](replay, moment, step) : ["It has no call left: no atom is made."];
}

// The step that put the writer's mark up that a counter has after a moment, or -1.
function markedBy(replay, shard, name, moment) {
  const word = wordNamed(replay, shard, name);
  let at = countTo(word.at, moment) - 1;
  if (at < 0 || BigInt(word.values[at]) < MARK) return -1;
  while (at > 0 && BigInt(word.values[at - 1]) >= MARK) at -= 1;
  return BigInt(word.start) >= MARK && at === 0 ? -1 : word.at[at];
}

function refusal(replay, moment, step) {
  const after = " It takes its 1 off again, and tries later.";
  if (BigInt(step.before) < MARK) return [`It is refused: it found ${step.before}, and no more than ${replay.place.readers} may come.${after}`];
  const mark = markedBy(replay, step.shard, step.name, moment - 1);
  const writer = mark >= 0 ? [`, which rank ${replay.steps[mark].rank} put there in step `, { step: mark }] : [];
  return ["It is refused: a writer's mark is up", ...writer, `.${after}`];
}

// What an atom on the counters of RMA-RW comes to.
function counterRemark(replay, moment, step) {
  const who = standingAt(replay, step.rank, moment);
  if (step.label === "refused") return refusal(replay, moment, step);
  if (step.label === "mark") return ["The writer's mark is up: from now on every reader is refused."];
  if (step.label === "mark off") return ["The writer's mark is taken off: readers may come in again."];
  if (step.label === "reset") return [`It resets the counter: the ${step.before} that left are taken out here, and then off arrive.`];
  if (who.standing !== ASKS || who.more !== REFUSED || step.written === null) return [];
  const fallen = BigInt(step.before) - BigInt(step.written);
  const reset = replay.steps[lastResetOf(replay, step, moment)];
  if (reset !== undefined && fallen === BigInt(reset.before)) return ["With this the reset is whole: those that left count no more."];
  return fallen === 1n ? ["It was refused, and takes its 1 off again."] : [];
}

// The rank's reset right before this step, within its last operation of a card, or -1.
function lastResetOf(replay, step, moment) {
  const mine = replay.stepsOf[step.rank];
  const n = countTo(mine, moment - 1);
  return mine.slice(Math.max(0, n - 6), n).findLast((it) => replay.steps[it].label === "reset") ?? -1;
}

// What a step comes to that its line alone doesn't tell.
export function remark(replay, moment) {
  const step = replay.steps[moment];
  if (step.name === null) return [];
  const before = standingAt(replay, step.rank, moment - 1).standing;
  const after = standingAt(replay, step.rank, moment).standing;
  if (before === LOOKS && after === OUT) return ["The version is that of its first look: the get has read what the table was, and is done."];
  if (/^(arrive|depart)/.test(step.name)) {
    const told = counterRemark(replay, moment, step);
    if (told.length > 0) return told;
  }
  return after === OUT && before === LEAVES ? ["With this the lock is given back."] : [];
}

// Under ALock: whether the rank has named a victim since it began to ask; nothing where that was before the first step shown, and isn't told.
function hasAnnounced(replay, rank, moment) {
  const mine = replay.stepsOf[rank];
  for (let i = countTo(mine, moment) - 1; i >= 0; i--) {
    const step = replay.steps[mine[i]];
    if (step.name === "victim" && step.written !== null) return true;
    if (standingAt(replay, rank, mine[i] - 1).standing !== ASKS) return false;
  }
  return standingAt(replay, rank, -1).standing === ASKS ? null : false;
}

// Under ALock: what each head that isn't settled finds, as the two tails and the victim stand after a moment.
export function tieAt(replay, shard, moment) {
  return replay.queues.flatMap((queue, i) => {
    const head = chainAt(replay, shard, queue, moment)[0];
    if (head === undefined || head.settled || !["0", "1"].includes(head.status)) return [];
    const announced = hasAnnounced(replay, Number(head.member), moment);
    if (announced === null || queueAt(replay, shard, queue.name, moment).untold) return [];
    const other = replay.queues[1 - i];
    const who = `rank ${head.member}, head of ${queue.name}, `;
    if (!announced) return [`${who}hasn't named its cohort the victim yet`];
    if (valueAt(replay, shard, other.tail, moment) === "0") return [`${who}may go: ${other.name} is empty`];
    const isVictim = valueAt(replay, shard, "victim", moment) === String(i + 1);
    return [who + (isVictim ? `has to wait: ${other.name} is taken, and its cohort is the victim` : `may go: ${other.name} is the victim`)];
  });
}
