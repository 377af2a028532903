// Who stands in each queue. A member is { member, settled }: a rank, or the path of an element, and whether it has the queue anew.
//
// The state before a window doesn't tell who stands in a queue. One that isn't empty there is `untold`: only who joins from there on is known, until
// the queue is empty or handed to one of these.
import { newHistory, note, stateAt } from "./histories.mjs";
import { valueAt } from "./words.mjs";

// The queues of a lock in the order of the report, with what their members are and which word is their tail.
export function queuesOf(place, shape) {
  const flat = (name, tail, budget) => ({ name, tail, budget, ofRanks: true, depth: 0 });
  const ofElement = ({ name, budget }) => ({
    name,
    tail: `tail of ${name}`,
    budget: budget === "none" ? null : Number(budget),
    ofRanks: shape.nodes.includes(name),
    depth: name === "root" ? 0 : name.split(".").length,
  });
  if (place.lock === "spin") return [];
  if (place.lock === "dmcs") return [flat("all", "tail", null)];
  if (place.lock === "mcs" || place.lock === "rw") return shape.elements.map(ofElement);
  return [flat("local", "local tail", place.budgets[0]), flat("remote", "remote tail", place.budgets[1])];
}

export const newQueue = () => newHistory({ members: [], untold: false });

// The queue's state behind the last step that was followed.
const last = (queue) => (queue.states.length > 0 ? queue.states[queue.states.length - 1] : queue.first);

export const queueAt = (replay, shard, name, moment) => stateAt(replay.chains[shard].get(name), moment);

// Marks the queues that aren't empty before the first step.
export function markUntold(replay) {
  replay.chains.forEach((chains, shard) => {
    for (const queue of replay.queues) chains.get(queue.name).first.untold = valueAt(replay, shard, queue.tail, -1) !== "0";
  });
}

// Who was told something by the one before has nobody before it any more.
function followHandover(replay, moment, step) {
  const told = /^status (of )?(.+)$/.exec(step.name);
  if (!told || step.written === null || step.written === "0") return;
  const ofRanks = told[1] === undefined;
  for (const queue of replay.queues.filter((it) => it.ofRanks === ofRanks)) {
    const chain = replay.chains[step.shard].get(queue.name);
    const { members } = last(chain);
    const at = members.findIndex((it) => it.member === told[2]);
    if (at >= 0) note(chain, moment, { members: members.slice(at), untold: false });
  }
}

export function followQueues(replay, moment, step) {
  const chains = replay.chains[step.shard];
  if (step.written === "0") {
    const queue = replay.queues.find((it) => it.tail === step.name);
    if (queue) note(chains.get(queue.name), moment, { members: [], untold: false });
  }
  if (step.name !== null) followHandover(replay, moment, step);
  for (const [kind, name, member] of step.events) {
    if (kind !== "join" && kind !== "settle") continue;
    const chain = chains.get(name);
    const { members, untold } = last(chain);
    const settles = (it) => (it.member === member ? { member, settled: true } : it);
    note(chain, moment, { members: kind === "join" ? [...members, { member, settled: false }] : members.map(settles), untold });
  }
}

// The members of a queue after a moment, from the head on, each with what it is told and its link to the one behind it.
export function chainAt(replay, shard, queue, moment) {
  const { members } = queueAt(replay, shard, queue.name, moment);
  const of = queue.ofRanks ? "" : "of ";
  return members.map((it, i) => {
    const behind = i + 1 < members.length;
    const status = valueAt(replay, shard, `status ${of}${it.member}`, moment);
    return { ...it, status, behind, linked: behind && valueAt(replay, shard, `next ${of}${it.member}`, moment) !== "0" };
  });
}
