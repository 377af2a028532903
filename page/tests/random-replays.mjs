// Replays made from a number: a placement, calls and a schedule, for each lock in turn. What they come to isn't known beforehand.

const LOCKS = ["spin", "dmcs", "alock", "mcs", "rw", "seq", "combine"];
const CALLS = ["put K 5", "put K 9", "get K", "get K", "del K", "add K 3", "cas K 5 6"];

// Numbers below a bound, one after the other, the same ones for the same seed.
function numbersFrom(seed) {
  let state = BigInt(seed) * 2654435761n + 1n;
  return (bound) => {
    state = (state * 6364136223846793005n + 1442695040888963407n) % (1n << 64n);
    return Number((state >> 33n) % BigInt(bound));
  };
}

function placeOf(next, lock, ranks, shards) {
  const levels = lock === "mcs" || lock === "rw" ? 1 + next(2) : 1;
  const path = (it) => (levels === 1 ? `${it % 3}` : `${it % 2}.${it % 3}`);
  const budgets = lock === "mcs" || lock === "rw" ? Array.from({ length: levels }, () => 1 + next(2)) : [next(3), next(3)];
  const lines = ["rmalock-place 1", `levels ${levels}`, `lock ${lock}`];
  if (!["spin", "dmcs"].includes(lock)) lines.push(`budget ${budgets.join(" ")}`);
  if (lock === "rw") lines.push(`writers ${1 + next(2)}`, `readers ${1 + next(3)}`, `group ${1 + next(ranks)}`);
  lines.push(`shards ${shards}`, `buckets ${1 + next(3)}`, `overflow ${next(3)}`);
  for (let rank = 0; rank < ranks; rank++) lines.push(`rank ${rank} at ${path(rank)}`);
  for (let shard = 0; shard < shards; shard++) lines.push(`home ${shard} ${path(next(ranks))}`);
  return lines;
}

function callsOf(next, lock, ranks, shards) {
  const lines = ["rmalock-calls 2"];
  const key = () => String(next(3) * shards + next(shards));
  for (let i = 0; i < 4 * ranks; i++) {
    const rank = next(ranks);
    const kind = next(10);
    if (kind === 0) lines.push(`${rank} hold ${next(shards)}`);
    else if (kind === 1 && lock !== "combine") lines.push(`${rank} batch 2`, `${rank} put ${shards} 1`, `${rank} add 0 2`);
    else lines.push(`${rank} ${CALLS[next(CALLS.length)].replace("K", key())}`);
  }
  return lines;
}

function scheduleOf(next, ranks) {
  const lines = ["rmalock-schedule 1"];
  const alive = Array.from({ length: ranks }, (_, rank) => rank);
  for (let i = 0; i < 80; i++) lines.push(`${alive[next(alive.length)]} ${[1, 1, 2, 3, 7][next(5)]}`);
  if (next(4) === 0) lines.push(`stop ${alive.splice(next(ranks), 1)[0]}`);
  for (let i = 0; i < 50; i++) lines.push(`${alive[next(alive.length)]} ${[1, 2, 5][next(3)]}`);
  return lines;
}

// The three files of the replay with this number.
export function replayOf(number) {
  const next = numbersFrom(number);
  const lock = LOCKS[number % LOCKS.length];
  const ranks = 2 + next(5);
  const shards = 1 + next(3);
  const text = (lines) => `${lines.join("\n")}\nend\n`;
  const place = text(placeOf(next, lock, ranks, shards));
  const calls = text(callsOf(next, lock, ranks, shards));
  return { place, calls, schedule: text(scheduleOf(next, ranks)) };
}
