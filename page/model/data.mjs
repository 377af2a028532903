// Reads the data of a page: its sections, and in them the placement, the shape, the calls, the replies and the steps.

// The sections of the data: each begins with a line `rmalock-NAME VERSION` and ends with `end`.
export function sectionsOf(text) {
  const sections = new Map();
  let lines = null;
  for (const line of text.split("\n")) {
    if (lines === null) {
      const head = /^rmalock-([a-z]+) [0-9]+$/.exec(line);
      if (head && head[1] !== "page") {
        lines = [];
        sections.set(head[1], lines);
      }
    } else if (line === "end") {
      lines = null;
    } else {
      lines.push(line);
    }
  }
  return sections;
}

// What the page needs of a placement: the lock with its settings, the sizes of a shard, and the path of each rank.
export function readPlace(lines) {
  const place = { lock: "", budgets: [], writers: null, readers: null, group: 1, buckets: 1, overflow: 0, paths: [] };
  for (const line of lines) {
    const words = line.split(" ");
    if (words[0] === "lock") place.lock = words[1];
    else if (words[0] === "budget") place.budgets = words.slice(1).map(Number);
    else if (words[0] === "rank") place.paths.push(words[3]);
    else if (["writers", "readers", "group", "buckets", "overflow"].includes(words[0])) place[words[0]] = Number(words[1]);
  }
  return place;
}

// The paths of the nodes, the elements, and the node of each shard's home.
export function readShape(lines) {
  const shape = { nodes: [], elements: [], homes: [] };
  for (const line of lines) {
    const words = line.split(" ");
    if (words[0] === "node") shape.nodes.push(words[2]);
    if (words[0] === "shard") shape.homes.push(Number(words[3]));
    if (words[0] === "element") shape.elements.push({ name: words[2], budget: words[6] });
  }
  return shape;
}

// The blocks of each rank in its order: a call, or a batch of them. Each has the number of its first call.
export function readCalls(lines, ranks) {
  const blocks = Array.from({ length: ranks }, () => []);
  const calls = Array.from({ length: ranks }, () => 0);
  let missing = 0; // how many calls of a batch are still to come
  for (const line of lines) {
    const words = line.split(" ");
    const rank = Number(words[0]);
    if (words[1] === "batch") {
      missing = Number(words[2]);
      blocks[rank].push({ calls: [], first: calls[rank] });
      continue;
    }
    const call = words.slice(1).join(" ");
    if (missing > 0) {
      missing -= 1;
      blocks[rank][blocks[rank].length - 1].calls.push(call);
    } else {
      blocks[rank].push({ calls: [call], first: calls[rank] });
    }
    calls[rank] += 1;
  }
  return blocks;
}

// The window of the data: the steps from `from` on are shown, so many as `shown` says, of `total`.
export function readWindow(text) {
  const found = /^window ([0-9]+) [0-9]+ shown ([0-9]+) of ([0-9]+)$/m.exec(text);
  const [from, shown, total] = found ? found.slice(1).map(Number) : [0, 0, 0];
  return { from: Math.min(from, total), shown, total, asked: from };
}

// For each rank the number of the step before which the schedule stops it, or null.
export function readStops(text, ranks) {
  const stops = Array.from({ length: ranks }, () => null);
  const head = text.slice(0, text.indexOf("rmalock-place"));
  for (const [, rank, number] of head.matchAll(/^stop ([0-9]+) before ([0-9]+)$/gm)) stops[rank] = Number(number);
  return stops;
}

// The replies of a report: for each rank, by the number of the call.
export function readReplies(lines, ranks) {
  const replies = Array.from({ length: ranks }, () => new Map());
  for (const line of lines) {
    const entry = /^entry [0-9]+ ([0-9]+) ([0-9]+) .* = (.*)$/.exec(line);
    if (entry) replies[Number(entry[1])].set(Number(entry[2]), entry[3]);
  }
  return replies;
}

// Reads the atom of a step from word `at` on; returns where its answer begins.
function readAtom(step, words, at) {
  const op = words[at];
  step.op = op;
  if (op === "take" || op === "leave") {
    step.node = Number(words[at + 2]);
    return at + 3;
  }
  if (op === "local-cas") {
    const to = words.indexOf("to", at);
    step.name = words.slice(at + 1, to - 1).join(" ");
    step.guess = words[to - 1];
    step.found = words[to + 3];
    step.written = step.found === step.guess ? words[to + 1] : null;
    return to + 4;
  }
  const stores = op === "store" || op === "card-store";
  const mark = words.indexOf(stores ? ":=" : "=", at);
  step.name = words.slice(at + 1, mark).join(" ");
  if (stores) step.written = words[mark + 1];
  else step.found = words[mark + 1];
  return mark + 2;
}

function readEvents(words, at) {
  const events = [];
  for (const word of words.slice(at)) {
    if (word === "event") events.push([]);
    else events[events.length - 1].push(word);
  }
  return events;
}

// A line of the listing of steps. A step has an `op`, and by it the `name` of a word or the `node` of a card, or none of them where the rank has
// finished; `found` and `written` are values as they are spelled; `answered` is the number behind the answer; `out` says that the rank is out of
// the lock again.
export function readStep(line) {
  const words = line.split(" ");
  const step = { number: Number(words[0]), rank: Number(words[2]), shard: 0, line };
  Object.assign(step, { op: null, name: null, node: null, guess: null, found: null, written: null });
  let at = 3;
  if (words[at] === "shard") {
    step.shard = Number(words[at + 1]);
    at += 2;
  }
  if (words[at] !== "finished") at = readAtom(step, words, at);
  step.answer = words[at];
  step.answered = null;
  at += 1;
  if (step.answer === "lost" || step.answer === "busy") {
    step.answered = words[at];
    at += 1;
  }
  step.out = words[words.length - 1] === "out";
  step.events = readEvents(step.out ? words.slice(0, -1) : words, at);
  return step;
}
