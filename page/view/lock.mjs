// The panel of the lock: its queues, its words, its cards, and who is on the way to it.
import { tieAt } from "../model/explanations.mjs";
import { meaning } from "../model/meanings.mjs";
import { chainAt, queueAt } from "../model/queues.mjs";
import { cardAt } from "../model/replay.mjs";
import { ASKS, LEAVES, READER, WRITER, standingAt } from "../model/standings.mjs";
import { MARK, valueOf, wordNamed } from "../model/words.mjs";
import { STANDING_WORDS } from "./bands.mjs";
import { h, panel, row, table } from "./elements.mjs";
import { many } from "./moving.mjs";
import { refusedLink, stepLink, troubleText } from "./now.mjs";

export const ofShard = (page, shard) => (many(page) ? ` of shard ${shard}` : "");

// Whether what was written at this moment is new at the cursor.
export const isNew = (page, by) => by >= 0 && by === page.moment;
const newClass = (page, by) => (isNew(page, by) ? "changed" : null);

const valueNow = (page, shard, name) => valueOf(wordNamed(page.replay, shard, name), page.moment);

// A word with its value, what it means, and who wrote it.
export function wordLine(page, shard, name) {
  const { value, by } = valueNow(page, shard, name);
  const means = meaning(page.replay, name, value);
  const writer = by >= 0 ? h("span", { class: "faint" }, ` by rank ${page.replay.steps[by].rank} in step `, stepLink(page, by)) : null;
  return h("div", { class: newClass(page, by) }, h("b", {}, `${name} = ${value}`), means ? ` ${means}` : "", writer);
}

// How a member of a queue stands: as a holder, told something, or waiting.
function memberState(page, shard, queue, it, isHead) {
  const at = queue.ofRanks ? standingAt(page.replay, Number(it.member), page.moment) : null;
  if (at && at.shard === shard && [WRITER, READER, LEAVES].includes(at.standing)) return at.standing;
  if (it.status === "1") return "told to settle first";
  if (it.status !== "0") return queue.budget === null ? "told to enter" : `passed, ${Number(it.status) - 2} left`;
  if (it.settled) return "settled";
  return isHead ? "has to settle" : "waits";
}

function memberBoxes(page, shard, queue) {
  const { untold } = queueAt(page.replay, shard, queue.name, page.moment);
  const chain = chainAt(page.replay, shard, queue, page.moment);
  const unknown = untold ? [h("span", { class: "member absent" }, "not told", h("small", {}, `who joined before step ${page.replay.from}`))] : [];
  const boxes = chain.flatMap((it, i) => {
    const state = memberState(page, shard, queue, it, i === 0 && !untold);
    const box = h("span", { class: `member ${state}` }, `${queue.ofRanks ? "rank" : "element"} ${it.member}`, h("small", {}, state));
    if (!it.behind) return [box];
    return [box, h("span", { class: it.linked ? "arrow" : "arrow missing" }, it.linked ? "next →" : "no link yet ⇢")];
  });
  const all = [...unknown, ...boxes];
  return all.length > 0 ? all : [h("span", { class: "faint" }, "nobody")];
}

// A queue as a chain from head to tail.
function queueRow(page, shard, queue) {
  const tail = valueNow(page, shard, queue.tail);
  const budget = queue.budget === null ? "" : `budget ${queue.budget}`;
  return h("div", { class: "queue", style: `margin-left:${queue.depth * 18}px` },
    h("span", { class: "of" }, queue.name, h("small", { class: "faint" }, budget)),
    ...memberBoxes(page, shard, queue),
    h("span", { class: `arrow ${newClass(page, tail.by) || ""}` }, `← tail ${tail.value} (${meaning(page.replay, queue.tail, tail.value)})`));
}

const rootFirst = (one, other) => one.depth === 0 ? -1 : other.depth === 0 ? 1 : one.name.localeCompare(other.name, "en", { numeric: true });

// Ranks that ask and stand in no queue yet. Where not all members are told, it isn't known who they are.
function onTheWay(page, shard) {
  const queues = page.replay.queues.filter((it) => it.ofRanks);
  if (queues.length === 0 || queues.some((it) => queueAt(page.replay, shard, it.name, page.moment).untold)) return null;
  const inside = new Set(queues.flatMap((it) => chainAt(page.replay, shard, it, page.moment).map((one) => Number(one.member))));
  const ranks = page.replay.standings.map((_, rank) => rank).filter((rank) => {
    const at = standingAt(page.replay, rank, page.moment);
    return at.standing === ASKS && at.shard === shard && !inside.has(rank);
  });
  if (ranks.length === 0) return null;
  const boxes = ranks.map((rank) => {
    const refused = refusedLink(page, rank);
    const { more } = standingAt(page.replay, rank, page.moment);
    const trouble = troubleText(page, rank) || (refused.length > 0 ? "" : STANDING_WORDS[more || ASKS]);
    return h("span", { class: `member ${refused.length > 0 ? "refused" : "absent"}` }, `rank ${rank}`,
      h("small", {}, ...refused, refused.length > 0 && trouble ? ", " : "", trouble));
  });
  return h("div", { class: "queue" }, h("span", { class: "of" }, "on the way"), ...boxes);
}

// The counters of RMA-RW: how many came, how many left, and whether a writer's mark is up.
function counters(page, shard) {
  const groups = Math.ceil(page.replay.ranks / page.replay.place.group);
  const rows = Array.from({ length: groups }, (_, g) => {
    const arrive = valueNow(page, shard, `arrive ${g}`);
    const depart = valueNow(page, shard, `depart ${g}`);
    const marked = BigInt(arrive.value) >= MARK;
    const came = BigInt(arrive.value) % MARK;
    const valueCell = (text, by) => h("td", { class: newClass(page, by) }, text);
    return row({}, `counter ${g}`, valueCell(String(came), arrive.by), valueCell(depart.value, depart.by), String(came - BigInt(depart.value)),
      h("td", { class: marked ? "changed" : null }, marked ? "up: every reader is refused" : "down"), String(page.replay.place.readers));
  });
  return [h("h3", {}, "Counters of readers"), table(["", "came (arrive)", "left (depart)", "came and not left", "writer's mark", "most"], rows)];
}

const POST = ["flag", "kind", "post key", "first", "second", "number", "place", "code", "post value"];

// The words in which ranks post calls under `combine`.
function posts(page, shard) {
  const rows = page.replay.standings.map((_, rank) => row({}, `rank ${rank}`, ...POST.map((part) => {
    const name = `${part} ${rank}`;
    const { value, by } = valueNow(page, shard, name);
    return h("td", { class: newClass(page, by), title: name }, `${value} ${meaning(page.replay, name, value)}`.trim());
  })));
  return [h("h3", {}, "Posts"), table(["", ...POST], rows)];
}

function cards(page, shard) {
  const boxes = page.replay.shape.nodes.map((_, node) => {
    const held = cardAt(page.replay, shard, node, page.moment);
    const told = held ? [`rank ${held.rank} is in it`, ...(held.since >= 0 ? [" since ", stepLink(page, held.since)] : [])] : ["free"];
    const look = !held ? "absent" : isNew(page, held.since) ? "changed" : "";
    return h("span", { class: `member ${look}` }, `card ${node}`, h("small", {}, ...told));
  });
  return [h("h3", {}, "Cards"), h("div", { class: "queue apart" }, ...boxes)];
}

// The two queues of ALock with the word between them.
function cohorts(page, shard) {
  const [local, remote] = page.replay.queues.map((it) => queueRow(page, shard, it));
  const ties = tieAt(page.replay, shard, page.moment).map((it) => h("div", {}, it));
  return [local, h("div", { class: "versus" }, wordLine(page, shard, "victim"), ...ties), remote];
}

export function lockPanel(page, shard) {
  const { place, queues } = page.replay;
  const hasCohorts = ["alock", "seq", "combine"].includes(place.lock);
  const rows = hasCohorts ? cohorts(page, shard) : [...queues].sort(rootFirst).map((it) => queueRow(page, shard, it));
  return panel(`Lock${ofShard(page, shard)}`,
    place.lock === "spin" ? wordLine(page, shard, "word") : null,
    ...rows,
    onTheWay(page, shard),
    place.lock === "seq" ? wordLine(page, shard, "version") : null,
    ...(place.lock === "rw" ? counters(page, shard) : []),
    ...(place.lock === "combine" ? posts(page, shard) : []),
    ...cards(page, shard));
}
