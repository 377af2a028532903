// What the values of words mean, in few words.
import { MARK, valueOf, wordNamed } from "./words.mjs";

// How the journal numbers calls and replies, and how the posts of `combine` do.
const KINDS = ["", "put", "del", "add", "cas"];
const CODES = ["", "new", "was", "full", "none", "sum", "over", "no", "undone", "val", "held"];
const POSTED_KINDS = [...KINDS, "get", "hold"];
const ARGUMENTS = { put: 1, del: 0, add: 1, cas: 2 };
const CODES_WITH_VALUE = ["was", "sum", "over", "no"];

const indexed = (names) => (value) => names[Number(value)] || "";

// The member that a tail or a link names: a rank, or an element by its number.
function memberMeaning(replay, name, value) {
  const n = Number(value) - 1;
  const element = /^(tail|next|status) of (.+)$/.exec(name);
  const ofRanks = !element || (element[1] === "tail" && replay.shape.nodes.includes(element[2]));
  if (ofRanks) return `rank ${n}`;
  const named = replay.shape.elements[n];
  return named ? `element ${named.name}` : `${n}`;
}

function statusMeaning(value) {
  if (value === "0") return "wait";
  return value === "1" ? "settle first" : `enter, ${Number(value) - 2} left`;
}

function arriveMeaning(value) {
  const number = BigInt(value);
  return number >= MARK ? `writer's mark, ${number - MARK} came` : `${number} came`;
}

function stateMeaning(value) {
  if (value === "0") return "free";
  return value === "1" ? "taken" : `chain from cell ${Number(value) - 2}`;
}

function journalMeaning(name, value) {
  const number = BigInt(value);
  if (name.endsWith(" 0")) return `rank ${number >> 32n}, call ${number % MARK}`;
  if (name.endsWith(" 1")) return `${KINDS[Number(number % 8n)] || "?"}, ${CODES[Number(number / 8n)] || "?"}`;
  return "";
}

// What tells a word's kind, and what its values mean. The first that fits counts.
const MEANINGS = [
  [/^word$/, (value) => (value === "0" ? "free" : `rank ${Number(value) - 1}`)],
  [/tail/, (value, name, replay) => (value === "0" ? "empty" : memberMeaning(replay, name, value))],
  [/^next/, (value, name, replay) => (value === "0" ? "nobody" : memberMeaning(replay, name, value))],
  [/^status/, statusMeaning],
  [/^victim$/, indexed(["nobody", "local", "remote"])],
  [/^arrive/, arriveMeaning],
  [/^depart/, (value) => `${value} left`],
  [/^version$/, (value) => (Number(value) % 2 === 1 ? "odd: a writer stores" : "even")],
  [/^kind/, indexed(POSTED_KINDS)],
  [/^code/, indexed(CODES)],
  [/^flag/, indexed(["nothing posted", "posted", "answered"])],
  [/^state/, stateMeaning],
  [/^(link|free)/, (value) => (value === "0" ? "none" : `cell ${Number(value) - 1}`)],
  [/^journal/, (value, name) => journalMeaning(name, value)],
];

// What a value means in the word of this name, or "".
export function meaning(replay, name, value) {
  const found = MEANINGS.find(([names]) => names.test(name));
  return found ? found[1](value, name, replay) : "";
}

// An entry of the journal as far as it is written after a moment.
export function journalAt(replay, shard, place, moment) {
  const words = [0, 1, 2, 3, 4, 5].map((i) => valueOf(wordNamed(replay, shard, `journal ${place} ${i}`), moment));
  const [who, what] = words.map((it) => BigInt(it.value));
  const kind = KINDS[Number(what % 8n)] || "";
  const code = CODES[Number(what / 8n)] || "";
  const values = words.slice(3, 3 + (ARGUMENTS[kind] || 0)).map((it) => it.value);
  return {
    place,
    rank: Number(who >> 32n),
    seq: Number(who % MARK),
    call: [kind, words[2].value, ...values].join(" "),
    reply: CODES_WITH_VALUE.includes(code) ? `${code} ${words[5].value}` : code,
    written: words.filter((it) => it.by >= 0).length,
    by: Math.max(...words.map((it) => it.by)),
  };
}
