// The words of the shards, by their names, with each value that they had.
import { countTo } from "./histories.mjs";

export const MARK = 4294967296n; // what a writer under RMA-RW adds to `arrive`

const TABLE_WORDS = /^(fixed|count|free|state|key|value|link|cell|journal)\b/;
const POST_WORDS = /^(flag|kind|post key|first|second|number|place|code|post value) /;

function partOf(name) {
  if (name.startsWith("journal ")) return "journal";
  if (POST_WORDS.test(name)) return "posts";
  return TABLE_WORDS.test(name) ? "table" : "lock";
}

// Adds a word that lives on the node `home`, and holds `start` before the first step that is shown.
export function addWord(replay, shard, home, name, start) {
  const word = { shard, name, home, part: partOf(name), start, at: [], values: [] };
  replay.words.push(word);
  replay.byName.set(`${shard} ${name}`, word);
  return word;
}

// The word of this name; one of the journal is at the shard's home, and 0 where the data don't tell it.
export function wordNamed(replay, shard, name) {
  return replay.byName.get(`${shard} ${name}`) || addWord(replay, shard, replay.shape.homes[shard], name, "0");
}

// The value of a word after a moment, with the moment of the write that made it, or -1.
export function valueOf(word, moment) {
  const n = countTo(word.at, moment);
  return n === 0 ? { value: word.start, by: -1 } : { value: word.values[n - 1], by: word.at[n - 1] };
}

// The value of the word of this name after a moment.
export const valueAt = (replay, shard, name, moment) => valueOf(wordNamed(replay, shard, name), moment).value;

// Follows what a step finds and writes in its word; `before` and `source` are what stood there, and the moment that wrote it.
export function followWord(replay, moment, step) {
  const word = wordNamed(replay, step.shard, step.name);
  const before = valueOf(word, moment - 1);
  step.word = word;
  step.before = before.value;
  step.source = before.by;
  if (step.found !== null && before.value !== step.found) replay.faults.push(moment);
  if (step.written !== null) {
    word.at.push(moment);
    word.values.push(step.written);
  }
}
