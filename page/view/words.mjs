// The panels of the table and of all words, by node and shard.
import { journalAt, meaning } from "../model/meanings.mjs";
import { valueAt, valueOf, wordNamed } from "../model/words.mjs";
import { h, panel, row, table } from "./elements.mjs";
import { isNew, ofShard, wordLine } from "./lock.mjs";
import { filterWord, shownShards } from "./moving.mjs";
import { writerLink } from "./now.mjs";

// The pairs of a bucket, along its chain. A chain in the midst of a change may not end; it is followed no further than there are cells.
function pairsOf(page, shard, bucket) {
  const at = (name) => valueAt(page.replay, shard, name, page.moment);
  const { overflow } = page.replay.place;
  const state = at(`state ${bucket}`);
  if (state === "0") return [];
  const pairs = [`${at(`key ${bucket}`)}: ${at(`value ${bucket}`)}`];
  let next = Number(state) - 1;
  for (let i = 0; next > 0 && next <= overflow && i < overflow; i++) {
    const cell = next - 1;
    pairs.push(`${at(`cell key ${cell}`)}: ${at(`cell value ${cell}`)} (cell ${cell})`);
    next = Number(at(`link ${cell}`));
  }
  return pairs;
}

// The places of the journal that have words, in order; of each shard, looked up once.
export function journalsOf(replay) {
  const places = replay.shape.homes.map(() => []);
  for (const word of replay.words) {
    const entry = /^journal ([0-9]+) 0$/.exec(word.name);
    if (entry) places[word.shard].push(Number(entry[1]));
  }
  return places;
}

const JOURNAL_SHOWN = 6;

function journalRows(page, shard) {
  const begun = page.journals[shard].filter((it) => valueOf(wordNamed(page.replay, shard, `journal ${it} 0`), page.moment).by >= 0);
  return begun.slice(-JOURNAL_SHOWN).map((place) => {
    const entry = journalAt(page.replay, shard, place, page.moment);
    const told = entry.written === 6 ? `${entry.call} = ${entry.reply}` : `${entry.written} of 6 words`;
    return row({ class: isNew(page, entry.by) ? "changed" : null }, String(place), `rank ${entry.rank} call ${entry.seq}`, told);
  });
}

export function tablePanel(page, shard) {
  const { place, steps } = page.replay;
  const step = steps[page.moment];
  const isTouched = (j) => step && step.shard === shard && [`state ${j}`, `key ${j}`, `value ${j}`].includes(step.name);
  const buckets = Array.from({ length: place.buckets }, (_, j) => ({ j, pairs: pairsOf(page, shard, j) })).filter((it) => it.pairs.length > 0);
  const rows = buckets.map(({ j, pairs }) => row({ class: isTouched(j) ? "changed" : null }, String(j), pairs.join(" → ")));
  const journal = journalRows(page, shard);
  return panel(`Table${ofShard(page, shard)}`,
    wordLine(page, shard, "count"),
    place.overflow > 0 ? wordLine(page, shard, "free") : null,
    rows.length > 0 ? table(["bucket", "key: value, along its chain"], rows) : null,
    ...(journal.length > 0 ? [h("h3", {}, "Journal, its last entries"), table(["place", "of", "call and reply"], journal)] : []));
}

// A word's row: its name, which shows its steps alone; its value, and what it was before this step changed it; who wrote it.
function wordRow(page, word) {
  const { value, by } = valueOf(word, page.moment);
  const step = page.replay.steps[page.moment];
  const isHere = step && step.word === word;
  const isChanged = isHere && step.written !== null;
  const only = page.word === word.name;
  const name = h("button", {
    class: "link", title: only ? "show all steps" : "show the steps on this word alone", "aria-pressed": only ? "true" : "false",
    onclick: () => filterWord(page, only ? "" : word.name),
  }, word.name);
  return row({ class: isChanged ? "changed" : isHere ? "looked" : null }, name,
    h("td", { class: "mono" }, isChanged && step.before !== value ? `${step.before} → ${value}` : value),
    h("td", { class: "faint" }, meaning(page.replay, word.name, value)),
    h("td", { class: by >= 0 ? null : "faint" }, ...writerLink(page, by)));
}

function wordsOn(page, shard, node, words) {
  const mine = words.filter((it) => it.home === node && it.shard === shard);
  if (mine.length === 0) return null;
  const { nodes, homes } = page.replay.shape;
  const home = homes[shard] === node ? ", the shard's home" : "";
  const title = `node ${node} (${nodes[node]})${ofShard(page, shard)}${home}`;
  return h("div", {}, h("h3", {}, title), table(["word", "value", "meaning", "written by"], mine.map((it) => wordRow(page, it))));
}

export function wordsPanel(page) {
  const shown = shownShards(page);
  const isWanted = (it) => it.part !== "journal" && (page.allWords || it.part === "lock" || it.touched);
  const words = page.replay.words.filter((it) => shown.includes(it.shard) && isWanted(it));
  const show = (event) => {
    page.allWords = event.target.checked;
    page.render(page);
  };
  const section = panel("Words",
    h("label", {}, h("input", { type: "checkbox", checked: page.allWords, onchange: show }), "words of the table that no step touches, too"),
    h("div", { class: "nodes" }, ...page.replay.shape.nodes.flatMap((_, node) => shown.map((shard) => wordsOn(page, shard, node, words)))));
  section.classList.add("wide");
  return section;
}
