// check-bands.mjs DATA PICTURE FOLDER [--all]: the bands and labels of the page's model against those that the picture of the same replay has: both are
// made apart, by other rules. DATA and PICTURE are the programs that write them; over the stories and some worked cases, or all. Run by
// scripts/check-pages, with node.
import assert from "node:assert";
import { execFileSync } from "node:child_process";
import fs from "node:fs";
import path from "node:path";
import { fileURLToPath } from "node:url";
import { bandsOf, cardBandsOf, read, serviceBandsOf, stopBandsOf } from "../model/replay.mjs";
import { replaysOf, stepsOf } from "./worked-cases.mjs";

const [data, picture, folder] = process.argv.slice(2, 5).map((it) => path.resolve(it));
const all = process.argv[5] === "--all";
const SUITES = ["spin", "dmcs", "alock", "mcs", "rw", "seq", "combine"];
const EACH = 4; // how many worked cases of each lock are read where not all are
const LARGEST = 160; // how many steps a picture may have whose steps are all numbered
const LEFT = 100; // where a picture's lanes begin, in pixels,
const CELL = 20; // and how wide a step is
const BANDS = { // the looks of a picture's bands, in the words of the page
  asking: "asks", refused: "refused", answered: "answered", looking: "looks", writing: "writer", reading: "reader", leaving: "leaves",
  card: "card", serving: "service", stopped: "stopped",
};

const told = (program, files) => execFileSync(program, files, { encoding: "latin1", maxBuffer: 1 << 28, stdio: ["ignore", "pipe", "ignore"] });

const number = (tag, name) => Number(new RegExp(`\\b${name}="([0-9]+)"`).exec(tag)[1]);

// The rows of a picture: the first step, and for each rank what is drawn, as lines.
function rowsOf(svg) {
  const rows = [];
  let row = { drawn: [], first: null };
  let rank = null;
  for (const tag of svg.split("\n")) {
    const look = /^<(?:rect|text) class="([a-z]+)"/.exec(tag)?.[1];
    const words = />([^<>]*)<\/(?:title|text)>/.exec(tag)?.[1];
    if (look === "rank") {
      if (row.first !== null) row = { drawn: [], first: null };
      rank = words;
    } else if (look === "number" && row.first === null) {
      row.first = Number(words);
      rows.push(row);
    } else if (look in BANDS && words !== undefined) {
      const from = (number(tag, "x") - LEFT) / CELL;
      row.drawn.push({ rank, look: BANDS[look], words: words.split(",")[0], from, to: from + number(tag, "width") / CELL });
    } else if (look === "tag") {
      row.drawn.push({ rank, look: "label", words, from: (number(tag, "x") - LEFT - 3) / CELL, to: null });
    }
  }
  return rows;
}

const EVENTS = /^(join|settle|pass|announce)/;

// What a picture draws: a line for each band, and for each label that is no event's.
function drawnBy(rows) {
  const lines = [];
  for (const { drawn, first } of rows) {
    for (const { rank, look, words, from, to } of drawn) {
      if (look !== "label") lines.push(`${rank} ${look} ${look === "card" || look === "service" ? words : ""} ${first + from} ${first + to}`);
      else lines.push(...words.split(", ").filter((it) => !EVENTS.test(it) && it !== "stopped").map((it) => `${rank} label ${it} ${first + from}`));
    }
  }
  return lines.sort();
}

// The same by the page's model, whose bands are cut where a row of the picture ends.
function shownBy(replay, firsts) {
  const lines = [];
  const add = (rank, look, words, { from, to }) => {
    const cuts = [from, ...firsts.filter((it) => it > from && it < to), to];
    for (let i = 1; i < cuts.length; i++) lines.push(`rank ${rank} ${look} ${words} ${cuts[i - 1]} ${cuts[i]}`);
  };
  replay.standings.forEach((_, rank) => {
    for (const it of bandsOf(replay, rank)) add(rank, it.more || it.standing, "", it);
    for (const it of cardBandsOf(replay, rank)) add(rank, "card", `card ${it.node}`, it);
    for (const it of serviceBandsOf(replay, rank)) add(rank, "service", it.serves === rank ? "its own call" : `rank ${it.serves}'s call`, it);
    for (const it of stopBandsOf(replay, rank)) add(rank, "stopped", "", it);
  });
  for (const step of replay.steps) if (step.label !== "") lines.push(`rank ${step.rank} label ${step.label} ${step.number}`);
  return lines.sort();
}

const counts = { pictures: 0, lines: 0, wrong: 0 };

function compare(name, files) {
  counts.pictures += 1;
  const rows = rowsOf(told(picture, files));
  const drawn = drawnBy(rows);
  counts.lines += drawn.length;
  try {
    assert.deepStrictEqual(shownBy(read(told(data, files)), rows.map((it) => it.first)), drawn);
  } catch (error) {
    counts.wrong += 1;
    console.log(`check-pages: page and picture of ${name}: ${error.message.split("\n").filter((it) => /^[+-] /.test(it)).slice(0, 6).join(" | ")}`);
  }
}

const FILES = ["place", "calls", "schedule"];
const examples = fileURLToPath(new URL("../../examples", import.meta.url));
for (const story of fs.readdirSync(examples)) {
  const files = FILES.map((it) => path.join(examples, story, it));
  if (files.every((it) => fs.existsSync(it))) compare(`examples/${story}`, files);
}
for (const suite of SUITES) {
  const replays = replaysOf(suite).filter((it) => stepsOf(it) > 0 && stepsOf(it) <= LARGEST);
  for (const it of all ? replays : replays.slice(0, EACH)) {
    for (const [name, text] of Object.entries(it.files)) fs.writeFileSync(path.join(folder, name), text, "latin1");
    compare(`${suite}, case ${it.name}`, it.words.slice(1).map((name) => path.join(folder, name)));
  }
}
console.log(`check-pages: pages beside pictures: ${counts.pictures} replays, ${counts.lines} bands and labels, ${counts.wrong} wrong`);
process.exitCode = counts.wrong === 0 ? 0 : 1;
