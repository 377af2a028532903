// check-model.mjs PROGRAM FOLDER [--all]: what the page's model says of replays whose data PROGRAM writes: of the stories, of replays that are made from
// numbers, and of the worked cases; of these only some where there is no --all. Their files are put into FOLDER. Run by scripts/check-pages, with node.
import assert from "node:assert";
import { execFileSync } from "node:child_process";
import fs from "node:fs";
import path from "node:path";
import { fileURLToPath } from "node:url";
import { causeOf } from "../model/explanations.mjs";
import { chainAt } from "../model/queues.mjs";
import { cardAt, read } from "../model/replay.mjs";
import { standingAt } from "../model/standings.mjs";
import { replayOf } from "./random-replays.mjs";
import { checkReplay, checkWindow } from "./replay-checks.mjs";
import { STORIES } from "./stories.mjs";
import { replaysOf } from "./worked-cases.mjs";

const FILES = ["place", "calls", "schedule"];
const [program, folder] = process.argv.slice(2, 4).map((it) => path.resolve(it));
const all = process.argv[4] === "--all";
const MADE = all ? 200 : 20; // how many replays are made
const CASES = 9; // how many worked cases of each lock are read where not all are
const SUITES = ["spin", "dmcs", "alock", "mcs", "rw", "seq", "combine"];

const counts = { stories: 0, made: 0, cases: 0, steps: 0, wrong: 0 };

// The replay that the program tells of these files, or of a window of it.
function told(files, window) {
  const words = [...files, ...window.map(String)];
  return read(execFileSync(program, words, { encoding: "latin1", maxBuffer: 1 << 30, stdio: ["ignore", "pipe", "ignore"] }));
}

// Tests a replay of this kind, and as many windows of it.
function check(kind, name, files, windows, more = () => {}) {
  counts[kind] += 1;
  try {
    const whole = told(files, []);
    counts.steps += whole.steps.length;
    checkReplay(whole);
    more(whole);
    for (let i = 1; i <= windows; i++) {
      const from = Math.floor((whole.total * i) / (windows + 1));
      if (from > 0) checkWindow(whole, told(files, [from, from + Math.ceil(whole.total / 3)]));
    }
  } catch (error) {
    counts.wrong += 1;
    console.log(`check-pages: ${name}: ${error.message.split("\n").slice(0, 8).join(" | ")}`);
  }
}

// What holds after a step, in the words of the stories' table.
function stateAt(replay, moment, what) {
  const [kind, name] = what.split(" ");
  if (kind === "standing" || kind === "more") return standingAt(replay, Number(name), moment)[kind];
  if (kind === "serves") return String(replay.steps[moment].serves);
  if (kind === "card") return `rank ${cardAt(replay, 0, Number(name), moment)?.rank}`;
  const chain = chainAt(replay, 0, replay.queues.find((it) => it.name === name), moment);
  return chain.map((it) => it.member + (it.behind ? (it.linked ? " > " : " .. ") : "")).join("");
}

function checkStory(replay, story) {
  const labels = Object.fromEntries(replay.steps.filter((it) => it.label !== "").map((it) => [it.number, it.label]));
  assert.deepStrictEqual(labels, story.labels);
  for (const [step, cause] of Object.entries(story.causes)) assert.strictEqual(causeOf(replay, Number(step)), cause, `the arrow to step ${step}`);
  for (const [step, what, value] of story.at) assert.strictEqual(stateAt(replay, step, what), value, `${what} after step ${step}`);
}

function checkStoryWindow(part, window, step, what, value) {
  assert.strictEqual(stateAt(part, step - part.from, what), value, `${what} after step ${step} in the window ${window.join(" ")}`);
}

function checkStories() {
  const examples = fileURLToPath(new URL("../../examples", import.meta.url));
  for (const [name, story] of Object.entries(STORIES)) {
    const files = FILES.map((it) => path.join(examples, name, it));
    check("stories", `examples/${name}`, files, 4, (replay) => {
      checkStory(replay, story);
      for (const [window, ...wanted] of story.windows ?? []) checkStoryWindow(told(files, window), window, ...wanted);
    });
  }
}

function put(files) {
  for (const [name, text] of Object.entries(files)) fs.writeFileSync(path.join(folder, name), text, "latin1");
}

// How many steps a schedule has before it stops a rank, or null.
function stepsBeforeStop(schedule, rank) {
  const [before, ...behind] = schedule.split(`stop ${rank}\n`);
  return behind.length === 0 ? null : [...before.matchAll(/^[0-9]+ ([0-9]+)$/gm)].reduce((sum, it) => sum + Number(it[1]), 0);
}

function checkMade() {
  for (let number = 0; number < MADE; number++) {
    const files = replayOf(number);
    put(files);
    check("made", `replay ${number}`, FILES.map((it) => path.join(folder, it)), 1, (replay) => {
      assert.deepStrictEqual(replay.stops, replay.stops.map((_, rank) => stepsBeforeStop(files.schedule, rank)), "who is stopped, and when");
    });
  }
}

// So many of a list, evenly spread.
const spread = (list, most) => list.filter((_, i) => Math.floor((i * most) / list.length) !== Math.floor(((i - 1) * most) / list.length));

function checkCases() {
  for (const suite of SUITES) {
    const replays = replaysOf(suite);
    for (const it of all ? replays : spread(replays, CASES)) {
      put(it.files);
      check("cases", `${suite}, case ${it.name}`, it.words.slice(1).map((name) => path.join(folder, name)), 1);
    }
  }
}

checkStories();
checkMade();
checkCases();
const part = all ? "all replays" : "some replays, --all takes all";
console.log(`check-pages: the model over ${part}: ${counts.stories} stories, ${counts.made} made from numbers, ${counts.cases} worked cases; ` +
  `${counts.steps} steps, ${counts.wrong} wrong`);
process.exitCode = counts.wrong === 0 ? 0 : 1;
