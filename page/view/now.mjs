// The step at the cursor: its atom, what the value means, its answer, its events, and why it came out so.
import { explain, remark } from "../model/explanations.mjs";
import { meaning } from "../model/meanings.mjs";
import { lastStepOf } from "../model/replay.mjs";
import { NOBODY, OUT, REFUSED, UNTOLD, blockAt, standingAt } from "../model/standings.mjs";
import { sinceAt } from "../model/histories.mjs";
import { h } from "./elements.mjs";
import { goTo, many, numberOf } from "./moving.mjs";

export function stepLink(page, moment) {
  const number = String(numberOf(page, moment));
  return h("button", { class: "link", onclick: () => goTo(page, moment), "aria-label": `go to step ${number}` }, number);
}

const pieces = (page, list) => list.map((it) => (typeof it === "string" ? it : stepLink(page, it.step)));

// Who wrote a value, and when, as a link.
export function writerLink(page, by) {
  return by >= 0 ? [`rank ${page.replay.steps[by].rank}, `, stepLink(page, by)] : [page.replay.from === 0 ? "start" : "before"];
}

function atomText(step) {
  if (step.op === null) return "no atom";
  if (step.node !== null) return `${step.op} card ${step.node}`;
  if (step.op === "local-cas") return `local-cas ${step.name} ${step.guess} to ${step.written ?? "(not written)"} = ${step.found}`;
  return step.written !== null ? `${step.op} ${step.name} := ${step.written}` : `${step.op} ${step.name} = ${step.found}`;
}

function answerText(step) {
  if (step.answer === "busy") return `busy, rank ${step.answered} is in it`;
  if (step.answer !== "lost") return step.answer;
  return step.name === "version" ? `look lost, found ${step.answered} at first` : `compare lost, guessed ${step.answered}`;
}

const blockText = (block) => `call ${block.first}: ${block.calls.length === 1 ? block.calls[0] : `batch ${block.calls.join("; ")}`}`;

// The call that a rank is at, or that it makes next.
export function callText(page, rank) {
  const block = blockAt(page.replay, rank, page.moment);
  if (block !== undefined) return blockText(block);
  return page.replay.blocks[rank].length > 0 ? "calls are all done" : "no calls";
}

// The call that a step is of; under `combine` it may be another rank's. A rank that is out behind its step has ended a call with it, or is about to leave
// the card by which it did.
function doingText(page, step) {
  const { standing, block } = standingAt(page.replay, step.rank, page.moment);
  if (standing === OUT && step.op !== null && block > 0) return `its ${blockText(page.replay.blocks[step.rank][block - 1])}`;
  if (step.serves === UNTOLD) return "whose call it does here isn't told by the steps shown";
  if (step.serves !== NOBODY && step.serves !== step.rank) return `does what rank ${step.serves} posted, ${callText(page, step.serves)}`;
  return `its ${callText(page, step.rank)}`;
}

// What a rank's last step came to, where it isn't just going on.
export function troubleText(page, rank) {
  const step = page.replay.steps[lastStepOf(page.replay, rank, page.moment)];
  if (step === undefined) return "";
  if (step.answer === "waiting") return `waits at ${step.name}`;
  if (step.answer === "busy") return `wants card ${step.node}, rank ${step.answered} was in it`;
  if (step.answer === "lost") return step.name === "version" ? "its look is lost, it begins anew" : `compare lost at ${step.name}`;
  return step.answer === "finished" ? "finished" : "";
}

// Since when a rank is refused, as a link; nothing where it isn't.
export function refusedLink(page, rank) {
  if (standingAt(page.replay, rank, page.moment).more !== REFUSED) return [];
  return ["refused in step ", stepLink(page, sinceAt(page.replay.standings[rank].history, page.moment))];
}

function nothingText(page) {
  const { steps, total, asked } = page.replay;
  const keys = "Press the right arrow for the first step, t for the first one that was busy, lost or waiting, ? for all keys.";
  if (steps.length > 0) return ["Before the first step.", keys];
  if (total === 0) return ["The schedule has no steps.", "What is below is the state at the start."];
  const last = `What is below is the state after its last one, step ${total - 1}.`;
  return [`The window from step ${asked} on is behind the end: the replay has ${total} steps.`, last];
}

export function renderNow(page) {
  const step = page.replay.steps[page.moment];
  if (!step) {
    const [line, more] = nothingText(page);
    page.parts.now.replaceChildren(h("div", { class: "line" }, line), h("p", { class: "faint" }, more));
    return;
  }
  const { replay, moment } = page;
  const means = step.name === null ? "" : meaning(replay, step.name, step.written ?? step.found);
  const where = many(page) ? `, shard ${step.shard}` : "";
  const isLost = step.answer === "lost"; // then its label says no more than its answer
  const chips = [...step.events.map((it) => it.join(" ")), isLost ? "" : step.label].filter((it) => it !== "");
  page.parts.now.replaceChildren(
    h("div", { class: "line" },
      h("b", {}, `Step ${numberOf(page, moment)}`),
      ` rank ${step.rank} on node ${replay.nodeOf[step.rank]}${where}: `,
      h("code", {}, atomText(step)),
      means ? ` (${means}) ` : " ",
      h("span", { class: `answer ${isLost && step.name === "version" ? "stale" : step.answer}` }, answerText(step)),
      ...chips.map((it) => h("span", { class: "chip" }, it))),
    h("p", {}, ...pieces(page, explain(replay, moment)), " ", ...pieces(page, remark(replay, moment))),
    h("p", { class: "faint" }, doingText(page, step), step.word ? `; the word lives on node ${step.word.home}` : ""));
}
