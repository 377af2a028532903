// The panels below the lanes: the state after the step at the cursor, the ranks, the steps and the events around it.
import { find } from "../model/searches.mjs";
import { countTo } from "../model/histories.mjs";
import { isStopped, lastStepOf } from "../model/replay.mjs";
import { ANSWERED, OUT, standingAt } from "../model/standings.mjs";
import { STANDING_WORDS } from "./bands.mjs";
import { h, panel, row, table } from "./elements.mjs";
import { lockPanel, ofShard } from "./lock.mjs";
import { goTo, isShown, many, numberOf, shownShards } from "./moving.mjs";
import { callText, refusedLink, stepLink, troubleText } from "./now.mjs";
import { tablePanel, wordsPanel } from "./words.mjs";

function lastReply(page, rank) {
  const { block } = standingAt(page.replay, rank, page.moment);
  const before = page.replay.blocks[rank][block - 1];
  if (!before) return "";
  return before.calls.map((call, i) => `${call} = ${page.replay.replies[rank].get(before.first + i) || "?"}`).join("; ");
}

function toggleRank(page, rank) {
  if (!page.hidden.delete(rank)) page.hidden.add(rank);
  page.render(page);
}

function standingText(page, rank) {
  const { standing, more, shard } = standingAt(page.replay, rank, page.moment);
  const where = many(page) && standing !== OUT ? ` shard ${shard}` : "";
  const answered = more === ANSWERED ? `, ${STANDING_WORDS.answered}` : "";
  const stopped = isStopped(page.replay, rank, page.moment) ? `, stopped before step ${page.replay.stops[rank]}` : "";
  return [`${STANDING_WORDS[standing] || standing}${where}${answered}${stopped}`];
}

function rankRow(page, rank) {
  const last = lastStepOf(page.replay, rank, page.moment);
  const here = page.replay.steps[page.moment];
  const refused = refusedLink(page, rank);
  const toggle = () => toggleRank(page, rank);
  const box = h("input", { type: "checkbox", "aria-label": `show rank ${rank}`, checked: !page.hidden.has(rank), onchange: toggle });
  return row({ class: here && here.rank === rank ? "current" : null },
    h("label", {}, box, `rank ${rank}`),
    String(page.replay.nodeOf[rank]),
    h("td", {}, ...standingText(page, rank), refused.length > 0 ? ", " : null, ...refused),
    callText(page, rank),
    last < 0 ? "" : stepLink(page, last),
    troubleText(page, rank),
    lastReply(page, rank));
}

function ranksPanel(page) {
  const rows = page.replay.standings.map((_, rank) => rankRow(page, rank));
  return panel("Ranks", table(["rank", "node", "standing", "its call", "last step", "", "last reply"], rows));
}

// The steps around the cursor that the filters leave: so many before it, the one at it, and so many behind it.
function around(page, before, behind) {
  const next = (at, direction) => find(page.replay, at, direction, (step) => isShown(page, step));
  const list = [];
  for (let at = next(page.moment + 1, -1); at >= 0 && list.length <= before; at = next(at, -1)) list.unshift(at);
  const behindFrom = list.length;
  for (let at = next(page.moment, 1); at >= 0 && list.length < behindFrom + behind; at = next(at, 1)) list.push(at);
  return list;
}

function line(page, moment, text, answer) {
  const isHere = moment === page.moment ? "step" : null;
  return h("li", {}, h("button", { class: answer, "aria-current": isHere, onclick: () => goTo(page, moment), title: text }, text));
}

function stepsPanel(page) {
  const lines = around(page, 10, 10).map((i) => line(page, i, page.replay.steps[i].line, page.replay.steps[i].answer));
  return panel("Steps", h("ol", { class: "lines" }, ...lines));
}

function eventsPanel(page) {
  const events = page.replay.eventsAt;
  const at = countTo(page.moments.events, page.moment);
  const lines = events.slice(Math.max(0, at - 11), at + 9)
    .map((it) => line(page, it.moment, `${numberOf(page, it.moment)}${ofShard(page, it.shard)} ${it.event.join(" ")}`, null));
  return panel(`Events (${events.length})`, lines.length > 0 ? h("ol", { class: "lines" }, ...lines) : h("p", { class: "faint" }, "There are none."));
}

const nameOf = (control) => control.getAttribute("aria-label") || control.closest("label")?.textContent || control.textContent;

// Puts new panels in place of the old ones. Who had the focus on one of their controls has it on the one of that name, or else on the step.
function replacePanels(page, panels) {
  const old = page.parts.panels.contains(document.activeElement) ? document.activeElement : null;
  page.parts.panels.replaceChildren(...panels);
  if (old === null) return;
  const same = [...page.parts.panels.querySelectorAll("button, input")].find((it) => nameOf(it) === nameOf(old));
  (same || page.parts.now).focus({ preventScroll: true });
}

export function renderPanels(page) {
  const state = shownShards(page).flatMap((shard) => [lockPanel(page, shard), tablePanel(page, shard)]);
  replacePanels(page, [
    h("div", { class: "stack" }, ...state, ranksPanel(page)),
    h("div", { class: "stack" }, stepsPanel(page), eventsPanel(page)),
    wordsPanel(page),
  ]);
}
