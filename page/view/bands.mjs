// Bands: stretches of steps in which something holds, with a word for it where that has room.
import { bandsOf, cardBandsOf, serviceBandsOf, stopBandsOf } from "../model/replay.mjs";
import { clamp, s, widthOf } from "./elements.mjs";
import { LEFT, isOtherShard } from "./moving.mjs";

// What is written on the band of a standing.
export const STANDING_WORDS = {
  asks: "asks", refused: "refused", answered: "its call is done", looks: "reads", writer: "writer", reader: "reader", leaves: "leaves",
};

const lookOfBand = (band) => band.more || band.standing;

// The bands of all ranks, and of the holders of all shards: looked up once, and drawn again and again.
export function bandsOfReplay(replay) {
  const ofRanks = (make) => replay.standings.map((_, rank) => make(replay, rank));
  const standing = ofRanks(bandsOf).map((bands) => bands.map((it) => ({ ...it, look: lookOfBand(it), text: STANDING_WORDS[lookOfBand(it)] })));
  const cards = ofRanks(cardBandsOf).map((bands) => bands.map((it) => ({ ...it, look: "card", text: `card ${it.node}` })));
  const services = ofRanks(serviceBandsOf).map((bands, rank) => bands.map((it) => ({ ...it, look: "service", text: serviceText(it, rank) })));
  const stopped = ofRanks(stopBandsOf).map((bands) => bands.map((it) => ({ ...it, look: "stopped", text: "stopped" })));
  const inside = cards.map((bands, rank) => [...bands, ...services[rank]].sort((one, other) => one.from - other.from));
  return { standing, inside, stopped, holders: replay.shape.homes.map((_, shard) => holdersOf(standing, shard)) };
}

const serviceText = (band, rank) => (band.serves === rank ? "its own call" : `rank ${band.serves}'s call`);

// The stretches in which the same ranks hold a shard.
function holdersOf(standing, shard) {
  const edges = standing.flatMap((bands, rank) => bands
    .filter((it) => it.shard === shard && (it.standing === "writer" || it.standing === "reader"))
    .flatMap((it) => [{ at: it.from, rank, look: it.standing, enters: true }, { at: it.to, rank, look: it.standing, enters: false }]));
  edges.sort((one, other) => one.at - other.at);
  const inside = new Map();
  const stretches = [];
  let from = 0;
  for (const edge of edges) {
    if (inside.size > 0 && edge.at > from) {
      const ranks = [...inside.keys()].sort((one, other) => one - other);
      stretches.push({ from, to: edge.at, shard, look: inside.get(ranks[0]), text: `rank${ranks.length > 1 ? "s" : ""} ${ranks.join(", ")}` });
    }
    if (edge.enters) inside.set(edge.rank, edge.look);
    else inside.delete(edge.rank);
    from = edge.at;
  }
  return stretches;
}

// The bands that reach into the view. Those too narrow to be told apart are drawn once for each pixel.
function inView(page, plan, bands) {
  const seen = bands.filter((it) => it.to > plan.low && it.from < plan.high);
  if (page.zoom >= 1) return seen;
  let edge = -1;
  return seen.filter((it) => {
    const right = Math.ceil(plan.x(it.to));
    if (right <= edge) return false;
    edge = right;
    return true;
  });
}

function drawBand(page, plan, band, y, height) {
  const left = clamp(plan.x(band.from), LEFT, plan.width);
  const width = clamp(plan.x(band.to), LEFT, plan.width) - left;
  if (width <= 0) return [];
  const look = isOtherShard(page, band.shard) ? `${band.look} faded` : band.look;
  const rect = s("rect", { class: `band ${look}`, x: left, y, width, height }, s("title", {}, band.text));
  const hasRoom = height >= 10 && width > widthOf(band.text, 10) + 5;
  return [rect, hasRoom ? s("text", { class: `in-band ${look}`, x: left + 3, y: y + height - 3.5 }, band.text) : null];
}

export const drawBands = (page, plan, bands, y, height) => inView(page, plan, bands).flatMap((it) => drawBand(page, plan, it, y, height));

// The standings that are seen at all, in their order.
export function standingsSeen(bands) {
  const seen = new Set(bands.standing.flat().map((it) => it.look));
  return Object.keys(STANDING_WORDS).filter((it) => seen.has(it));
}
