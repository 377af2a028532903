// The strip at the top: the whole replay, a row for each rank. How it stands and where it was in trouble is painted once; the part that the lanes show
// and the cursor are painted over it after each move.
import { clamp } from "./elements.mjs";
import { columns } from "./moving.mjs";

const colour = (name) => getComputedStyle(document.documentElement).getPropertyValue(name).trim();

function resize(canvas, width, height, ratio) {
  canvas.width = width * ratio;
  canvas.height = height * ratio;
  canvas.style.height = `${height}px`;
}

export function paintOverview(page) {
  const { replay, parts } = page;
  const row = clamp(Math.floor(72 / replay.ranks), 2, 10);
  const ratio = window.devicePixelRatio || 1;
  const height = replay.ranks * (row + 1);
  resize(parts.base, parts.width, height, ratio);
  resize(parts.over, parts.width, height, ratio);
  page.accent = colour("--accent"); // kept, since to ask for a colour makes the browser work out all styles
  const pen = parts.base.getContext("2d");
  pen.scale(ratio, ratio);
  pen.fillStyle = colour("--lane");
  pen.fillRect(0, 0, parts.width, height);
  const x = (moment) => (moment / Math.max(1, replay.steps.length)) * parts.width;
  paintBands(page, pen, x, row);
  paintTrouble(page, pen, x, row);
}

function paintBands(page, pen, x, row) {
  const colours = Object.fromEntries(["asks", "looks", "writer", "reader", "leaves"].map((it) => [it, colour(`--${it}`)]));
  page.bands.standing.forEach((bands, rank) => {
    for (const band of bands) {
      pen.fillStyle = colours[band.standing];
      pen.fillRect(x(band.from), rank * (row + 1), Math.max(0.5, x(band.to) - x(band.from)), Math.ceil(row / 2));
    }
  });
}

function paintTrouble(page, pen, x, row) {
  const colours = { lost: colour("--lost"), busy: colour("--busy"), waiting: colour("--waiting") };
  const width = Math.max(1, x(1));
  page.replay.steps.forEach((step, i) => {
    if (!(step.answer in colours)) return;
    pen.fillStyle = colours[step.answer];
    pen.fillRect(x(i), step.rank * (row + 1) + Math.ceil(row / 2), width, Math.floor(row / 2));
  });
}

export function renderOverview(page) {
  const { parts } = page;
  const ratio = window.devicePixelRatio || 1;
  const height = parts.over.height / ratio;
  const all = Math.max(1, page.replay.steps.length);
  const x = (moment) => (moment / all) * parts.width;
  const pen = parts.over.getContext("2d");
  pen.setTransform(ratio, 0, 0, ratio, 0, 0);
  pen.clearRect(0, 0, parts.width, height);
  pen.strokeStyle = page.accent;
  pen.lineWidth = 2;
  pen.strokeRect(x(page.first) + 1, 1, Math.max(3, x(Math.min(columns(page), all)) - 2), height - 2);
  pen.fillStyle = page.accent;
  if (page.moment >= 0) pen.fillRect(x(page.moment + 0.5) - 1, 0, 2, height);
}

// The moment under the pointer.
export function momentInOverview(page, event) {
  const box = page.parts.overview.getBoundingClientRect();
  return Math.floor(((event.clientX - box.left) / box.width) * page.replay.steps.length);
}
