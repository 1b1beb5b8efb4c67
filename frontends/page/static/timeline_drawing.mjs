// Draws the time on a canvas: a ruler, a lane for each key that has events, what was played, and the step. Where a canvas of the page is
// given a text, the browser may lay the page out at once: so texts are drawn on others, which are kept.

import { colour, grouped } from './dom.mjs';

export const LABEL_PIXELS = 24;
const RULER_PIXELS = 18;
const RULER_FONT = '11px system-ui, sans-serif';
const BOLD_FONT = `600 ${RULER_FONT}`;
const SIGNS = '0123456789,';
const LABEL_HEIGHT = 16;
/** From a mark of the ruler to its number. */
const MARK_GAP = 4;
/** At most so wide is a digit of the ruler. */
const DIGIT_PIXELS = 7;
const TALLEST_LANE = 20;
const HATCH_PIXELS = 7;
const LEAST_BAR = 2;

/** How high each of so many lanes is, in a track of that height. */
export function laneHeight(count, height) {
  return Math.min(TALLEST_LANE, (height - RULER_PIXELS) / Math.max(1, count));
}

/** The lane at a height of a track, of so many lanes; -1 above them. */
export function laneAt(y, count, height) {
  return y < RULER_PIXELS ? -1 : Math.floor((y - RULER_PIXELS) / laneHeight(count, height));
}

/** The keys that have events, in their order. */
export const lanesOf = (keys) => [...new Set(keys.events.map((event) => event.key))].sort((one, other) => one - other);

/** When each key is down: from a step up to another, which is null where it stays down. */
export function barsOf(keys) {
  const [bars, downs] = [[], new Map()];
  for (const { step, key, down } of keys.events) {
    if (down && !downs.has(key)) downs.set(key, step);
    if (!down) bars.push({ key, from: downs.get(key) ?? step, to: step });
    if (!down) downs.delete(key);
  }
  for (const [key, from] of downs) bars.push({ key, from, to: null });
  return bars;
}

/**
 * `what` has the model, the steps that are shown, how many were played, and the track: its size, its pen, and what is kept of the drawing
 * before.
 */
export function drawCloseUp({ model, range: [from, to], played, track }) {
  const { width, height, pen } = track;
  const x = (step) => LABEL_PIXELS + ((step - from) / Math.max(1, to - from)) * (width - LABEL_PIXELS);
  pen.clearRect(0, 0, width, height);
  pen.drawImage(groundOf(track, { x, from, to, lanes: lanesOf(model.keys) }), 0, 0, width, height);
  if (played < to) hatch(pen, Math.max(LABEL_PIXELS, x(played)), RULER_PIXELS, width, height);
  drawLanes({ pen, x, from, to, width, height, model });
  if (model.flag !== null && model.flag.step >= from && model.flag.step <= to) drawFlag(pen, x(model.flag.step), model.flag.text, height);
  const box = stepBox(width, x(model.step), model.step);
  clearCut(pen, marksOf(x, from, to), box);
  drawStep(track, x(model.step), box);
}

/** The parts that stay while the run plays: the ruler, and the names of the lanes. */
function groundOf(track, { x, from, to, lanes }) {
  const { width, height } = track;
  const key = [from, to, width, height, lanes, ...['--sunken', '--line', '--faint'].map(colour)].join();
  return kept(track, 'ground', key, { width, height }, (pen) => {
    pen.fillStyle = colour('--sunken');
    pen.fillRect(LABEL_PIXELS, RULER_PIXELS, width - LABEL_PIXELS, height - RULER_PIXELS);
    drawRuler(pen, marksOf(x, from, to), height);
    nameLanes(pen, lanes, height);
  });
}

/** The signs of a number one after another, each in the middle of `DIGIT_PIXELS`. */
function signsOf(track) {
  const tint = colour('--accent-text');
  return kept(track, 'signs', tint, { width: SIGNS.length * DIGIT_PIXELS, height: LABEL_HEIGHT }, (pen) => {
    pen.font = BOLD_FONT;
    pen.fillStyle = tint;
    pen.textAlign = 'center';
    [...SIGNS].forEach((sign, place) => pen.fillText(sign, (place + 0.5) * DIGIT_PIXELS, 12));
  });
}

/** A canvas of a track that is no part of the page. It is drawn again where its key is another one. */
function kept(track, name, key, { width, height }, draw) {
  if (track.kept[name]?.key === key) return track.kept[name].canvas;
  const canvas = new OffscreenCanvas(Math.max(1, Math.round(width * track.scale)), Math.max(1, Math.round(height * track.scale)));
  const pen = canvas.getContext('2d');
  pen.scale(track.scale, track.scale);
  draw(pen);
  track.kept[name] = { key, canvas };
  return canvas;
}

/** A step that was found, with what was found there. */
function drawFlag(pen, place, text, height) {
  pen.fillStyle = colour('--fault');
  for (let at = RULER_PIXELS; at < height; at += 6) pen.fillRect(place - 1, at, 2, 3);
  pen.font = BOLD_FONT;
  pen.fillText(text, Math.max(LABEL_PIXELS, place - pen.measureText(text).width - 4), height - 4);
}

export function drawOverview({ model, range: [from, to], span, played, track: { width, height, pen } }) {
  const x = (step) => LABEL_PIXELS + (step / Math.max(1, span)) * (width - LABEL_PIXELS);
  pen.clearRect(0, 0, width, height);
  if (played < span) hatch(pen, x(played), 0, width, height);
  const lanes = lanesOf(model.keys);
  const tall = Math.max(1, (height - 4) / Math.max(2, lanes.length));
  pen.fillStyle = colour('--key-bar');
  for (const { key, from: start, to: end } of barsOf(model.keys)) {
    pen.fillRect(x(start), 2 + lanes.indexOf(key) * tall, Math.max(1, x(end ?? played) - x(start)), Math.max(1, tall - 1));
  }
  pen.strokeStyle = colour('--edge');
  pen.lineWidth = 1;
  pen.strokeRect(x(from) + 0.5, 0.5, Math.max(4, x(to) - x(from)) - 1, height - 1);
  pen.fillStyle = colour('--edge');
  for (const edge of [x(from), Math.max(x(from) + 4, x(to)) - 3]) pen.fillRect(edge, 0, 3, height);
  pen.fillStyle = colour('--accent');
  pen.fillRect(Math.min(width - 2, x(model.step) - 1), 0, 2, height);
}

/** The part that wasn't played. */
function hatch(pen, from, top, width, height) {
  pen.save();
  pen.beginPath();
  pen.rect(from, top, Math.max(0, width - from), height - top);
  pen.clip();
  pen.strokeStyle = colour('--line');
  pen.lineWidth = 1;
  pen.beginPath();
  for (let at = from - height; at < width + height; at += HATCH_PIXELS) {
    pen.moveTo(at, height);
    pen.lineTo(at + height - top, top);
  }
  pen.stroke();
  pen.restore();
}

/** The marks at round steps: each with its place, and its number where there is room for one. */
function marksOf(x, from, to) {
  const unit = niceUnit((to - from) / Math.max(2, (x(to) - x(from)) / 90));
  const marks = [];
  for (let step = Math.ceil(from / unit) * unit; step <= to; step += unit) {
    const [place, label] = [x(step), grouped(step)];
    const wide = DIGIT_PIXELS * label.length + MARK_GAP;
    marks.push({ place, wide, label: x(to) - place > wide ? label : '' });
  }
  return marks;
}

function drawRuler(pen, marks, height) {
  pen.font = RULER_FONT;
  for (const { place, label } of marks) {
    pen.fillStyle = colour('--line');
    pen.fillRect(place, 2, 1, height - 2);
    pen.fillStyle = colour('--faint');
    if (label !== '') pen.fillText(label, place + MARK_GAP, 12);
  }
}

/** Takes away the numbers of the ruler that the number of the step would cover in part. */
function clearCut(pen, marks, { left, wide }) {
  for (const mark of marks) {
    const from = mark.place + 1;
    if (mark.label !== '' && from < left + wide && left < mark.place + mark.wide) pen.clearRect(from, 0, mark.wide, LABEL_HEIGHT);
  }
}

function drawLanes({ pen, x, from, to, width, height, model }) {
  const lanes = lanesOf(model.keys);
  const tall = laneHeight(lanes.length, height);
  const gap = tall > 6 ? 2 : 0.5;
  for (const { key, from: start, to: end } of barsOf(model.keys)) {
    if ((end ?? Infinity) < from || start > to) continue;
    const isHeld = start <= model.step && model.step < (end ?? Infinity);
    const [begin, stop] = [Math.max(x(start), LABEL_PIXELS), Math.min(width, end === null ? width : x(end))];
    pen.fillStyle = colour(isHeld ? '--accent' : '--key-bar');
    pen.fillRect(begin, RULER_PIXELS + lanes.indexOf(key) * tall + gap, Math.max(LEAST_BAR, stop - begin), tall - 2 * gap);
  }
}

function nameLanes(pen, lanes, height) {
  const tall = laneHeight(lanes.length, height);
  if (lanes.length === 0 || tall < 8) return;
  pen.fillStyle = colour('--faint');
  pen.font = `${Math.min(11, tall)}px ui-monospace, monospace`;
  lanes.forEach((key, lane) => pen.fillText(key.toString(16).toUpperCase(), 6, RULER_PIXELS + (lane + 1) * tall - (tall - 8) / 2));
}

/** Where the number of the step stands, in a track of that width. */
function stepBox(width, place, step) {
  const label = grouped(step);
  const wide = DIGIT_PIXELS * label.length + 8;
  return { label, wide, left: Math.round(Math.max(0, Math.min(width - wide, place - wide / 2))) };
}

/** The step, as a line with its number above it. */
function drawStep(track, place, { label, wide, left }) {
  const { width, height, pen, scale } = track;
  pen.fillStyle = colour('--accent');
  pen.fillRect(Math.min(width - 2, place - 1), 0, 2, height);
  pen.fillRect(left, 0, wide, LABEL_HEIGHT);
  const signs = signsOf(track);
  const [across, down] = [DIGIT_PIXELS * scale, LABEL_HEIGHT * scale];
  [...label].forEach((sign, at) => {
    pen.drawImage(signs, SIGNS.indexOf(sign) * across, 0, across, down, left + 4 + at * DIGIT_PIXELS, 0, DIGIT_PIXELS, LABEL_HEIGHT);
  });
}

/** The least of 1, 2, 5, 10, 20 .. that isn't below a number. */
export function niceUnit(number) {
  const power = 10 ** Math.floor(Math.log10(Math.max(1, number)));
  return [1, 2, 5, 10].map((factor) => factor * power).find((unit) => unit >= number) ?? 10 * power;
}
