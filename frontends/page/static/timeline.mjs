// The time: all that was played, and a part of it close up, with a lane for each key that has events.

import { byId, grouped, oncePerFrame, onTheme, setAttribute, setProperty } from './dom.mjs';
import { drawCloseUp, drawOverview, LABEL_PIXELS, laneAt, lanesOf } from './timeline_drawing.mjs';

const GRAB_PIXELS = 6;
const LEAST_SPAN = 1000;
const LEAST_WIDTH = 100;
/** A part more than was played is shown; and while it plays the time grows by a quarter, each time that the step comes near its end. */
const MORE = 1.05;
const NEAR_END = 0.97;
const GROWTH = 1.25;
const KEYS = { Home: 'first', End: 'last', PageUp: 'back-thousand', PageDown: 'on-thousand', ArrowUp: 'on', ArrowDown: 'back' };

export class Timeline {
  #model;
  #isPlaying;
  #overview = byId('overview');
  #closeUp = byId('close-up');
  /** How many steps the overview has; the first step of the close-up; how many it shows, or null for all. */
  #span = LEAST_SPAN;
  #from = 0;
  #width = null;
  /** What the pointer holds: the event that it moves, or the step, or an edge of the close-up; null where none is down. */
  #held = null;
  #draw = oncePerFrame(() => this.#drawBoth());
  /** The sizes of the tracks, in pixels, as the browser told them last, with the pen of each and what is kept of its drawing. */
  #sizes = new Map();

  /** `move(name)` carries out the moves of the keyboard; `isPlaying()` says whether the run plays. */
  constructor(model, { move, isPlaying }) {
    this.#model = model;
    this.#isPlaying = isPlaying;
    this.#listenTo(this.#closeUp, (event) => this.#grabCloseUp(event));
    this.#listenTo(this.#overview, (event) => this.#grabOverview(event));
    for (const track of [this.#overview, this.#closeUp]) {
      track.addEventListener('keydown', (event) => this.#pressed(event, move));
      track.addEventListener('wheel', (event) => this.#wheeled(event), { passive: false });
      new ResizeObserver(() => this.#resized(track)).observe(track);
    }
    byId('zoom-in').addEventListener('click', () => this.zoom(0.5));
    byId('zoom-out').addEventListener('click', () => this.zoom(2));
    byId('zoom-fit').addEventListener('click', () => this.zoom(null));
    model.addEventListener('change', ({ detail }) => {
      if (detail !== 'text' && detail !== 'breakpoints') this.#draw();
    });
    onTheme(this.#draw);
    this.#draw();
  }

  focus() {
    this.#closeUp.focus();
  }

  /** The first and the last step of the close-up.
   * @returns {[number, number]} */
  get window() {
    return this.#width === null ? [0, this.#span] : [this.#from, this.#from + this.#width];
  }

  /** Shows a part as wide as `by` times the one that is shown, around the step; with null, all. */
  zoom(by) {
    const [from, to] = this.window;
    const wide = by === null ? Infinity : Math.max(LEAST_WIDTH, Math.round((to - from) * by));
    this.#width = wide >= this.#span ? null : wide;
    this.#center();
    this.#draw();
  }

  // The pointer and the keyboard ----------------------------------------------------------------------------------------------

  #pressed(event, move) {
    if (event.ctrlKey || event.altKey || event.metaKey) return;
    const zoom = { '+': 0.5, '-': 2, '−': 2, 0: null }[event.key];
    // 0 is a key of the game on the keypad of numbers alone
    if (zoom !== undefined && event.code !== 'Numpad0') this.zoom(zoom);
    else if (event.key in KEYS) move(KEYS[event.key]);
    else return;
    event.preventDefault();
  }

  #listenTo(track, grab) {
    track.addEventListener('pointerdown', (event) => {
      if (event.button !== 0) return;
      track.setPointerCapture(event.pointerId);
      this.#held = grab(event);
      this.#held(event);
    });
    track.addEventListener('pointermove', (event) => {
      if (track.hasPointerCapture(event.pointerId)) this.#held?.(event);
      else if (track === this.#closeUp) setProperty(track.style, 'cursor', this.#eventNear(event) === null ? '' : 'grab');
      else setProperty(track.style, 'cursor', this.#edgeNear(event) === null ? '' : 'col-resize');
    });
    const done = () => {
      this.#held = null;
      this.#draw();
    };
    track.addEventListener('pointerup', done);
    track.addEventListener('pointercancel', done);
  }

  /** The step under the pointer, of a track that shows these steps. */
  #stepUnder(track, [from, to], event) {
    const box = track.getBoundingClientRect();
    const part = (event.clientX - box.left - LABEL_PIXELS) / Math.max(1, box.width - LABEL_PIXELS);
    return Math.round(from + part * (to - from));
  }

  #grabCloseUp(event) {
    const range = this.window;
    const grabbed = this.#eventNear(event);
    if (grabbed === null) return (now) => this.#model.setStep(Math.max(0, this.#stepUnder(this.#closeUp, range, now)));
    this.#model.setStep(grabbed.step);
    const move = `move ${Date.now()}`;
    let moved = grabbed;
    return (now) => {
      moved = this.#moveEvent(moved, this.#stepUnder(this.#closeUp, range, now), move);
    };
  }

  /** An edge of the part that is shown is moved, or the part as a whole; elsewhere, or where all is shown, the step. */
  #grabOverview(event) {
    /** @type {[number, number]} */
    const range = [0, this.#span];
    const stepOf = (now) => this.#stepUnder(this.#overview, range, now);
    const edge = this.#edgeNear(event);
    const [from, to] = this.window;
    if (edge === 'left') return (now) => this.#show(Math.min(stepOf(now), to - LEAST_WIDTH), to);
    if (edge === 'right') return (now) => this.#show(from, Math.max(stepOf(now), from + LEAST_WIDTH));
    const start = stepOf(event);
    if (this.#width !== null && start > from && start < to) return (now) => this.#show(from + stepOf(now) - start, to + stepOf(now) - start);
    return (now) => this.#model.setStep(Math.max(0, stepOf(now)));
  }

  #edgeNear(event) {
    const box = this.#overview.getBoundingClientRect();
    const x = (step) => LABEL_PIXELS + (step / this.#span) * (box.width - LABEL_PIXELS);
    const near = this.window.map((step) => Math.abs(x(step) - (event.clientX - box.left)) <= GRAB_PIXELS);
    return near[0] && this.#width !== null ? 'left' : near[1] ? 'right' : null;
  }

  #show(from, to) {
    const width = Math.max(LEAST_WIDTH, Math.min(this.#span, to - from));
    this.#width = width >= this.#span ? null : width;
    this.#from = Math.max(0, Math.min(this.#span - width, from));
    this.#draw();
  }

  /** The event whose edge is under the pointer, or null. */
  #eventNear(event) {
    const box = this.#closeUp.getBoundingClientRect();
    const lanes = lanesOf(this.#model.keys);
    const key = lanes[laneAt(event.clientY - box.top, lanes.length, box.height)];
    if (key === undefined) return null;
    const [from, to] = this.window;
    const away = ({ step }) => Math.abs(LABEL_PIXELS + ((step - from) / (to - from)) * (box.width - LABEL_PIXELS) - (event.clientX - box.left));
    const near = this.#model.keys.events.filter((one) => one.key === key && away(one) <= GRAB_PIXELS).sort((one, other) => away(one) - away(other));
    return near[0] ?? null;
  }

  /** A grabbed event follows the pointer, up to the next event of its key on either side. Returns the event as it is then. */
  #moveEvent({ step, key, down }, wanted, move) {
    const others = this.#model.keys.events.filter((event) => event.key === key && event.step !== step).map((event) => event.step);
    const low = Math.max(-1, ...others.filter((other) => other < step)) + 1;
    const high = Math.min(this.#model.lastStep + 1, ...others.filter((other) => other > step)) - 1;
    const place = Math.max(low, Math.min(high, wanted));
    if (place === step) return { step, key, down };
    this.#model.setKeys(this.#model.keys.without(step, key).with(place, key, down), { move });
    this.#model.setStep(place);
    return { step: place, key, down };
  }

  /** The wheel changes how much is shown, with Ctrl, or where the track has the focus. */
  #wheeled(event) {
    if (!event.ctrlKey && document.activeElement !== event.currentTarget) return;
    event.preventDefault();
    if (event.deltaY !== 0) this.zoom(event.deltaY > 0 ? 2 : 0.5);
  }

  // Drawing -------------------------------------------------------------------------------------------------------------------

  #resized(track) {
    const { width, height } = track.getBoundingClientRect();
    const canvas = track.firstElementChild;
    canvas.width = Math.round(width * devicePixelRatio);
    canvas.height = Math.round(height * devicePixelRatio);
    const pen = canvas.getContext('2d');
    pen.scale(devicePixelRatio, devicePixelRatio);
    this.#sizes.set(track, { width, height, pen, scale: devicePixelRatio, kept: {} });
    this.#drawBoth();
  }

  /** As many steps as were played, and some more; the time doesn't change under a pointer that is down. */
  #fitSpan() {
    if (this.#held !== null) return;
    const { step, playedTo, lastStep } = this.#model;
    const wanted = Math.max(LEAST_SPAN, Math.ceil(MORE * Math.max(playedTo, step)));
    if (!this.#isPlaying()) this.#span = wanted;
    else if (step > NEAR_END * this.#span) this.#span = Math.max(wanted, Math.ceil(GROWTH * this.#span));
    this.#span = Math.min(lastStep, this.#span);
    if (this.#width !== null && this.#width >= this.#span) this.#width = null;
  }

  #center() {
    if (this.#width === null) return;
    this.#from = Math.max(0, Math.min(this.#span - this.#width, Math.round(this.#model.step - this.#width / 2)));
  }

  #drawBoth() {
    this.#fitSpan();
    const { step, lastStep, playedTo } = this.#model;
    const [first, last] = this.window;
    // the window stays while something is dragged in it, and follows where the step leaves it
    if (this.#held === null && (step < first || step > last || last > this.#span)) this.#center();
    for (const track of [this.#overview, this.#closeUp]) {
      setAttribute(track, 'aria-valuemin', '0');
      setAttribute(track, 'aria-valuemax', String(lastStep));
      setAttribute(track, 'aria-valuenow', String(step));
      setAttribute(track, 'aria-valuetext', `step ${grouped(step)} of ${grouped(playedTo)} played`);
      const size = this.#sizes.get(track);
      if (size === undefined || size.width === 0) continue;
      if (size.scale !== devicePixelRatio) this.#resized(track);
      const what = { model: this.#model, range: this.window, span: this.#span, played: playedTo, track: this.#sizes.get(track) };
      if (track === this.#overview) drawOverview(what);
      else drawCloseUp(what);
    }
  }
}
