// The screen on a canvas of 128 by 64 stored pixels.

import { digitOf } from './answers.mjs';
import { byId, colour, onTheme, setText, setTitle } from './dom.mjs';
import { codeText } from './codes.mjs';
import { machineText, quirksOf } from './quirks.mjs';

const WIDTH = 128;
const HEIGHT = 64;
const FLASH_MILLISECONDS = 500;

export class ScreenView {
  #canvas = byId('screen');
  #state = byId('machine-state');
  #context = this.#canvas.getContext('2d');
  #picture = this.#context.createImageData(WIDTH, HEIGHT);
  #colours = new Uint32Array(this.#picture.data.buffer);
  #rows = [];
  #flashing = 0;

  constructor() {
    onTheme(() => this.#draw());
    this.#draw();
  }

  /** `machine` is the last one of this document that runs, or null; `code` why there is none of the present text, or null. */
  show(machine, code) {
    const { size, state } = machine?.registers ?? { state: 'run' };
    this.#state.classList.toggle('stopped', code !== null || state !== 'run');
    setText(byId('screen-size'), machine === null ? '' : size === 'high' ? '128 × 64' : '64 × 32');
    if (code !== null) this.#tell(refusalText(code, machine));
    else this.#tell(state === 'run' ? '' : `${state}: ${stopText(state, machine.wanted.options)}`);
    this.#rows = machine?.screen.rows ?? [];
    clearTimeout(this.#flashing);
    this.#draw();
  }

  #tell(text) {
    setText(this.#state, text);
    setTitle(this.#state, text);
  }

  /** Shows for a moment which pixels differ from those of another screen. */
  flash(other) {
    if (matchMedia('(prefers-reduced-motion: reduce)').matches) return;
    const theirs = pixelsOf(other.rows);
    const marked = pixelsOf(this.#rows).map((pixel, place) => pixel ^ theirs[place]);
    this.#draw(marked);
    clearTimeout(this.#flashing);
    this.#flashing = setTimeout(() => this.#draw(), FLASH_MILLISECONDS);
  }

  /** Draws the pixels; those that are marked in other colours. */
  #draw(marked = null) {
    const plain = ['--screen-dark', '--screen-lit'].map((name) => bytesOf(colour(name)));
    const changed = ['--changed-ground', '--changed'].map((name) => bytesOf(colour(name)));
    const pixels = pixelsOf(this.#rows);
    const colours = this.#colours;
    for (let place = 0; place < pixels.length; place += 1) colours[place] = plain[pixels[place]];
    if (marked !== null) marked.forEach((isMarked, place) => { if (isMarked) colours[place] = changed[pixels[place]]; });
    this.#context.putImageData(this.#picture, 0, 0);
  }
}

/** Why there is no machine: of a faulty text the last one is shown, where this document had one. */
function refusalText(code, machine) {
  const text = code === 'Q1' ? 'a line has a fault' : `${code}: ${codeText(code)}`;
  return machine === null ? `no run: ${text}` : code === 'Q1' ? 'before the faults' : `before the fault ${text}`;
}

/** Why the machine stopped; a word of the source may be no instruction of this machine alone. */
function stopText(state, options) {
  return state === 'S2' && quirksOf(options).instructions === 'base' ? `no instruction of ${machineText(options)} at pc` : codeText(state);
}

/** The pixels of the stored rows, row after row: 1 where one is lit. */
export function pixelsOf(rows) {
  const pixels = new Uint8Array(WIDTH * HEIGHT);
  for (const { row, digits } of rows) {
    for (let place = 0; place < digits.length; place += 1) {
      const digit = digitOf(digits.charCodeAt(place));
      for (let bit = 0; bit < 4; bit += 1) pixels[row * WIDTH + 4 * place + bit] = (digit >> (3 - bit)) & 1;
    }
  }
  return pixels;
}

/** A colour `#rrggbb` as a picture holds it. */
function bytesOf(name) {
  const [red, green, blue] = [1, 3, 5].map((place) => parseInt(name.slice(place, place + 2), 16));
  return new Uint32Array(new Uint8Array([red, green, blue, 255]).buffer)[0];
}

/** How many pixels differ between two screens. */
export function pixelsApart(one, other) {
  const theirs = pixelsOf(other.rows);
  return pixelsOf(one.rows).reduce((count, pixel, place) => count + (pixel ^ theirs[place]), 0);
}
