// The page shown in place of an empty source: examples that run, a template, a file, or nothing.

import { readScreen } from './answers.mjs';
import { request } from './bridge.mjs';
import { byId, colour, element, onTheme } from './dom.mjs';
import { pixelsOf } from './screen_view.mjs';
import { TEMPLATE } from './template.mjs';

const WIDTH = 128;
const HEIGHT = 64;
/** The names of the examples, what each shows, and the step of its picture. */
const EXAMPLES = [
  ['bounce', 'A ball in a box, in 27 lines. It needs no key.', 300],
  ['breaker', 'Bricks, a ball and a paddle. Key 5 serves, 4 and 6 move.', 3000],
  ['maze', 'Find the key, then the door. Keys 2, 4, 6 and 8 walk.', 3000],
];
const PREVIEW_LINES = 12;

export class StartPage {
  #place = byId('start');
  #documents;
  #editor;
  #settled;
  #isMade = false;

  /** `settled()` resolves when what is asked about the document is answered: the pictures of the examples come after it. */
  constructor({ documents, editor, settled }) {
    this.#documents = documents;
    this.#editor = editor;
    this.#settled = settled;
    byId('start-open').addEventListener('click', () => byId('upload').click());
    byId('start-empty').addEventListener('click', () => this.#leave());
    byId('show-start').addEventListener('click', () => this.#show());
    editor.addEventListener('edit', () => this.#hide());
    documents.addEventListener('open', () => this.showWhereBlank());
  }

  /** Shows the start where there is a new source without a text. */
  showWhereBlank() {
    if (this.#documents.isBlank) this.#show();
    else this.#hide();
  }

  #show() {
    this.#setShown(true);
    if (this.#isMade) return;
    this.#isMade = true;
    byId('examples').append(...EXAMPLES.map((example) => this.#example(...example)), this.#template());
  }

  #hide() {
    if (!this.#place.hidden) this.#setShown(false);
  }

  #setShown(shown) {
    this.#place.hidden = !shown;
    byId('editor').hidden = shown;
  }

  /** The source itself, as it is. */
  #leave() {
    this.#hide();
    this.#editor.focus();
  }

  #card(name, about, picture) {
    return element('button', { type: 'button', className: 'example' }, picture, element('strong', { textContent: name }), element('span', { className: 'hint', textContent: about }));
  }

  #example(name, about, steps) {
    const canvas = element('canvas', { width: WIDTH, height: HEIGHT });
    const card = this.#card(`${name}.asm`, about, canvas);
    const asked = this.#settled().then(() => request('example', { name, steps })).catch(() => ({ text: null, screen: null }));
    asked.then(({ text, screen }) => {
      card.hidden = text === null;
      if (screen === null) return;
      const pixels = pixelsOf(readScreen(screen).rows);
      const draw = () => drawPixels(canvas, pixels);
      draw();
      onTheme(draw);
    });
    card.addEventListener('click', async () => {
      const { text } = await asked;
      if (text !== null) this.#take(`${name}.asm`, text);
    });
    return card;
  }

  #template() {
    const preview = element('pre', { textContent: TEMPLATE.split('\n').slice(0, PREVIEW_LINES).join('\n') });
    const card = this.#card('Template', 'Two keys move a sprite, and a timer sets the pace, in 27 lines.', preview);
    card.addEventListener('click', () => this.#take('game.asm', TEMPLATE));
    return card;
  }

  /** The text becomes that of a file that isn't there yet; else it is opened under its own name. */
  #take(name, text) {
    this.#documents.startFrom(name, text);
    this.#hide();
    byId('play').focus();
  }
}

function drawPixels(canvas, pixels) {
  const pen = canvas.getContext('2d');
  pen.fillStyle = colour('--screen-dark');
  pen.fillRect(0, 0, WIDTH, HEIGHT);
  pen.fillStyle = colour('--screen-lit');
  pixels.forEach((pixel, place) => {
    if (pixel === 1) pen.fillRect(place % WIDTH, Math.floor(place / WIDTH), 1, 1);
  });
}
