// Pictures of the screen, animations of a part of the run, and scripts with their answers, as downloads.

import { readScreen, refusal } from './answers.mjs';
import { canHold, markedSteps, writeCase } from './case_file.mjs';
import { byId, colour } from './dom.mjs';
import { download } from './files.mjs';
import { encodeGif } from './gif.mjs';
import { keyCommands, KeyScript } from './key_script.mjs';
import { notice, takeAway } from './notices.mjs';
import { pixelsOf } from './screen_view.mjs';

const WIDTH = 128;
const HEIGHT = 64;
const PICTURE_SCALE = 8;
const ANIMATION_SCALE = 4;
const MOST_PICTURES = 900;
/** A picture for each two ticks: a GIF counts hundredths of a second, and 3 are nearest to two of sixty ticks. */
const TICKS_A_PICTURE = 2;
const HUNDREDTHS = 3;
const BATCH = 500;

export class Exports {
  #model;
  #workbench;
  #documents;

  constructor({ model, workbench, documents }) {
    this.#model = model;
    this.#workbench = workbench;
    this.#documents = documents;
    byId('download-picture').addEventListener('click', () => this.#picture());
    byId('show-animation').addEventListener('click', () => this.#askSpan());
    byId('download-script').addEventListener('click', () => this.#script());
    byId('download-case').addEventListener('click', () => this.#case());
  }

  get #name() {
    return this.#documents.name.replace(/\.[^.]*$/, '');
  }

  /** Answers about some work; null where there is no run, or where another document is open by now. */
  async #answers(questions, wanted = this.#model.wanted) {
    const answers = await this.#workbench.answers(wanted, questions);
    if (wanted.document !== this.#model.document) return null;
    takeAway('export');
    if (answers.some((answer) => refusal(answer) !== null)) {
      notice('export', 'There is no run, because a line has a fault.');
      return null;
    }
    return answers;
  }

  async #picture() {
    const { step } = this.#model;
    const answers = await this.#answers([`screen ${step}`]);
    if (answers === null) return;
    const canvas = new OffscreenCanvas(WIDTH * PICTURE_SCALE, HEIGHT * PICTURE_SCALE);
    const pen = canvas.getContext('2d');
    const colours = ['--screen-dark', '--screen-lit'].map(colour);
    pixelsOf(readScreen(answers[0]).rows).forEach((pixel, place) => {
      pen.fillStyle = colours[pixel];
      pen.fillRect((place % WIDTH) * PICTURE_SCALE, Math.floor(place / WIDTH) * PICTURE_SCALE, PICTURE_SCALE, PICTURE_SCALE);
    });
    const blob = await canvas.convertToBlob({ type: 'image/png' });
    download(`${this.#name}-${step}.png`, new Uint8Array(await blob.arrayBuffer()));
  }

  #askSpan() {
    const dialog = byId('animation');
    const { first, last } = dialog.querySelector('form').elements;
    const { step, rate, lastStep } = this.#model;
    [first.max, last.max] = [lastStep, lastStep];
    [first.value, last.value] = [Math.max(0, step - 300 * rate), step];
    dialog.returnValue = '';
    dialog.showModal();
    dialog.addEventListener('close', () => {
      if (dialog.returnValue === 'save') this.#animation(Number(first.value), Number(last.value));
    }, { once: true });
  }

  async #animation(from, to) {
    const [first, last] = [Math.min(from, to), Math.max(from, to)];
    const every = TICKS_A_PICTURE * this.#model.rate;
    // all pictures are of one text, whatever is typed meanwhile
    const { wanted } = this.#model;
    const count = Math.min(MOST_PICTURES, Math.floor((last - first) / every) + 1);
    const steps = Array.from({ length: count }, (_, place) => first + place * every);
    const frames = [];
    for (let start = 0; start < count; start += BATCH) {
      const answers = await this.#answers(steps.slice(start, start + BATCH).map((step) => `screen ${step}`), wanted);
      if (answers === null) return;
      frames.push(...answers.map((answer) => pixelsOf(readScreen(answer).rows)));
    }
    const colours = ['--screen-dark', '--screen-lit'].map(colour);
    download(`${this.#name}-${first}-${last}.gif`, encodeGif({ frames, width: WIDTH, height: HEIGHT, scale: ANIMATION_SCALE, colours, hundredths: HUNDREDTHS }));
  }

  /** The questions to `debug` about the keys and the step, and its answers: a script and its transcript. */
  async #script() {
    const { keys, step } = this.#model;
    const events = keyCommands(new KeyScript(), keys);
    const questions = [`regs ${step}`, `screen ${step}`];
    const answers = await this.#answers(questions);
    if (answers === null) return;
    download(`${this.#name}.script`, [...events, ...questions].map((command) => `${command}\n`).join(''));
    download(`${this.#name}.out`, [...events.map(() => 'ok\n'), ...answers].join(''));
  }

  /** The source, the settings and the keys, with what `debug` answers at their steps and at the one looked at. */
  async #case() {
    const { keys, step, options, wanted } = this.#model;
    const questions = markedSteps(keys, step).flatMap((at) => [`regs ${at}`, `screen ${at}`]);
    const answers = await this.#answers(questions);
    if (answers === null) return;
    if (!canHold(wanted.lines)) {
      notice('export', 'A case for `test` can\'t hold a source with a line `end`.');
      return;
    }
    const events = keyCommands(new KeyScript(), keys).map((command) => [command, 'ok\n']);
    const exchanges = [...events, ...questions.map((question, place) => [question, answers[place]])];
    download(`${this.#name}.test`, writeCase({ name: `${this.#name} at step ${step}`, lines: wanted.lines, options, exchanges }));
  }
}
