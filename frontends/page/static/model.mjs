// What the author has: one document at a time, with its text, keys, settings and the step looked at. Each change is told to all who
// listen.

import { KeyHistory } from './key_history.mjs';
import { KeyScript } from './key_script.mjs';
import { lookOf, USUAL_LOOK } from './look.mjs';
import { TextHistory } from './text_history.mjs';
import { programLines } from './text_form.mjs';

/** The most key events that the program takes (docs/FORMATS.md: N9). */
export const MOST_EVENTS = 10_000;
/** So many texts of a document have the same lines again after an undo. */
const MOST_TEXTS = 16;

export class Model extends EventTarget {
  #wanted = null;
  #linesOf = new Map();

  /** The number of the document that is open: each opening has another one. */
  document = 0;
  text = '';
  form = { encoding: 'utf-8', lineEnd: '\n' };
  keys = new KeyScript();
  options = {};
  /** @type {{ screen: string, arrows: string, letters: boolean }} */
  look = USUAL_LOOK;
  step = 0;
  lastStep = 100_000;
  /** The furthest step that was played; the last event may lie further on. */
  played = 0;
  /** A step to be marked on the time, with a short text; or null. */
  flag = null;
  /** The lines with breakpoints. */
  breakLines = [];
  textHistory = new TextHistory();
  keyHistory = new KeyHistory();
  /** The last thing changed, `text` or `keys`, which undo takes back. */
  lastChange = 'keys';

  /**
   * The work that the program is asked about: the document, its lines as bytes, those of them that no program takes (`refused`, codes by
   * line), keys and settings. The same object comes back as long as nothing of it changes, and the same lines for the same text.
   */
  get wanted() {
    this.#wanted ??= { document: this.document, ...this.#programLines(), keys: this.keys, options: this.options };
    return this.#wanted;
  }

  #programLines() {
    const known = this.#linesOf.get(this.text) ?? programLines(this.text, this.form.encoding);
    this.#linesOf.delete(this.text);
    this.#linesOf.set(this.text, known);
    if (this.#linesOf.size > MOST_TEXTS) this.#linesOf.delete(this.#linesOf.keys().next().value);
    return known;
  }

  /** Up to which step there is a play: the furthest that was played, or the last event. */
  get playedTo() {
    return Math.max(this.played, this.keys.events.at(-1)?.step ?? 0);
  }

  /** Whether the text or the keys were changed, as far as that can be undone. */
  get isEdited() {
    return this.textHistory.canUndo || this.keyHistory.canUndo;
  }

  get rate() {
    return Number(this.options.rate ?? 10);
  }

  #changed(what) {
    this.dispatchEvent(new CustomEvent('change', { detail: what }));
  }

  setText(text, { encoding, lineEnd } = this.form) {
    if (text === this.text && encoding === this.form.encoding && lineEnd === this.form.lineEnd) return;
    if (encoding !== this.form.encoding) this.#linesOf.clear();
    this.text = text;
    this.form = { encoding, lineEnd };
    this.#wanted = null;
    this.lastChange = 'text';
    this.#changed('text');
  }

  /** Opens another document in the place of this one, of which nothing stays. What can be undone of it begins with what was kept. */
  startWith({ text, form, keys, textHistory, keyHistory, options, look, played = 0, step = 0, breakLines = [] }) {
    this.document += 1;
    this.#wanted = null;
    this.#linesOf.clear();
    Object.assign(this, { text, form, keys, textHistory, keyHistory, options, look: lookOf(look), played, breakLines, flag: null, lastChange: 'keys' });
    this.step = this.#wholeStep(step);
    for (const what of ['document', 'look', 'options', 'text', 'keys', 'step', 'flag', 'played', 'breakpoints']) this.#changed(what);
  }

  /**
   * `group` says of which `play` or `move` the change is a part (key_history.mjs). More events than the program takes are refused: then
   * nothing is changed, and false is returned.
   */
  setKeys(keys, group = {}) {
    if (keys === this.keys) return true;
    if (keys.size > MOST_EVENTS && keys.size > this.keys.size) {
      this.#changed('refused');
      return false;
    }
    this.keyHistory.record(this.keys, keys, group);
    this.#takeKeys(keys);
    return true;
  }

  /** The keys at the start: there is nothing to undo. */
  startWithKeys(keys) {
    if (keys !== this.keys) this.#takeKeys(keys);
  }

  undoKeys(wholePlay = false) {
    this.#takeKeys(this.keyHistory.undo(this.keys, wholePlay));
  }

  redoKeys(wholePlay = false) {
    this.#takeKeys(this.keyHistory.redo(this.keys, wholePlay));
  }

  #takeKeys(keys) {
    this.keys = keys;
    this.lastChange = 'keys';
    if (this.#wanted !== null) this.#wanted = { ...this.#wanted, keys };
    this.#changed('keys');
  }

  setBreakLines(lines) {
    this.breakLines = lines;
    this.#changed('breakpoints');
  }

  setOptions(options) {
    this.options = options;
    this.#wanted = null;
    this.#changed('options');
  }

  setFlag(flag) {
    this.flag = flag;
    this.#changed('flag');
  }

  /** How the game wants to be seen and played (look.mjs). */
  setLook(look) {
    this.look = lookOf(look);
    this.#changed('look');
  }

  #wholeStep(step) {
    return Math.max(0, Math.min(this.lastStep, Math.round(step) || 0));
  }

  setStep(step) {
    const whole = this.#wholeStep(step);
    if (whole === this.step) return;
    this.step = whole;
    this.#changed('step');
  }

  /** The run was played up to a step. */
  setPlayed(step) {
    if (step <= this.played) return;
    this.played = step;
    this.#changed('played');
  }

  setLastStep(lastStep) {
    if (lastStep === this.lastStep) return;
    this.lastStep = lastStep;
    this.#changed('lastStep');
    this.setStep(this.step);
  }
}
