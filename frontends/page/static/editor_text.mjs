// The text of the source and what is typed into it. A text area holds the lines around the cursor (text_window.mjs).

import { byId, soon } from './dom.mjs';
import { LineFacts } from './line_facts.mjs';
import { difference, SourceText } from './source_text.mjs';
import { TextWindow } from './text_window.mjs';

const TYPED = ['insertText', 'deleteContentBackward', 'deleteContentForward'];

/** Tells `edit` and `cursor`; whoever shows it is told by `textChanged`, `reveal` and `placeArea`. */
export class EditorText extends LineFacts {
  #area = byId('source-text');
  #model;
  #source = new SourceText();
  #window = new TextWindow(this.#area, this.#source, (first, last) => this.placeArea(first, last));
  /** The selection before what is typed now. */
  #before = { start: 0, end: 0 };
  /** The selection that was told last. */
  #told = {};
  /** What the area became is known already: the event about it tells others alone. */
  #isOwn = false;
  /** The text and the selection before a composition that goes on, which is one change, and whether that is recorded; or null. */
  #composed = null;

  constructor(model) {
    super();
    this.#model = model;
    this.#area.addEventListener('input', (event) => this.#changed(event.inputType));
    this.#area.addEventListener('beforeinput', (event) => this.#beforeInput(event));
    this.#area.addEventListener('compositionstart', () => {
      const { start, end } = this.selection;
      this.#composed = { text: this.text, selection: [start, end], isRecorded: false };
    });
    // some browsers tell of the last change after the end
    this.#area.addEventListener('compositionend', () => soon(() => this.#endComposition()));
    // not every browser tells of a moved cursor by the first of these
    for (const name of ['selectionchange', 'keyup', 'pointerup']) {
      document.addEventListener(name, () => {
        if (document.activeElement === this.#area && this.#hasMoved) this.tellCursor();
      });
    }
  }

  /** The text was changed from these lines. */
  textChanged(_was) {}

  /** A line is to come into sight. */
  reveal(_line) {}

  /** The area holds these lines now. */
  placeArea(_first, _last) {}

  // The text and the cursor ---------------------------------------------------------------------------------------------------

  /** Another text, or at first the empty one, with the cursor at its begin: no edit. Returns whether it differs from the one before. */
  begin(text) {
    this.#composed = null;
    const isOther = text !== this.#source.text;
    if (isOther) this.#source.text = text;
    if (isOther || text === '') this.#window.restart();
    return isOther;
  }

  get text() {
    return this.#source.text;
  }

  get length() {
    return this.#source.text.length;
  }

  get lines() {
    return this.#source.lines;
  }

  /** The places between which the text is selected, and in which direction. */
  get selection() {
    return this.#window.selection;
  }

  select(start, end, direction = 'none') {
    this.#window.select(start, end, direction);
    this.tellCursor();
  }

  /** The cursor: its place, its line, and the characters before it in that line. */
  get cursor() {
    const place = this.#window.cursor;
    const { line, start } = this.lineOf(place);
    return { place, line, column: place - start, start };
  }

  /** The number of the line with the cursor. */
  get line() {
    return this.#source.lineAt(this.#window.cursor);
  }

  /** The line of a place, and where that line begins. */
  lineOf(place) {
    const line = this.#source.lineAt(place);
    return { line, start: this.#source.startOf(line) };
  }

  placeOf(line, column) {
    return this.#source.startOf(line) + column;
  }

  focus() {
    this.#area.focus({ preventScroll: true });
  }

  /** Forgets a selection that is out of sight: the pointer makes another one. */
  leaveFar() {
    this.#window.leaveFar();
  }

  /** The browser itself is to find a place in what is in sight. */
  holdSight() {
    this.#window.widen();
  }

  get fault() {
    return this.faultAt(this.line);
  }

  /** As many characters as the widest line has. */
  get widest() {
    return this.#source.widest;
  }

  get isFocused() {
    return document.activeElement === this.#area;
  }

  /** Another part of the text is in sight. */
  lookAt(first, last) {
    this.#window.lookAt(first, last);
  }

  /** Before a key: the area holds the cursor. */
  comeBack() {
    this.#window.comeBack();
  }

  /** Whether the selection isn't the one that was told last: a browser tells of each several times. */
  get #hasMoved() {
    const { start, end, direction } = this.selection;
    return start !== this.#told.start || end !== this.#told.end || (start < end && direction !== this.#told.direction);
  }

  tellCursor() {
    this.#told = this.selection;
    this.dispatchEvent(new Event('cursor'));
  }

  // Typing --------------------------------------------------------------------------------------------------------------------

  /** What is typed most is done here, at once with all that is drawn of it: the browser would lay the page out between. */
  #beforeInput(event) {
    const { start, end } = this.selection;
    this.#before = { start, end };
    const { inputType } = event;
    if (inputType === 'historyUndo' || inputType === 'historyRedo') {
      event.preventDefault();
      this.undo(inputType === 'historyRedo');
      return;
    }
    if (event.isComposing || this.#window.isComposing || !TYPED.includes(inputType)) return;
    const part = partTyped(this.text, event, start, end);
    if (part === null) return;
    event.preventDefault();
    this.#put(part.start, part.end, part.text, inputType);
  }

  /** The browser has changed the text of the area, or it was done here. */
  #changed(inputType) {
    if (this.#isOwn) return;
    const was = this.lines;
    this.#taken(was, this.#window.takeInput(), inputType);
  }

  /** Puts a text in place of a part, and tells of it as the browser tells of what is typed. */
  #put(start, end, text, inputType) {
    const was = this.lines;
    const change = { ...difference(this.text.slice(start, end), text) };
    this.#window.replace(start, end, text);
    this.#taken(was, { ...change, at: start + change.at }, inputType);
    this.#isOwn = true;
    this.#area.dispatchEvent(new InputEvent('input', { inputType, data: text, bubbles: true }));
    this.#isOwn = false;
    this.#window.flush();
  }

  #endComposition() {
    if (this.#composed === null) return;
    this.#recordComposition();
    this.#composed = null;
  }

  /** What is composed so far is one change: text and undo go together also where they are kept before its end. */
  #recordComposition() {
    const { textHistory } = this.#model;
    const { text, selection, isRecorded } = this.#composed;
    const { start, end } = this.selection;
    if (isRecorded) textHistory.done.pop();
    this.#composed.isRecorded = text !== this.text;
    textHistory.record(text, this.text, { selectionBefore: selection, selectionAfter: [start, end], time: performance.now(), isTyped: false });
  }

  #taken(was, change, inputType) {
    const { start, end } = this.selection;
    if (this.#composed !== null) this.#recordComposition();
    else this.#model.textHistory.add(change, {
      selectionBefore: [this.#before.start, this.#before.end],
      selectionAfter: [start, end],
      time: performance.now(),
      isTyped: TYPED.includes(inputType),
    });
    this.#follow(was);
  }

  #follow(was) {
    this.textChanged(was);
    this.dispatchEvent(new Event('edit'));
    this.tellCursor();
  }

  /** Takes the last change back, or makes it again. */
  undo(isRedo = false) {
    this.#composed = null;
    const found = isRedo ? this.#model.textHistory.redo(this.text) : this.#model.textHistory.undo(this.text);
    if (found === null) return;
    const was = this.lines;
    const { at, length, part } = found.change;
    this.#window.replace(at, at + length, part);
    this.#follow(was);
    this.select(...found.selection);
    this.reveal(this.line);
  }

  /** Puts a text in place of a part, as typing would. */
  replace(start, end, text) {
    const { start: from, end: to } = this.selection;
    this.#before = { start: from, end: to };
    this.#put(start, end, text, 'insertReplacementText');
  }

  /** Another text in place of this one, of which what stays is left alone, with the cursor. */
  become(text) {
    const { start, end } = this.selection;
    const { at, removed, inserted } = difference(this.text, text);
    const moved = (place) => (place <= at ? place : place >= at + removed.length ? place + inserted.length - removed.length : at);
    this.replace(at, at + removed.length, inserted);
    this.select(moved(start), moved(end));
  }

  type(text) {
    const { start, end } = this.selection;
    this.replace(start, end, text);
  }
}

/** The part that a key takes out and what it puts in its place; null for what only the browser knows, such as a whole sign of several characters. */
function partTyped(text, { inputType, data }, start, end) {
  if (inputType === 'insertText') return data === null ? null : { start, end, text: data.replace(/\r\n?/g, '\n') };
  if (start !== end) return { start, end, text: '' };
  const at = inputType === 'deleteContentBackward' ? start - 1 : start;
  if (at < 0 || at >= text.length) return null;
  return /^[\t\n -~]+$/.test(text.slice(Math.max(0, at - 1), at + 2)) ? { start: at, end: at + 1, text: '' } : null;
}
