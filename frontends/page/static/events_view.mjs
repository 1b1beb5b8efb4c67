// The events of the keys near the step looked at, each of which can be changed.

import { byId, element, grouped, oncePerFrame, setProperty, setText, setTitle } from './dom.mjs';
import { hex } from './answers.mjs';
import { KEYS } from './key_script.mjs';

const SHOWN = 40;
const FIELDS = 'input, select, button';

export class EventsView {
  #model;
  #rows = byId('event-rows');
  #state = byId('keys-state');
  #buttons = Object.fromEntries(['undo-keys', 'undo-play', 'redo-keys', 'redo-play'].map((name) => [name, byId(name)]));
  #form = byId('add-event');
  /** The rows as they were made, of which keys, and the place of the first of them among the events. */
  #made = [];
  #madeOf = null;
  #first = 0;
  #here = null;
  #draw = oncePerFrame(() => this.#drawRows());
  #step = 0;

  constructor(model) {
    this.#model = model;
    model.addEventListener('change', ({ detail }) => {
      if (detail === 'keys' || detail === 'lastStep') this.#draw();
    });
    this.#form.elements.key.append(...keyOptions(0));
    this.#form.addEventListener('submit', (event) => {
      event.preventDefault();
      const { step, key, down } = this.#form.elements;
      model.setKeys(model.keys.with(Math.min(model.lastStep, Number(step.value)), Number(key.value), down.value === 'down'));
    });
    this.#buttons['undo-keys'].addEventListener('click', () => model.undoKeys());
    this.#buttons['undo-play'].addEventListener('click', () => model.undoKeys(true));
    this.#buttons['redo-keys'].addEventListener('click', () => model.redoKeys());
    this.#buttons['redo-play'].addEventListener('click', () => model.redoKeys(true));
    this.#draw();
  }

  /** Marks the events around the step that is shown. */
  show(step) {
    this.#step = step;
    this.#drawRows();
  }

  #drawButtons() {
    const { keyHistory } = this.#model;
    setProperty(this.#buttons['undo-keys'], 'disabled', !keyHistory.canUndo);
    setProperty(this.#buttons['redo-keys'], 'disabled', !keyHistory.canRedo);
    setProperty(this.#buttons['undo-play'], 'disabled', keyHistory.lastPlay < 2);
    setProperty(this.#buttons['redo-play'], 'disabled', keyHistory.nextPlay < 2);
    setTitle(this.#buttons['undo-play'], `Undoes all ${keyHistory.lastPlay} changes that the last play recorded`);
  }

  #drawRows() {
    const { keys, lastStep } = this.#model;
    const step = this.#step;
    this.#drawButtons();
    const told = keys.size === 0 ? 'no events: press keys while it plays' : `${grouped(keys.size)} ${keys.size === 1 ? 'event' : 'events'}`;
    setText(this.#state, told);
    const { elements } = this.#form;
    setProperty(elements.step, 'max', String(lastStep));
    if (!this.#form.contains(document.activeElement)) setProperty(elements.step, 'value', String(step));
    if (this.#rows.contains(document.activeElement) && this.#rows.querySelector(':focus')?.matches('input, select')) return;
    const next = keys.events.findIndex((event) => event.step > step);
    const middle = next < 0 ? keys.size : next;
    if (!this.#hasMade(keys, middle)) this.#makeRows(keys, middle);
    this.#mark(this.#made[middle - 1 - this.#first] ?? null);
  }

  /** Whether the event before `middle` has a row, and the one after it, where there are such events. */
  #hasMade(keys, middle) {
    const end = this.#first + this.#made.length;
    return keys === this.#madeOf && (middle > this.#first || this.#first === 0) && (middle < end || end === keys.size);
  }

  #makeRows(keys, middle) {
    const focused = this.#focusedPlace();
    this.#first = Math.max(0, Math.min(middle - SHOWN / 2, keys.size - SHOWN));
    this.#made = keys.events.slice(this.#first, this.#first + SHOWN).map((event) => this.#row(event));
    this.#madeOf = keys;
    const more = keys.size - this.#made.length;
    const rest = element('tr', {}, element('td', { colSpan: 4, textContent: `and ${grouped(more)} more, farther from this step` }));
    this.#rows.replaceChildren(...this.#made, ...(more > 0 ? [rest] : []));
    if (focused === null || this.#made.length === 0) return;
    const place = Math.max(0, Math.min(focused.event - this.#first, this.#made.length - 1));
    this.#made[place].querySelectorAll(FIELDS)[focused.field].focus({ preventScroll: true });
  }

  /** The place of the event, and of the field in its row, that have the focus; or null. */
  #focusedPlace() {
    const row = this.#made.findIndex((made) => made.contains(document.activeElement));
    if (row < 0) return null;
    return { event: row + this.#first, field: [...this.#made[row].querySelectorAll(FIELDS)].indexOf(document.activeElement) };
  }

  /** Marks the row of the last event that has come by, and no other. */
  #mark(row) {
    if (row === this.#here) return;
    this.#here?.classList.remove('here');
    this.#here = row;
    row?.classList.add('here');
    if (row !== null) this.#scrollTo(row);
  }

  /** Brings a row into its scroller, and moves nothing else. */
  #scrollTo(row) {
    const scroller = this.#rows.closest('.scroller');
    scroller.scrollTop = row.offsetTop - scroller.clientHeight / 2;
  }

  #row(event) {
    const { step, key, down } = event;
    const name = `event of key ${hex(key, 1).toUpperCase()} at step ${grouped(step)}`;
    const change = (newStep, newKey, newDown) => {
      const place = Math.max(0, Math.min(this.#model.lastStep, Math.round(newStep)));
      this.#model.setKeys(this.#model.keys.without(step, key).with(place, newKey, newDown));
    };
    const stepField = element('input', { type: 'number', min: '0', max: String(this.#model.lastStep), value: String(step) });
    stepField.setAttribute('aria-label', `Step of the ${name}`);
    stepField.addEventListener('change', () => change(Number(stepField.value), key, down));
    stepField.addEventListener('blur', this.#draw);
    const keyField = element('select', {}, ...keyOptions(key));
    keyField.setAttribute('aria-label', `Key of the ${name}`);
    keyField.addEventListener('change', () => change(step, Number(keyField.value), down));
    const button = (text, label, action) => {
      const made = element('button', { type: 'button', textContent: text });
      made.setAttribute('aria-label', label);
      made.addEventListener('click', action);
      return made;
    };
    const cell = (...children) => element('td', {}, ...children);
    return element(
      'tr',
      {},
      cell(stepField),
      cell(keyField),
      cell(button(down ? 'down' : 'up', `The ${name} is ${down ? 'down' : 'up'}; change it`, () => change(step, key, !down))),
      cell(
        button('▸', `To the ${name}`, () => this.#model.setStep(step)),
        ' ',
        button('×', `Remove the ${name}`, () => this.#model.setKeys(this.#model.keys.without(step, key))),
      ),
    );
  }
}

function keyOptions(chosen) {
  return Array.from({ length: KEYS }, (_, key) =>
    element('option', { value: String(key), textContent: hex(key, 1).toUpperCase(), selected: key === chosen }),
  );
}
