// The panel of the properties: each with its answer, and a button that shows the play that breaks it, with the values that it names.

import { byId, element, grouped, setProperty, setText } from './dom.mjs';
import { readKeys } from './key_script.mjs';
import { answerText, isBad, scriptOf } from './properties.mjs';
import { namedValues } from './property_line.mjs';

const WITHOUT = 'The source has no property. Write one, such as `;! V0 <= 63 here` before an instruction.';

export class PropertiesView {
  #properties;
  #model;
  #machine;
  #goToLine;
  #text = byId('properties-text');
  #rows = byId('properties-rows');
  #mine = byId('properties-mine');
  #switch = byId('properties-switch');
  #badge = byId('properties-badge');
  /** The keys that were loaded, while they are those of the model, and the answer that they belong to. */
  #loaded = null;
  #shown = null;
  #drawn = '';
  #isInSight;

  /**
   * `machine()` is the machine that is shown, with the names of its source; `goToLine(line)` goes to a line of the source;
   * `isInSight()` says whether the panel is.
   */
  constructor(properties, { model, machine, goToLine, isInSight }) {
    this.#properties = properties;
    this.#model = model;
    this.#machine = machine;
    this.#goToLine = goToLine;
    this.#isInSight = isInSight;
    properties.addEventListener('change', () => this.#draw());
    model.addEventListener('change', ({ detail }) => {
      if (detail === 'keys' || detail === 'text') this.#draw();
    });
    this.#switch.addEventListener('click', () => (properties.isBusy ? properties.stop() : properties.start()));
    this.#mine.addEventListener('click', () => {
      const line = this.#shown?.line;
      model.undoKeys();
      this.#rows.querySelector(`[data-line="${line}"]`)?.focus();
    });
  }

  /** Draws the panel, which came into sight, or whose machine is another one. */
  show() {
    this.#draw();
  }

  /** Loads the script of an answer, as one change of the keys, and goes to its step. */
  #show(answer) {
    this.#model.setFlag({ step: answer.step, text: answer.property });
    this.#model.setKeys(readKeys(scriptOf(answer)));
    this.#loaded = this.#model.keys;
    this.#shown = answer;
    this.#model.setStep(answer.step);
    this.#draw();
    this.#mine.focus();
  }

  /** The values at the step that is shown, where the play is that of an answer. */
  #showValues() {
    const place = this.#rows.querySelector('.values');
    const { machine, symbols } = this.#machine();
    if (place === null || this.#shown === null || machine === null || machine.code !== null) return;
    const values = namedValues(this.#shown.property, machine, symbols).map(([name, value]) => `${name} = ${value}`);
    setText(place, `At step ${grouped(machine.step)}: ${values.join(', ') || 'it names no value'}`);
  }

  #draw() {
    const { isBusy, state } = this.#properties;
    if (this.#loaded !== null && this.#model.keys !== this.#loaded) {
      [this.#loaded, this.#shown] = [null, null];
      this.#model.setFlag(null);
    }
    const broken = [...(state.found?.answers.values() ?? [])].filter(isBad);
    setProperty(this.#badge, 'hidden', broken.length === 0);
    setText(this.#badge, String(broken.length));
    if (!this.#isInSight()) return;
    const { stated } = this.#properties;
    setText(this.#text, textOf(state, stated.length));
    setText(this.#switch, isBusy ? 'Stop' : 'Search');
    setProperty(this.#mine, 'disabled', this.#loaded === null);
    const drawn = JSON.stringify([stated, state.name, [...(state.found?.answers ?? [])], [...(state.found?.faults ?? [])], this.#shown?.line]);
    // a row that stays the same keeps the focus
    if (drawn !== this.#drawn) this.#rows.replaceChildren(...stated.map((one) => this.#row(one, state)));
    this.#drawn = drawn;
    this.#showValues();
  }

  #row({ line, text }, { name, found }) {
    const answer = found?.answers.get(line);
    const fault = found?.faults.get(line);
    const told = fault !== undefined ? `${fault.code}: ${[fault.message, ...fault.help].join('; ')}` : answer === undefined ? pending(name) : answerText(answer, grouped);
    const to = element('button', { type: 'button', className: 'line', textContent: `${line}`, title: `To line ${line}` });
    to.setAttribute('aria-label', `To line ${line}`);
    to.addEventListener('click', () => this.#goToLine(line));
    const isShown = answer !== undefined && this.#shown === answer;
    const show = element('button', { type: 'button', className: 'bordered', textContent: 'Show', title: 'Loads the keys, and goes to the step', disabled: isShown });
    show.setAttribute('aria-label', `Show the play of line ${line}`);
    show.hidden = answer?.keys === undefined;
    show.dataset.line = line;
    show.addEventListener('click', () => this.#show(answer));
    const isWrong = fault !== undefined || (answer !== undefined && isBad(answer));
    const values = isShown ? [element('p', { className: 'values' })] : [];
    return element('li', {}, to, element('code', { textContent: text }), show, element('p', { className: isWrong ? 'bad' : 'hint', textContent: told }), ...values);
  }
}

const pending = (name) => (['searches', 'paused'].includes(name) ? 'not broken so far' : '');

function textOf({ name, step, states, found, why }, count) {
  const texts = {
    off: 'Searches everything that a player can press for keys that break a property, while you go on working.',
    waits: 'The source has changed, so the search starts again.',
    searches: `Searching: up to step ${grouped(step)}, ${grouped(states)} states.`,
    paused: `Paused after a while${step > 0 ? `: up to step ${grouped(step)}, ${grouped(states)} states` : ''}. Press Search to go on.`,
    faulty: 'There is no run, because a line has a fault.',
    empty: WITHOUT,
    failed: `The search ended without an answer. ${why}`.trim(),
  };
  if (name !== 'found') return texts[name];
  const ways = found.ending?.out_of_memory ? ' Memory ran out.' : '';
  return `${count === 1 ? 'One property' : `${grouped(count)} properties`}, ${grouped(found.ending?.states ?? 0)} states.${ways}`;
}
