// The panel of crashes: how far the search is, what it found, and a button that shows it.

import { codeText } from './codes.mjs';
import { byId, element, grouped, setProperty, setText } from './dom.mjs';
import { readKeys } from './key_script.mjs';

export class CrashesView {
  #crashes;
  #model;
  #text = byId('crashes-text');
  #others = byId('crashes-others');
  #show = byId('crashes-show');
  #mine = byId('crashes-mine');
  #switch = byId('crashes-switch');
  #badge = byId('crashes-badge');
  /** The keys that were loaded, while they are those of the model. */
  #loaded = null;

  constructor(crashes, model) {
    this.#crashes = crashes;
    this.#model = model;
    crashes.addEventListener('change', () => this.#draw());
    model.addEventListener('change', ({ detail }) => {
      if (detail === 'keys') this.#draw();
    });
    this.#switch.addEventListener('click', () => (crashes.isBusy ? crashes.stop() : crashes.start()));
    this.#show.addEventListener('click', () => {
      this.showCrash();
      this.#mine.focus();
    });
    this.#mine.addEventListener('click', () => {
      model.undoKeys();
      this.#show.focus();
    });
    this.#draw();
  }

  /** Loads the script under which the machine stops, as one change of the keys, and goes to its step. */
  showCrash() {
    const { found } = this.#crashes.state;
    if (!found?.crash) return;
    const script = readKeys(found.keys);
    this.#model.setFlag({ step: found.crash.step, text: found.crash.cause });
    this.#model.setKeys(script);
    this.#loaded = this.#model.keys;
    this.#model.setStep(found.crash.step);
    this.#draw();
  }

  #draw() {
    const { isBusy, state } = this.#crashes;
    const crash = state.found?.crash ?? null;
    const isLoaded = this.#loaded !== null && this.#model.keys === this.#loaded;
    if (!isLoaded && this.#loaded !== null) {
      this.#loaded = null;
      this.#model.setFlag(null);
    }
    setText(this.#text, textOf(state));
    this.#text.classList.toggle('bad', crash !== null);
    setText(this.#switch, isBusy ? 'Stop' : 'Search');
    setProperty(this.#show, 'disabled', crash === null || isLoaded);
    setProperty(this.#mine, 'disabled', !isLoaded);
    setProperty(this.#badge, 'hidden', crash === null);
    this.#others.replaceChildren(...furtherTexts(state.found).map((textContent) => element('li', { textContent })));
  }
}

/** The other causes that were met, and the stops that could not be excluded, except that of the crash. */
export function furtherTexts(found) {
  if (!found) return [];
  const left = found.left.filter(({ cause, line }) => cause !== found.crash?.cause || line !== found.crash.line);
  return [
    ...found.others.map(({ cause, step }) => `${cause} at step ${grouped(step)}: ${codeText(cause)}`),
    ...left.map(({ cause, address, line }) => `Still possible: ${cause} at ${line === null ? address : `line ${line}`}: ${codeText(cause)}`),
  ];
}

function textOf({ name, step, states, found, why }) {
  const texts = {
    off: 'Searches everything that a player can press for keys that stop the machine, while you go on working.',
    waits: 'The source has changed, so the search starts again.',
    searches: `Searching: up to step ${grouped(step)}, ${grouped(states)} states, no crash so far.`,
    paused: `Paused after a while: ${step > 0 ? `up to step ${grouped(step)}, ${grouped(states)} states, ` : ''}no crash so far. Press Search to go on.`,
    faulty: 'There is no run, because a line has a fault.',
    empty: 'There is no source yet.',
    failed: `The search ended without an answer. ${why}`.trim(),
  };
  if (name !== 'found') return texts[name];
  if (found.crash !== null) {
    const count = found.keys.split('\n').length - 1;
    const line = found.crash.line === null ? '' : `, line ${found.crash.line}`;
    return `${found.crash.cause} at step ${grouped(found.crash.step)}${line}: ${codeText(found.crash.cause)}. ${count === 1 ? 'One key event leads' : `${grouped(count)} key events lead`} there.`;
  }
  if (found.isForAll) return 'Proved: this game can’t crash, with any keys, any random bytes and any speed.';
  return found.within === null ? 'No keys make it stop, at any step.' : `No keys make it stop up to step ${grouped(found.within)}.`;
}
