// The dialog of the settings.

import { byId, setText } from './dom.mjs';
import { machineText, QuirkSwitches } from './quirks.mjs';

/** A longer tape, in digits, is told by its length. */
const TAPE_SHOWN = 12;
/** The default settings. */
const USUAL = { rate: '10', profile: 'schip', quirks: '', every: '1000' };

export class SettingsView {
  #dialog = byId('settings');
  #form = this.#dialog.querySelector('form');
  #model;
  #quirks;

  #appearance;

  constructor(model, appearance) {
    this.#model = model;
    this.#appearance = appearance;
    this.#quirks = new QuirkSwitches(byId('settings-quirks'), this.#form.elements.profile);
    this.#form.addEventListener('submit', (event) => {
      if (event.submitter?.value === 'apply') this.#apply();
    });
    model.addEventListener('change', ({ detail }) => {
      if (detail === 'options') setText(byId('settings-state'), this.#summary());
    });
    const { preset, arrows, letters } = this.#form.elements;
    preset.addEventListener('change', () => this.#takePreset(preset.value));
    for (const field of [arrows, letters]) field.addEventListener('input', () => this.#choosePreset());
    for (const name of ['seed', 'tape']) {
      this.#form.elements[name].addEventListener('input', () => {
        this.#form.elements.random.value = name;
      });
    }
  }

  /** The settings in a few words: the profile and what differs from it, the rate and the random bytes. */
  #summary() {
    const { rate, seed, tape } = this.#model.options;
    const words = [machineText(this.#model.options), `rate ${rate ?? '10'}`];
    if (seed !== undefined) words.push(`seed ${seed}`);
    else if (tape !== undefined) words.push(tape.length > TAPE_SHOWN ? `tape of ${tape.length / 2} bytes` : `tape ${tape}`);
    return words.join(', ');
  }

  open() {
    const { elements } = this.#form;
    const { options } = this.#model;
    elements.rate.value = options.rate ?? '10';
    elements.random.value = 'seed' in options ? 'seed' : 'tape' in options ? 'tape' : 'none';
    elements.seed.value = options.seed ?? '';
    elements.tape.value = options.tape ?? '';
    elements.profile.value = options.profile ?? 'schip';
    this.#quirks.show(options);
    elements.every.value = options.every ?? '1000';
    elements.theme.value = this.#appearance.theme;
    const { screen, arrows, letters } = this.#model.look;
    elements.screen.value = screen;
    elements.arrows.value = arrows;
    elements.letters.checked = letters;
    this.#choosePreset();
    this.#dialog.showModal();
  }

  /** A run is made anew only where its settings are others. */
  #apply() {
    const { theme, screen, arrows, letters } = this.#form.elements;
    this.#appearance.choose({ theme: theme.value });
    this.#model.setLook({ screen: screen.value, arrows: arrows.value.toLowerCase(), letters: letters.checked });
    const chosen = this.#chosen();
    const same = (one, other) => JSON.stringify(Object.entries({ ...USUAL, ...one }).sort()) === JSON.stringify(Object.entries({ ...USUAL, ...other }).sort());
    if (!same(chosen, this.#model.options)) this.#model.setOptions(chosen);
  }

  /** The preset that the arrows have, if it is one. */
  #choosePreset() {
    const { preset, arrows, letters } = this.#form.elements;
    const name = `${arrows.value}${letters.checked ? ' letters' : ''}`;
    preset.value = [...preset.options].some((option) => option.value === name) ? name : 'own';
  }

  #takePreset(name) {
    if (name === 'own') return;
    const { arrows, letters } = this.#form.elements;
    [arrows.value, letters.checked] = [name.split(' ')[0], name.endsWith(' letters')];
  }

  #chosen() {
    const { elements } = this.#form;
    const random = elements.random.value;
    const options = { rate: elements.rate.value };
    if (random !== 'none' && elements[random].value !== '') options[random] = elements[random].value;
    for (const name of ['profile', 'every']) options[name] = elements[name].value;
    if (this.#quirks.list !== '') options.quirks = this.#quirks.list;
    return options;
  }
}
