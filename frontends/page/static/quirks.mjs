// The quirks of a machine: those of its profile, but for the choices of a list, as `--quirks` takes it.

import { element } from './dom.mjs';
import { PROFILES, QUIRKS } from './quirk_table.mjs';

const USUAL = 'schip';

const profileOf = (name) => PROFILES[name] ?? PROFILES[USUAL];

/** The value of each quirk. */
export function quirksOf({ profile = USUAL, quirks = '' }) {
  const choices = quirks.split(',').map((choice) => choice.split('='));
  return { ...profileOf(profile), ...Object.fromEntries(choices.filter(([name, value]) => Object.hasOwn(QUIRKS, name) && Object.hasOwn(QUIRKS[name], value))) };
}

/** The list of those that aren't the profile's, in the order of the quirks; the empty text where all are. */
export function listOf(profile, values) {
  const usual = profileOf(profile);
  return Object.keys(QUIRKS).filter((name) => values[name] !== usual[name]).map((name) => `${name}=${values[name]}`).join(',');
}

/** The machine in a few words, such as `octo, edges=clip`. */
export function machineText({ profile = USUAL, quirks }) {
  return quirks ? `${profile}, ${quirks.replaceAll(',', ', ')}` : profile;
}

/** A switch for each quirk, below the choice of a profile, which sets them all. */
export class QuirkSwitches {
  #profile;
  #switches;

  constructor(place, profile) {
    this.#profile = profile;
    this.#switches = Object.fromEntries(Object.keys(QUIRKS).map((name) => [name, switchOf(name)]));
    for (const choice of Object.values(this.#switches)) {
      place.append(element('label', {}, choice.ariaLabel, choice));
      choice.addEventListener('change', () => this.#mark());
    }
    profile.addEventListener('change', () => this.show({ profile: profile.value }));
  }

  /** Shows the quirks of these settings. */
  show(options) {
    for (const [name, value] of Object.entries(quirksOf(options))) this.#switches[name].value = value;
    this.#mark();
  }

  /** The list of those that aren't the profile's. */
  get list() {
    return listOf(this.#profile.value, Object.fromEntries(Object.entries(this.#switches).map(([name, { value }]) => [name, value])));
  }

  /** Each switch tells what its value is for, and whether it is another one than the profile's. */
  #mark() {
    const usual = profileOf(this.#profile.value);
    for (const [name, choice] of Object.entries(this.#switches)) {
      choice.title = QUIRKS[name][choice.value];
      choice.classList.toggle('changed', choice.value !== usual[name]);
    }
  }
}

function switchOf(name) {
  const values = Object.entries(QUIRKS[name]).map(([value, effect]) => element('option', { value, textContent: value, title: effect }));
  return element('select', { name: `quirk-${name}`, ariaLabel: name }, ...values);
}
