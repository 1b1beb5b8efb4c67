// A tone while the run plays and ST is above 0. Off at first; the browser keeps it as it was set.

import { byId } from './dom.mjs';

const KEPT = 'chipbench-page, sound';
const HERTZ = 440;
const LOUDNESS = 0.08;
const FADE_SECONDS = 0.01;

export class Sound {
  #button = byId('sound');
  #context = null;
  #volume = null;

  constructor() {
    this.#button.addEventListener('click', () => this.#turn(!this.isOn));
    this.#button.setAttribute('aria-pressed', String(kept()));
    // a browser lets a page sound once something was pressed
    for (const name of ['pointerdown', 'keydown']) document.addEventListener(name, () => this.isOn && this.#begin(), { capture: true });
  }

  get isOn() {
    return this.#button.getAttribute('aria-pressed') === 'true';
  }

  #turn(isOn) {
    this.#button.setAttribute('aria-pressed', String(isOn));
    try {
      localStorage.setItem(KEPT, isOn ? 'on' : 'off');
    } catch {
      // it is then off the next time
    }
    if (isOn) this.#begin();
    else this.sound(false);
  }

  #begin() {
    if (this.#context !== null) return;
    this.#context = new AudioContext();
    this.#volume = new GainNode(this.#context, { gain: 0 });
    const tone = new OscillatorNode(this.#context, { type: 'square', frequency: HERTZ });
    tone.connect(this.#volume).connect(this.#context.destination);
    tone.start();
  }

  /** Sounds, or is silent. */
  sound(sounds) {
    const gain = sounds && this.isOn ? LOUDNESS : 0;
    this.#button.classList.toggle('sounds', gain > 0);
    if (this.#context !== null) this.#volume.gain.setTargetAtTime(gain, this.#context.currentTime, FADE_SECONDS);
  }
}

function kept() {
  try {
    return localStorage.getItem(KEPT) === 'on';
  } catch {
    return false;
  }
}
