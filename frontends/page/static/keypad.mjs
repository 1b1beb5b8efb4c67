// The sixteen keys, in their places on the machine, and the keys of the keyboard that stand for them.

import { byId, element, setAttribute } from './dom.mjs';
import { hex } from './answers.mjs';

const PLACES = [0x1, 0x2, 0x3, 0xc, 0x4, 0x5, 0x6, 0xd, 0x7, 0x8, 0x9, 0xe, 0xa, 0x0, 0xb, 0xf];
const CODES = [
  ...['Digit1', 'Digit2', 'Digit3', 'Digit4', 'KeyQ', 'KeyW', 'KeyE', 'KeyR'],
  ...['KeyA', 'KeyS', 'KeyD', 'KeyF', 'KeyZ', 'KeyX', 'KeyC', 'KeyV'],
];

/** The key that a key of the keyboard stands for, or null; by its place, not its letter. */
export function keyOf(code) {
  const place = CODES.indexOf(code);
  return place < 0 ? null : PLACES[place];
}

export class Keypad {
  #buttons = new Map();

  constructor(player) {
    const pad = byId('keypad');
    PLACES.forEach((key, place) => {
      const name = hex(key, 1).toUpperCase();
      const button = element('button', { type: 'button' }, name, element('small', { textContent: CODES[place].slice(-1) }));
      button.setAttribute('aria-label', `Key ${name}`);
      button.setAttribute('aria-pressed', 'false');
      button.addEventListener('pointerdown', (event) => {
        if (event.button !== 0) return;
        button.setPointerCapture(event.pointerId);
        player.press(key);
      });
      for (const name of ['pointerup', 'pointercancel']) button.addEventListener(name, () => player.release(key));
      // a click without a pointer comes from the keyboard
      button.addEventListener('click', (event) => {
        if (event.detail !== 0) return;
        player.press(key);
        player.release(key);
      });
      this.#buttons.set(key, button);
      pad.append(button);
    });
  }

  /** Which keys are down at a step. */
  show(keys, step) {
    const held = keys.held(step);
    for (const [key, button] of this.#buttons) setAttribute(button, 'aria-pressed', String(held[key]));
  }
}
