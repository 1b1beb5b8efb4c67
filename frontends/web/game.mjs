// A game in one file: its screen, its keys and its sound, played by the proved session. A clock says at which step the
// game is, and each key that goes down or up is an event of that step.
import { PROFILES, Session, STATUS } from './session.mjs';

const TICKS = 60;
const LAST_STEP = 1_000_000;
const HERTZ = 440;
const LOUDNESS = 0.05;
const WIDTH = 128;
const HEIGHT = 64;
// the keypad's keys row by row, and the keys of a keyboard that stand as they do
const KEYPAD = [1, 2, 3, 12, 4, 5, 6, 13, 7, 8, 9, 14, 10, 0, 11, 15];
const CODES = ['Digit1', 'Digit2', 'Digit3', 'Digit4', 'KeyQ', 'KeyW', 'KeyE', 'KeyR', 'KeyA', 'KeyS', 'KeyD', 'KeyF', 'KeyZ', 'KeyX', 'KeyC', 'KeyV'];
// for up, left, down and right, where nothing else is said
const ARROWS = '5789';
const ARROW_CODES = ['ArrowUp', 'ArrowLeft', 'ArrowDown', 'ArrowRight'];
const LETTER_CODES = ['KeyW', 'KeyA', 'KeyS', 'KeyD'];

const encoder = new TextEncoder();
const decoder = new TextDecoder();
const byId = (id) => document.getElementById(id);

// The game's session: key events, and the screen and the timers at a step.
export class Game {
  constructor(module, { source, rate, tape, profile, quirks }) {
    this.session = new Session(new WebAssembly.Instance(module, {}).exports);
    this.rate = rate;
    const bytes = Uint8Array.from(source, (character) => character.charCodeAt(0));
    const status = this.session.open(bytes, { rate, profile: PROFILES.includes(profile) ? profile : 'schip', quirks, tape: Uint8Array.from(tape.match(/../g), (digits) => parseInt(digits, 16)) });
    if (status !== STATUS.done) throw new Error(`the game doesn't open: status ${status}`);
    this.held = new Set();
    this.step = 0;
  }

  ask(command) {
    const answer = this.session.answer(encoder.encode(command));
    if (answer === null) throw new Error('out of memory');
    return decoder.decode(answer);
  }

  // A key goes down or up from the next step on, or one step later where it has just changed.
  key(key, isDown) {
    if (this.held.has(key) === isDown) return;
    const way = isDown ? 'down' : 'up';
    if (this.ask(`kins ${this.step + 1} ${key} ${way}`) !== 'ok\n') this.ask(`kins ${this.step + 2} ${key} ${way}`);
    if (isDown) this.held.add(key);
    else this.held.delete(key);
  }

  // The size and the lit rows of the screen, and whether there is a tone.
  at(step) {
    this.step = Math.min(step, LAST_STEP);
    const [size, ...rows] = this.ask(`screen ${this.step}`).trimEnd().split('\n').slice(0, -1);
    const state = this.ask(`regs ${this.step}`);
    const [, sound] = / st (\w\w)/.exec(state);
    return { size, rows: rows.map((row) => [Number(row.slice(0, 2)), BigInt(`0x${row.slice(3)}`)]), sounds: sound !== '00' };
  }
}

// The keys of the game by the codes of a keyboard.
function keysOf({ arrows, letters }) {
  const keys = { ...Object.fromEntries(CODES.map((code, place) => [code, KEYPAD[place]])), Space: 6 };
  for (const codes of letters ? [ARROW_CODES, LETTER_CODES] : [ARROW_CODES]) {
    codes.forEach((code, place) => {
      keys[code] = parseInt((arrows || ARROWS)[place], 16);
    });
  }
  return keys;
}

class Tone {
  constructor() {
    this.context = new AudioContext();
    this.volume = new GainNode(this.context, { gain: 0 });
    const tone = new OscillatorNode(this.context, { type: 'square', frequency: HERTZ });
    tone.connect(this.volume).connect(this.context.destination);
    tone.start();
  }

  sound(sounds) {
    this.volume.gain.setTargetAtTime(sounds ? LOUDNESS : 0, this.context.currentTime, 0.005);
  }
}

export class Player {
  constructor(module, about) {
    this.begin = () => new Game(module, about);
    this.keys = keysOf(about);
    this.game = this.begin();
    this.steps = 0;
    this.then = null;
    this.tone = null;
    this.canvas = byId('screen').getContext('2d');
    this.listen();
    requestAnimationFrame((now) => this.frame(now));
  }

  listen() {
    for (const [name, isDown] of [['keydown', true], ['keyup', false]]) {
      document.addEventListener(name, (event) => {
        const key = this.keys[event.code];
        if (key === undefined || event.ctrlKey || event.metaKey || event.altKey) return;
        event.preventDefault();
        if (!event.repeat) this.game.key(key, isDown);
      });
    }
    globalThis.addEventListener('blur', () => [...this.game.held].forEach((key) => this.game.key(key, false)));
    KEYPAD.forEach((key) => byId('keys').append(this.button(key)));
    byId('again').addEventListener('click', () => {
      this.game = this.begin();
      this.steps = 0;
    });
    byId('sound').addEventListener('change', () => {
      this.tone ??= new Tone();
    });
  }

  // A key to touch, or to press with a pointer.
  button(key) {
    const button = document.createElement('button');
    button.textContent = key.toString(16).toUpperCase();
    button.addEventListener('pointerdown', (event) => {
      event.preventDefault();
      button.setPointerCapture(event.pointerId);
      this.game.key(key, true);
    });
    for (const name of ['pointerup', 'pointercancel']) button.addEventListener(name, () => this.game.key(key, false));
    return button;
  }

  // Goes on as far as time has gone on, and by no more than a tenth of a second.
  frame(now) {
    if (!byId('pause').checked && this.then !== null) {
      this.steps += Math.min((now - this.then) / 1000, 0.1) * TICKS * this.game.rate;
      const { size, rows, sounds } = this.game.at(Math.floor(this.steps));
      this.draw(size, rows);
      this.tone?.sound(sounds && byId('sound').checked);
    } else this.tone?.sound(false);
    this.then = now;
    requestAnimationFrame((next) => this.frame(next));
  }

  draw(size, rows) {
    byId('screen').dataset.size = size;
    this.canvas.fillStyle = '#10181c';
    this.canvas.fillRect(0, 0, WIDTH, HEIGHT);
    this.canvas.fillStyle = '#b8f0c8';
    for (const [row, lit] of rows) {
      for (let column = 0; column < WIDTH; column += 1) {
        if ((lit >> BigInt(WIDTH - 1 - column)) & 1n) this.canvas.fillRect(column, row, 1, 1);
      }
    }
  }
}
