// The keys of the keyboard.

import { takesText } from './dom.mjs';
import { keyOf } from './keypad.mjs';
import { ARROWS, mappedKey } from './look.mjs';

/** Keys that move or play, by their place on the keyboard; with Shift where a second name stands. */
const BY_PLACE = {
  Comma: ['back', 'back-frame'],
  Period: ['on', 'on-frame'],
  KeyJ: ['back-thousand'],
  KeyL: ['on-thousand'],
  KeyK: ['play'],
  KeyB: ['play-back'],
  KeyN: ['break-on', 'break-back'],
  KeyM: ['over', 'over-back'],
  KeyU: ['out', 'out-back'],
};

/** Keys that do so outside texts alone, by what they type. */
const BY_NAME = {
  ArrowLeft: ['back', 'back-frame'],
  ArrowRight: ['on', 'on-frame'],
  ' ': ['play'],
  '[': ['event-before'],
  ']': ['event-after'],
  g: ['to-step'],
  G: ['to-step'],
  o: ['to-source'],
  O: ['to-source'],
  t: ['to-timeline'],
  T: ['to-timeline'],
  '/': ['to-search'],
  i: ['to-panel'],
  I: ['to-panel'],
  '?': ['help'],
};

/**
 * Calls `act(name)` for the keys above; the sixteen keys go to the player while the run plays, and where `editsKeys()` says that they
 * are being edited. While it plays, so do the arrow keys, by the look of the game; without such a look they do nothing then, so that
 * none of them ends the play.
 */
export function listen({ player, look, act, editsKeys }) {
  const down = new Map();
  const isBusy = (event) => event.defaultPrevented || event.isComposing || document.querySelector('dialog[open]') !== null;
  const press = (event, key) => {
    event.preventDefault();
    if (event.repeat) return;
    down.set(event.code, key);
    player.press(key);
  };
  const hasModifier = (event) => event.ctrlKey || event.altKey || event.metaKey;
  // before a timeline or a list of tabs takes the arrows, or a list a letter
  document.addEventListener('keydown', (event) => {
    if (isBusy(event) || player.direction <= 0 || isTyped(event) || hasModifier(event) || event.shiftKey) return;
    const key = mappedKey(look(), event.code) ?? (takesText(event.target) ? keyOf(event.code) : null);
    if (key === null && !ARROWS.includes(event.code)) return;
    event.stopPropagation();
    if (key === null) event.preventDefault();
    else press(event, key);
  }, { capture: true });
  document.addEventListener('keydown', (event) => {
    if (isBusy(event)) return;
    const name = actionOf(event);
    if (name !== undefined) {
      event.preventDefault();
      act(name);
      return;
    }
    const key = keyOf(event.code);
    if (key === null || hasModifier(event) || takesText(event.target)) return;
    // a run that stands is changed where its keys are in sight
    if (player.direction > 0 || editsKeys()) press(event, key);
    else act('tell-keys');
  });
  document.addEventListener('keyup', (event) => {
    const key = down.get(event.code);
    if (key === undefined) return;
    down.delete(event.code);
    player.release(key);
  });
  // what is typed into a text isn't for the game, which waits for it
  document.addEventListener('focusin', ({ target }) => {
    if (player.direction > 0 && fieldOf(target) === 'text') player.pause('what you type goes into the field');
  });
  addEventListener('blur', () => {
    for (const key of down.values()) player.release(key);
    down.clear();
  });
}

/** What a field is: a text, a number, or a choice such as a list; null for what isn't one. The source is a text that may be edited while it plays. */
function fieldOf(target) {
  if (target instanceof HTMLSelectElement) return 'choice';
  if (!(target instanceof HTMLInputElement)) return null;
  return ['checkbox', 'radio'].includes(target.type) ? 'choice' : target.type === 'number' ? 'number' : 'text';
}

/** Whether a key is for the field with the focus, while a game plays: a choice leaves the game its keys, a number all but digits. */
function isTyped({ target, code }) {
  const field = fieldOf(target);
  return field === 'number' ? /^(?:Digit|Numpad)/.test(code) : takesText(target) && field !== 'choice';
}

function actionOf(event) {
  const inText = takesText(event.target);
  const control = event.ctrlKey || event.metaKey;
  if (event.key === 'F8') return event.shiftKey ? 'fault-before' : 'next-fault';
  if (event.key === 'F1') return 'explain';
  if (event.key === 'F9') return 'breakpoint';
  if (event.key === 'F3') return event.shiftKey ? 'find-back' : 'find-on';
  const withControl = { KeyS: 'save', KeyF: 'find', KeyH: 'replace', KeyG: 'to-line' }[event.code];
  if (control && !event.altKey && !event.shiftKey && withControl !== undefined) return withControl;
  if (event.key === 'Enter' && event.altKey && inText) return 'fix';
  if (control && !event.altKey && event.code === 'KeyZ') return inText ? undefined : event.shiftKey ? 'redo' : 'undo';
  if (control && !event.altKey && event.code === 'KeyY') return inText ? undefined : 'redo';
  if (control || event.metaKey) return undefined;
  if (event.key === 'Escape' && inText) return 'to-timeline';
  const byPlace = BY_PLACE[event.code];
  if (byPlace !== undefined && event.altKey === inText) return byPlace[event.shiftKey ? 1 : 0];
  if (inText || event.altKey) return undefined;
  // a button that has the focus keeps its Space
  if (event.key === ' ' && event.target instanceof HTMLElement && event.target.matches('button, summary, input, a')) return undefined;
  const byName = BY_NAME[event.key];
  return byName === undefined ? undefined : (byName[event.shiftKey ? 1 : 0] ?? byName[0]);
}
