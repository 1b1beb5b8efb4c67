// The call stack: where the run is, and where each call returns to, with names; and the flag registers.

import { byId, element, setText } from './dom.mjs';
import { hex } from './answers.mjs';

export class CallStackView {
  #place = byId('call-stack');
  #goToLine;
  #told = '';

  constructor(goToLine) {
    this.#goToLine = goToLine;
  }

  /** `machine` is null where there is none. */
  show(machine, { names, map }) {
    const { flags, pc, stack } = machine?.registers ?? { flags: [], stack: [] };
    setText(byId('flags'), machine === null ? '' : `flags ${flags.map((flag) => hex(flag, 2)).join(' ')}`);
    const addresses = machine === null ? [] : [pc, ...stack.toReversed()];
    const told = addresses.map((address, place) => [address, names.told(address), map.lineAt(address), place]);
    if (JSON.stringify(told) === this.#told) return;
    this.#told = JSON.stringify(told);
    this.#place.replaceChildren(...told.map((row) => this.#row(...row)));
  }

  #row(address, name, line, place) {
    const text = element('span', { textContent: `${place === 0 ? 'at' : 'returns to'} ${name ?? `#${hex(address, 3)}`}` });
    if (line === null) return element('li', {}, text);
    const button = element('button', { type: 'button', textContent: `line ${line}` });
    button.addEventListener('click', () => this.#goToLine(line));
    return element('li', {}, text, button);
  }
}
