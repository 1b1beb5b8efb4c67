// Registers and timers, with what the step before changed marked.

import { byId, element, setText, setTitle } from './dom.mjs';
import { hex } from './answers.mjs';

/** The fields that are shown, in order: a name, its text in the registers of a machine, and what it means where the name doesn't say. */
/** @type {any[]} */
const SMALL = Array.from({ length: 16 }, (_, number) => [`V${hex(number, 1).toUpperCase()}`, ({ v }) => hex(v[number], 2)]);
/** @type {any[]} */
const OTHERS = [
  ['pc', ({ pc }) => hex(pc, 4), '', ({ pc }) => pc],
  ['I', ({ i }) => hex(i, 4), '', ({ i }) => i],
  ['DT', ({ dt }) => hex(dt, 2), 'the delay timer'],
  ['ST', ({ st }) => hex(st, 2), 'the sound timer'],
  ['rnd', ({ draws }) => draws, 'random bytes used so far'],
  ['state', ({ state }) => state, 'run, or why it stopped'],
];
/** What an edit may change besides. */
/** @type {any[]} */
const ELSEWHERE = [['size', ({ size }) => size], ['flags', ({ flags }) => flags.join()], ['stack', ({ stack }) => stack.join()]];
/** The registers that a phone has no room for. */
const FEW = ['rnd', 'state'];

/** The names of the fields that differ between two machines. */
export function fieldsApart(one, other) {
  return [...SMALL, ...OTHERS, ...ELSEWHERE].filter(([, text]) => text(one) !== text(other)).map(([name]) => name);
}

export class RegistersView {
  #cells = [];

  constructor() {
    byId('registers').append(element('dl', {}, ...[...SMALL, ...OTHERS].map((field) => this.#cell(field))));
  }

  #cell([title, text, meaning = '', address = null]) {
    const value = element('dd', { textContent: '–' });
    const name = element('dd', { className: 'name' });
    const kind = [address !== null && 'wide', FEW.includes(title) && 'few'].filter(Boolean).join(' ');
    // what the state is needs no name
    const head = element('dt', { className: title === 'state' ? 'unseen' : '', textContent: title });
    const cell = element('div', { className: kind }, head, value, ...(address === null ? [] : [name]));
    this.#cells.push({ text, meaning, address, cell, value, name });
    return cell;
  }

  /** `machine` is null where there is none. */
  show(machine, { names }) {
    for (const { text, meaning, address, cell, value, name } of this.#cells) {
      if (machine === null) {
        for (const part of [value, name]) setText(part, part === value ? '–' : '');
        cell.classList.remove('changed');
        setTitle(cell, meaning);
        continue;
      }
      const { registers, before } = machine;
      const now = text(registers);
      const was = before === null ? now : text(before.registers);
      setText(value, now);
      cell.classList.toggle('changed', now !== was);
      const label = address === null ? '' : (names.at(address(registers)) ?? '');
      setText(name, label);
      setTitle(cell, describe(meaning || label, now, was));
    }
  }
}

function describe(meaning, now, was) {
  const decimal = /^[0-9a-f]{2}$|^[0-9a-f]{4}$/.test(now) ? `${parseInt(now, 16)} in decimal` : '';
  const change = now === was ? '' : `${was} before the last step`;
  return [meaning, decimal, change].filter(Boolean).join('; ');
}
