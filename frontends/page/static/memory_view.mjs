// A page of the memory in hexadecimal, with what the step before changed marked.

import { byId, element, setText, setTitle } from './dom.mjs';
import { hex } from './answers.mjs';

const ROWS = 16;
const MEMORY = 4096;
const NARROW = 375;

export class MemoryView {
  #place = byId('memory');
  #from = byId('memory-from');
  #follow = byId('memory-follow');
  #changes = byId('memory-changes');
  #start = 0x200;
  #columns = 0;
  #heads = [];
  #cells = [];
  #machine = null;
  #names = null;
  #readAddress;

  /** `readAddress(text)` is the number that a text says, or null. */
  constructor(readAddress) {
    this.#readAddress = readAddress;
    this.#from.addEventListener('change', () => {
      const address = this.#readAddress(this.#from.value);
      this.#goTo(address ?? this.#start);
    });
    byId('memory-back').addEventListener('click', () => this.#goTo(this.#start - this.#size));
    byId('memory-on').addEventListener('click', () => this.#goTo(this.#start + this.#size));
    this.#follow.addEventListener('change', () => this.#draw());
    new ResizeObserver(() => this.#shape()).observe(this.#place);
  }

  get #size() {
    return ROWS * this.#columns;
  }

  #goTo(address) {
    this.#follow.value = '';
    this.#setStart(address);
    this.#draw();
  }

  #setStart(address) {
    const start = Math.max(0, Math.min(MEMORY - this.#size, address));
    this.#start = start - (start % (this.#columns || 16));
    if (document.activeElement !== this.#from) this.#from.value = `#${hex(this.#start, 3)}`;
  }

  /** `machine` is null where there is none. */
  show(machine, { names }) {
    this.#machine = machine;
    this.#names = names;
    this.#draw();
  }

  #draw() {
    const machine = this.#machine;
    if (machine === null) {
      setText(this.#changes, '');
      for (const cell of this.#cells) {
        setText(cell, '');
        cell.className = '';
        setTitle(cell, '');
      }
      return;
    }
    const changed = changedAddresses(machine);
    this.#tellChanges(changed);
    const followed = { pc: machine.registers.pc, i: machine.registers.i, changes: changed[0] }[this.#follow.value];
    const outside = (address) => address < this.#start || address >= this.#start + this.#size;
    this.#setStart(followed !== undefined && outside(followed) ? followed - 2 * this.#columns : this.#start);
    const marked = new Set(changed);
    this.#heads.forEach((head, row) => setText(head, hex(this.#start + row * this.#columns, 4)));
    this.#cells.forEach((cell, place) => this.#drawCell(cell, this.#start + place, machine, marked));
  }

  #drawCell(cell, address, { memory, registers }, changed) {
    setText(cell, hex(memory[address], 2));
    const marks = [
      memory[address] === 0 && 'zero',
      changed.has(address) && 'changed',
      (address === registers.pc || address === registers.pc + 1) && 'pc',
      address === registers.i && 'i',
    ];
    const name = marks.filter(Boolean).join(' ');
    if (cell.className !== name) cell.className = name;
    const label = this.#names.at(address) ?? '';
    setTitle(cell, label);
  }

  /** Makes the cells anew where there is room for other columns. */
  #shape() {
    const columns = this.#place.clientWidth < NARROW ? 8 : 16;
    if (columns === this.#columns) return;
    this.#columns = columns;
    this.#heads = Array.from({ length: ROWS }, () => element('th', { scope: 'row' }));
    this.#cells = Array.from({ length: this.#size }, () => element('td'));
    const rows = this.#heads.map((head, row) => element('tr', {}, head, ...this.#cells.slice(row * columns, (row + 1) * columns)));
    const table = element('table', {}, element('tbody', {}, ...rows));
    table.setAttribute('aria-label', 'Memory in hexadecimal');
    this.#place.replaceChildren(table);
    this.#setStart(this.#start);
    this.#draw();
  }

  #tellChanges(changed) {
    if (changed.length === 0) {
      setText(this.#changes, '');
      return;
    }
    const [first, last] = [changed[0], changed[changed.length - 1]];
    const where = first === last ? this.#names.told(first) : `${this.#names.told(first)} to #${hex(last, 3)}`;
    const button = element('button', { type: 'button', textContent: where });
    button.addEventListener('click', () => this.#goTo(first - (first % this.#columns)));
    this.#changes.replaceChildren('the step before wrote ', button);
  }
}

function changedAddresses({ memory, before }) {
  const changed = [];
  if (before === null) return changed;
  for (let address = 0; address < MEMORY; address += 1) {
    if (memory[address] !== before.memory[address]) changed.push(address);
  }
  return changed;
}
