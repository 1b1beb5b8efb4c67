// The names that stand for addresses.

import { hex } from './answers.mjs';

/** How far from a label an address is still told by it. */
const FARTHEST = 256;

export class Names {
  /** The labels in the order of their addresses. */
  #labels;

  /** Of the names of the source, and its listing: a label is a name whose line stands at its value. */
  constructor(symbols = [], listing = []) {
    const isLabel = ({ value, line }) => listing[line - 1]?.address === value && !listing[line - 1].field.startsWith('=');
    this.#labels = symbols.filter(isLabel).sort((one, other) => one.value - other.value);
  }

  /** The label of an address, such as `LOOP`, or the label before it with the distance, `LOOP+4`; null where none is near. */
  at(address) {
    let [low, high] = [0, this.#labels.length];
    while (low < high) {
      const middle = (low + high) >> 1;
      if (this.#labels[middle].value <= address) low = middle + 1;
      else high = middle;
    }
    const label = this.#labels[low - 1];
    if (label === undefined || address - label.value > FARTHEST) return null;
    return address === label.value ? label.name : `${label.name}+${address - label.value}`;
  }

  /** An address with its name, such as `#204 LOOP+2`. */
  told(address) {
    const name = this.at(address);
    return name === null ? `#${hex(address, 3)}` : `#${hex(address, 3)} ${name}`;
  }
}
