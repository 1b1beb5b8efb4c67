// Runs on, or back, to a breakpoint, over a call, or out of one.

import { byId } from './dom.mjs';
import { subject } from './finder.mjs';

export class RunControl {
  #editor;
  #search;
  #machine;
  #result = byId('run-result');

  /** `search` looks for steps; `machine()` is the machine at the step looked at, once it is known. */
  constructor(editor, { search, machine }) {
    this.#editor = editor;
    this.#search = search;
    this.#machine = machine;
    for (const button of document.querySelectorAll('[data-run]')) button.addEventListener('click', () => this.run(button.dataset.run));
  }

  /** `break-on`, `over`, `out`, and `break-back`, `over-back`, `out-back`. */
  async run(name) {
    const forward = !name.endsWith('-back');
    const machine = await this.#machine();
    if (machine.code !== null) return this.#tell('there is no run, because a line has a fault');
    if (name.startsWith('break')) return this.#toBreakpoint(forward);
    const frames = machine.registers.stack.length;
    const most = name.startsWith('out') ? frames - 1 : frames;
    if (most < 0) return this.#tell('the call stack is empty');
    return this.#find(forward, { of: subject('frames'), relation: 'is', wanted: Array.from({ length: most + 1 }, (_, count) => count) });
  }

  /** The addresses of the lines with breakpoints. */
  get breakAddresses() {
    return this.#editor.breakpoints.lines.map((line) => this.#editor.listing[line - 1]?.address ?? null).filter((address) => address !== null);
  }

  #toBreakpoint(forward) {
    const addresses = this.breakAddresses;
    if (addresses.length === 0) return this.#tell('there is no breakpoint on a line with an address: press a line\'s number, or F9 in the source');
    return this.#find(forward, { of: subject('pc'), relation: 'is', wanted: addresses });
  }

  async #find(forward, question) {
    this.#tell('');
    this.#tell(await this.#search.find(forward, question));
  }

  /** Removes a message about a step once another step is shown. */
  forget() {
    this.#tell('');
  }

  tell(text) {
    this.#tell(text);
  }

  #tell(text) {
    this.#result.textContent = text ?? '';
  }
}
