// Whether the browser keeps what is kept here until the author deletes it. Unasked it may delete all of it where the disk is nearly full.

const ASKED = 'chipbench-page asked to keep';

/** Tells `change` where the answer is another one. */
export class LastingStorage extends EventTarget {
  #storage;

  /** true or false; null where the browser doesn't say, or hasn't said yet. */
  isLasting = null;

  constructor(storage = globalThis.navigator?.storage) {
    super();
    this.#storage = storage;
    this.#take('persisted');
  }

  /** Asks the browser to keep it, once in a tab. Some browsers then ask the author, so there has to be something to keep. */
  async ask() {
    if (this.isLasting !== false || wasAsked()) return;
    await this.#take('persist');
  }

  async #take(what) {
    const before = this.isLasting;
    try {
      this.isLasting = (await this.#storage?.[what]?.()) ?? before;
    } catch {
      // a page without an origin of its own, such as a file in some browsers, can't ask
    }
    if (this.isLasting !== before) this.dispatchEvent(new Event('change'));
  }
}

/** Whether this tab has asked; from now on it has. */
function wasAsked() {
  try {
    if (sessionStorage.getItem(ASKED) !== null) return true;
    sessionStorage.setItem(ASKED, '1');
    return false;
  } catch {
    return true;
  }
}
