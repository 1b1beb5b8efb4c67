// Windows of one browser that have the same document open know of each other.

const CHANNEL = 'chipbench-page';

/** Tells `other` where another window has the document too, and `kept` where one has kept another text of it. */
export class Windows extends EventTarget {
  #channel = typeof BroadcastChannel === 'function' ? new BroadcastChannel(CHANNEL) : null;
  #key = null;

  constructor() {
    super();
    this.#channel?.addEventListener('message', ({ data }) => this.#told(data));
    this.#channel?.unref?.();
  }

  /** This window has a document open. */
  use(key) {
    this.#key = key;
    this.#tell('opened');
  }

  /** This window has kept a text of its document. */
  kept() {
    this.#tell('kept');
  }

  #tell(kind) {
    this.#channel?.postMessage({ kind, key: this.#key });
  }

  #told({ kind, key }) {
    if (key !== this.#key || key === null) return;
    if (kind === 'opened') this.#tell('here');
    this.dispatchEvent(new Event(kind === 'kept' ? 'kept' : 'other'));
  }
}
