// What is known of the document, and of which of its texts, keys and settings. Answers come back here and nowhere else: one of another
// document is dropped, and one of an earlier text is told apart. Views draw from what stands here, and keep nothing of their own.

/** The inputs of each finding. A finding stays present until one of them changes. */
const RESTS_ON = {
  /** The last answers: a machine and the assembled text, also where a line has a fault. */
  shown: ['lines', 'keys', 'options'],
  /** The last of these with a machine that runs. */
  run: ['lines', 'keys', 'options'],
  covered: ['lines', 'keys', 'options'],
  places: ['lines'],
  help: ['lines'],
  stated: ['lines'],
  explore: ['lines', 'options'],
  prove: ['lines', 'options'],
};
/** What is found by long searches is kept for some texts, so that undo brings it back. */
const MOST_KEPT = { explore: 8, prove: 8 };

export class Findings extends EventTarget {
  #model;
  /** By name, the newest first: what was found, and the work that it is of. */
  #found = new Map();

  /** `model` has the work that stands there now (`wanted`). */
  constructor(model) {
    super();
    this.#model = model;
    model.addEventListener('change', ({ detail }) => {
      if (detail === 'document') this.#found.clear();
    });
  }

  /**
   * Takes what was found of some work, in the place of what was known of the same. Returns whether it is of the present document; else
   * it is dropped.
   */
  take(name, of, value) {
    if (of.document !== this.#model.wanted.document) return false;
    const others = this.#list(name).filter((one) => !isSame(name, one.of, of));
    this.#found.set(name, [{ of, value }, ...others].slice(0, MOST_KEPT[name] ?? 1));
    this.#tell(name);
    return true;
  }

  /** Forgets what was found, such as a card that was closed. */
  drop(name) {
    if (this.#found.delete(name)) this.#tell(name);
  }

  /** What is known of the document: of the present text if there is such a finding, else of an earlier one; null where nothing is. */
  get(name) {
    const present = this.#present(name);
    const { of, value } = present ?? this.#list(name)[0] ?? {};
    return of === undefined ? null : { value, isPresent: present !== undefined };
  }

  /** What is known of the present text, keys and settings, as far as it rests on them; else null. */
  present(name) {
    return this.#present(name)?.value ?? null;
  }

  #present(name) {
    const { wanted } = this.#model;
    return this.#list(name).find(({ of }) => isSame(name, of, wanted));
  }

  #list(name) {
    return this.#found.get(name) ?? [];
  }

  #tell(name) {
    this.dispatchEvent(new CustomEvent('change', { detail: name }));
  }
}

const isSame = (name, one, other) => RESTS_ON[name].every((part) => one[part] === other[part]);
