// Changes that were made and changes that were undone, as they are kept across reloads.

/** Both kinds of changes, the newest last. */
export class History {
  done = [];
  undone = [];

  /** Takes over what was kept, where all of it are changes. */
  take(kept, isChange) {
    if (!Array.isArray(kept?.done) || !Array.isArray(kept.undone)) return;
    if (![...kept.done, ...kept.undone].every(isChange)) return;
    this.done = [...kept.done];
    this.undone = [...kept.undone];
  }

  /** As it is kept: what is changed later isn't in it. */
  toJSON() {
    return { done: [...this.done], undone: [...this.undone] };
  }

  get canUndo() {
    return this.done.length > 0;
  }

  get canRedo() {
    return this.undone.length > 0;
  }
}
