// The lines at which Break stops. They move with their lines.

export class Breakpoints extends EventTarget {
  #lines = new Set();

  get lines() {
    return [...this.#lines].sort((one, other) => one - other);
  }

  has(line) {
    return this.#lines.has(line);
  }

  toggle(line) {
    if (!this.#lines.delete(line)) this.#lines.add(line);
    this.dispatchEvent(new Event('change'));
  }

  set(lines) {
    this.#lines = new Set(lines);
    this.dispatchEvent(new Event('change'));
  }

  /** The lines of a text became others: what stands after the change moves with its lines, what stood in removed lines goes. */
  follow(was, is) {
    if (this.#lines.size === 0 || was.length === is.length) return;
    const shorter = Math.min(was.length, is.length);
    let front = 0;
    while (front < shorter && was[front] === is[front]) front += 1;
    let back = 0;
    while (back < shorter - front && was[was.length - 1 - back] === is[is.length - 1 - back]) back += 1;
    const moved = [...this.#lines].flatMap((line) => {
      if (line <= front) return [line];
      if (line > was.length - back) return [line + is.length - was.length];
      return line <= is.length - back ? [line] : [];
    });
    this.set(moved);
  }
}
