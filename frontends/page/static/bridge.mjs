// Requests of the page, and what carries them out: the program in workers (carrier.mjs in frontends/web), and the bridge, or the
// browser's own file access, for files.

export class BridgeFault extends Error {
  constructor(status, reason) {
    super(reason);
    this.status = status;
  }
}

/** @type {(name: string, body: any) => Promise<any>} */
let carrier = async () => {
  throw new BridgeFault(0, 'the page isn\'t connected yet');
};

/** Takes a carrier: a function of a request's name and body, which gives the answer later. */
export function carryBy(other) {
  carrier = other;
}

/** A request by its name; `status` 0 of a fault says that nothing answered. */
export function request(name, body = {}) {
  return carrier(name, body);
}
