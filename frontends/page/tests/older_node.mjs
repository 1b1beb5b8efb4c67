// What node 18 lacks of what browsers and node 20 have, for the tests alone.
import { webcrypto } from 'node:crypto';

globalThis.crypto ??= webcrypto;

globalThis.CustomEvent ??= class CustomEvent extends Event {
  constructor(name, { detail = null, ...rest } = {}) {
    super(name, rest);
    this.detail = detail;
  }
};

function define(name, method) {
  if (!(name in Array.prototype)) Object.defineProperty(Array.prototype, name, { value: method, writable: true, configurable: true });
}

define('toReversed', function toReversed() {
  return [...this].reverse();
});
define('toSpliced', function toSpliced(...how) {
  const copy = [...this];
  copy.splice(...how);
  return copy;
});
define('with', function withValue(place, value) {
  const copy = [...this];
  copy[place] = value;
  return copy;
});
