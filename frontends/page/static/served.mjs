// The page as the bridge serves it: its files are those of the bridge, and the program comes from there too, but runs here.

import { BridgeFault } from './bridge.mjs';
import { carryByWorkers } from './carrier.mjs';
// the database is opened while the rest is fetched
import './database.mjs';

/** Something that the bridge serves, or null where it has no such thing. */
async function served(name, take) {
  const reply = await fetch(name).catch(() => null);
  return reply?.ok ? take(reply) : null;
}

const textOf = (name) => served(name, (reply) => reply.text());

async function moduleOf(name) {
  const module = await served(name, (reply) => WebAssembly.compileStreaming(reply));
  if (module === null) throw new BridgeFault(0, `the bridge didn't give ${name}`);
  return module;
}

/** A request that the bridge answers. */
async function posted(name, body = {}) {
  let reply;
  try {
    reply = await fetch(name, { method: 'POST', headers: { 'Content-Type': 'application/json' }, body: JSON.stringify(body) });
  } catch {
    throw new BridgeFault(0, 'the bridge doesn\'t answer; chipbench-page may have ended');
  }
  if (!reply.ok) throw new BridgeFault(reply.status, (await reply.text()).trim());
  return reply.json();
}

/** The page of an exported game, and the bytes of the session's module. */
async function game() {
  const template = await textOf('game.html');
  const module = await served('session.wasm', (reply) => reply.arrayBuffer());
  return template === null || module === null ? { template: null } : { template, module: new Uint8Array(module) };
}

// asked at once, while the modules of the page are fetched
const about = posted('about');
about.catch(() => {});
const posts = Object.fromEntries(['files', 'read', 'save'].map((name) => [name, (body) => posted(name, body)]));
const own = { ...posts, about: () => about, game, text: async ({ name }) => ({ text: await textOf(name) }) };
const modules = { session: () => moduleOf('session.wasm'), program: () => moduleOf('chipbench.wasm') };
const plain = { createScriptURL: (address) => address };
const addresses = globalThis.trustedTypes?.createPolicy('worker', plain) ?? plain;
carryByWorkers(() => new Worker(addresses.createScriptURL('worker.mjs'), { type: 'module' }), modules, own);
await import('./main.mjs');
