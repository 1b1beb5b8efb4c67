// The page in one file: its requests about files are answered by the page, and the texts and modules that it needs are blocks of the file.

import * as bridge from './bridge.mjs';
import { carryByWorkers } from './carrier.mjs';
import * as notices from './notices.mjs';
import { inflated, spelt } from './page_blocks.mjs';
import { ownRequests } from './page_files.mjs';

const textOf = (id) => document.getElementById(id).textContent;
const { alphabet, worker, template, examples, documents } = JSON.parse(textOf('texts'));

// the block of the program's module comes after this script
const isParsed = new Promise((done) => document.addEventListener('DOMContentLoaded', done, { once: true }));

/** The bytes of a block. */
const bytesOf = async (id) => (document.getElementById(id).dataset.form === 'deflated' ? inflated(textOf(id)) : spelt(textOf(id), alphabet));

const script = URL.createObjectURL(new Blob([worker], { type: 'text/javascript' }));
const game = async () => ({ template, module: await bytesOf('session-module') });
const moduleOf = async (id) => WebAssembly.compile(await bytesOf(id));
const modules = { session: () => moduleOf('session-module'), program: () => isParsed.then(() => moduleOf('chipbench-module')) };
carryByWorkers(() => new Worker(script), modules, ownRequests({ examples, documents, game }));
// tests take these modules by their names, as the bridge serves them
Object.assign(globalThis, { chipbenchModules: { 'bridge.mjs': bridge, 'notices.mjs': notices } });
