// The whole program in one process, with files in memory: what it prints and writes is what it does on node, and where
// memory may not grow it says so.
import assert from 'node:assert/strict';
import { spawnSync } from 'node:child_process';
import fs from 'node:fs';
import os from 'node:os';
import path from 'node:path';
import test from 'node:test';
import '../../page/tests/older_node.mjs';
import { MemoryHost } from '../memory_host.mjs';
import { run } from '../system.mjs';
import { capped } from './capped.mjs';
import { modules } from './modules.mjs';

const MEGABYTE = 1 << 20;
const PAGE = 1 << 16;
const file = modules().program;
const skip = file ? false : 'the modules are not built';
const bytes = file && fs.readFileSync(file);
const module = file && new WebAssembly.Module(bytes);
const program = process.env.CHIPBENCH;
const decode = (text) => new TextDecoder().decode(text);
const source = fs.readFileSync(new URL('../../../examples/bounce.asm', import.meta.url));

const COMMANDS = [
  'asm game.asm game.ch8', 'list game.asm', 'list game.asm --hex', 'syms game.asm', 'check game.asm', 'check game.asm --json', 'debug game.asm',
  'run game.asm --steps 1000', 'trace game.asm --steps 50', 'picture game.asm --steps 2000 game.pbm', 'picture game.asm --steps 2000 game.png',
  'explain F9', 'explore game.asm --steps 300', 'dis none', 'help', '--help', '--version', 'run game.asm', 'asm game.asm game.asm', '',
].map((line) => line.split(' ').filter(Boolean));
// Each round has two outcomes for any three counts, of which none can be forgotten, since skips compare them.
const MANY_STATES = 'LOOP: SKP V0\nADD V1, 1\nADD V2, 3\nSE V1, V2\nJP LOOP\nADD V3, 1\nSE V3, V1\nJP LOOP\nJP LOOP\n';
const FILES = { 'game.asm': source, 'many.asm': Buffer.from(MANY_STATES), 'stated.asm': Buffer.from(`;! always V9 = 0\n${MANY_STATES}`) };
const INPUT = 'regs 100\nins 1 LD V0, 3\nfoo\nimage\n';

function inMemory(words, made = module) {
  const host = new MemoryHost(words, { files: new Map(Object.entries(FILES)), input: Buffer.from(INPUT) });
  const status = run(made, host);
  return { status, output: decode(host.written(1)), errors: decode(host.written(2)), files: host.files };
}

function natively(words) {
  const folder = fs.mkdtempSync(path.join(os.tmpdir(), 'chipbench-web-'));
  try {
    for (const [name, content] of Object.entries(FILES)) fs.writeFileSync(path.join(folder, name), content);
    const ran = spawnSync(program, words, { cwd: folder, input: INPUT });
    const files = new Map(fs.readdirSync(folder).map((name) => [name, new Uint8Array(fs.readFileSync(path.join(folder, name)))]));
    return { status: ran.status, output: decode(ran.stdout), errors: decode(ran.stderr), files };
  } finally {
    fs.rmSync(folder, { recursive: true });
  }
}

test('a search ends at its time, by the clock of the host', { skip }, () => {
  const { status, errors } = inMemory(['prove', 'stated.asm', '--seconds', '1', '--no-facts']);
  assert.equal(status, 0);
  assert.match(errors, /out of time/);
});

test('each command prints and writes what the program does', { skip: skip || (program ? false : 'CHIPBENCH names no program') }, () => {
  for (const words of COMMANDS) {
    const [here, there] = [inMemory(words), natively(words)];
    for (const what of ['status', 'output', 'errors']) assert.equal(here[what], there[what], `${words.join(' ')}: ${what}`);
    assert.deepEqual([...here.files.keys()].sort(), [...there.files.keys()].sort());
    for (const [name, content] of here.files) assert.ok(Buffer.from(content).equals(Buffer.from(there.files.get(name))), name);
  }
});

for (const megabytes of [3, 8, 64]) {
  test(`with memory of ${megabytes} MB a search says that memory ran out`, { skip }, () => {
    const small = new WebAssembly.Module(capped(bytes, (megabytes * MEGABYTE) / PAGE));
    const searched = inMemory(['explore', 'many.asm', '--no-facts'], small);
    assert.equal(searched.status, 4);
    assert.match(searched.errors, /^chipbench: out of memory$/m);
    assert.equal(inMemory(['asm', 'game.asm', 'game.ch8'], small).status, 0);
  });
}
