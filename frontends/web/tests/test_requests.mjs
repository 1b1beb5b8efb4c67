// The page's requests, answered by the modules without a browser.
import assert from 'node:assert/strict';
import { spawnSync } from 'node:child_process';
import fs from 'node:fs';
import test from 'node:test';
import '../../page/tests/older_node.mjs';
import { OPTIONS } from '../options.mjs';
import { ProgramRequests, SessionRequests } from '../requests.mjs';
import { STATUS } from '../session.mjs';
import { modules } from './modules.mjs';

const { session, program } = modules();
const skip = session && program ? false : 'the modules are not built';
const moduleOf = (file) => new WebAssembly.Module(fs.readFileSync(file));
const native = process.env.CHIPBENCH;

test('a session is opened, asked and opened anew', { skip }, () => {
  const requests = new SessionRequests(moduleOf(session));
  const opened = requests.open({ source: 'LD V0, 5\n', options: { rate: '10' }, commands: ['kins 3 1 down'] });
  assert.deepEqual(opened.answers, ['ok\n']);
  const asked = requests.ask({ commands: ['image', 'rep 1 LD V0, 6', 'image', 'foo'] });
  assert.deepEqual(asked.answers, ['6005\n', 'ok\n', '6006\n', 'no C1\n']);
  const again = requests.open({ source: 'CLS\n', options: {}, commands: ['image'] });
  assert.deepEqual(again.answers, ['00e0\n']);
});

test('a session takes a profile and quirks', { skip }, () => {
  const requests = new SessionRequests(moduleOf(session));
  const source = 'LD V0, #81\nLD V1, 6\nSHR V0, V1\n';
  const registers = (options) => requests.open({ source, options, commands: ['regs 3'] }).answers?.[0];
  assert.match(registers({}), /^v 40 06 /);
  assert.match(registers({ quirks: 'shift=vy' }), /^v 03 06 /);
  assert.match(registers({ profile: 'octo' }), /^v 03 06 /);
  assert.match(registers({ profile: 'octo', quirks: 'edges=clip,shift=vx' }), /^v 40 06 /);
  const statusOf = (options) => requests.open({ source, options, commands: [] }).unopened;
  assert.equal(statusOf({ profile: 'foo' }), STATUS.unknownProfile);
  for (const quirks of ['shift', 'shift=vz', 'shift=vy,', ',', 'shift=vy,shift=vy', 'shift=vy,shift=vx', 'SHIFT=vy', ' shift=vy']) {
    assert.equal(statusOf({ quirks }), STATUS.unknownQuirks, quirks);
  }
  // the first fault alone is told: of the profile, of the list, of rate and tape
  assert.equal(statusOf({ profile: 'foo', quirks: 'x', rate: '0' }), STATUS.unknownProfile);
  assert.equal(statusOf({ quirks: 'x', rate: '0' }), STATUS.unknownQuirks);
  assert.equal(statusOf({ quirks: 'shift=vy', rate: '0' }), STATUS.rateOutOfRange);
});

test('a source that does not open is told of as the program does', { skip }, () => {
  const source = `CLS\n${'x'.repeat(201)}\n`;
  const { unopened } = new SessionRequests(moduleOf(session)).open({ source, options: {}, commands: [] });
  assert.equal(unopened, 1002);
  const { status, text } = new ProgramRequests(moduleOf(program)).unopened({ source, options: {} });
  assert.equal(status, 1);
  assert.equal(text, 'no O1');
});

test('the program answers words, files of key events and searches', { skip }, () => {
  const requests = new ProgramRequests(moduleOf(program));
  assert.equal(requests.word({ word: 'dis', content: '\x00\xe0' }).output, 'CLS\n');
  assert.match(requests.word({ word: 'explain', code: 'F9' }).output, /^F9/);
  assert.deepEqual(requests.keys({ text: '3 1 down\n' }), { refused: null });
  assert.deepEqual(requests.keys({ text: '3 1 down\n3 20 down\n' }), { refused: { line: 2, why: 'there is no such KEY; expected 0 to 15, or A to F' } });
  const about = { source: 'L: ADD V0, 1\nJP L\n', keys: '', options: {}, first: 1, last: 101 };
  assert.deepEqual(requests.search({ ...about, most: 2, isLast: false, where: [['v0', ['05'], false]] }).steps, [9, 10]);
  const onOcto = { ...about, options: { profile: 'octo' } };
  assert.deepEqual(requests.search({ ...onOcto, most: 2, isLast: false, where: [['v0', ['05'], false]] }).steps, [9, 10]);
  const last = requests.search({ ...about, most: 2, isLast: true, where: [['v0', ['05'], true]] });
  assert.deepEqual(last.steps, [100, 101]);
  assert.equal(last.end.step, 101);
  assert.equal(requests.search({ ...about, source: 'LD V0\n', most: 2, isLast: false, where: [['v0', ['05'], false]] }).refused.status, 1);
});

test('what a command does not take of the settings makes no difference to it', { skip }, () => {
  const requests = new ProgramRequests(moduleOf(program));
  const options = { rate: '20', every: '2000' };
  const found = requests.search({ source: 'L: ADD V0, 1\nJP L\n', keys: '', options, first: 1, last: 100, most: 1, isLast: false, where: [['v0', ['05'], false]] });
  assert.deepEqual(found.steps, [9]);
});

test('the program has the settings that the page knows', { skip }, () => {
  const requests = new ProgramRequests(moduleOf(program));
  assert.deepEqual(requests.optionsOf('debug'), OPTIONS);
});

test('a search over all keys is told of while it goes on, and gives the keys that it found', { skip }, () => {
  const requests = new ProgramRequests(moduleOf(program));
  const found = requests.explore({ source: 'LOOP: LD V0, K\nSE V0, 3\nJP LOOP\nRET\n', options: { rate: '10', every: '1000' } }, () => {});
  assert.match(found.output, /^S5 3, line 4: RET\n/);
  assert.equal(found.keys, '0 3 down\n1 3 up\n');
  // Each key that was pressed stays in the memory, so there are many states, and I may come to its end.
  const source = 'LD V1, 16\nLD I, #F00\nLOOP: LD V0, K\nLD [I], V0\nADD I, V1\nJP LOOP\n';
  const first = { told: null };
  const tell = (progress) => {
    first.told = progress;
    throw new Error('told once');
  };
  assert.throws(() => requests.explore({ source, options: {} }, tell), /told once/);
  assert.ok(first.told.step > 0 && first.told.states > 0, first.told);
});

test('what prove prints is told as it comes', { skip }, (context) => {
  const requests = new ProgramRequests(moduleOf(program));
  const told = [];
  const source = ';! never V0 = 3 at DONE\n;! V1 = 0 here\nLOOP: LD V0, K\nSE V0, 3\nJP LOOP\nDONE: JP DONE\n';
  const found = requests.prove({ source, options: { rate: '10', every: '1000' } }, ({ output }) => output && told.push(output));
  const answers = found.output.trimEnd().split('\n').map((line) => JSON.parse(line));
  assert.deepEqual(answers.slice(0, 2).map(({ line, answer }) => [line, answer]), [[2, 'proved for any keys, random bytes and speed'], [1, 'broken']]);
  assert.ok(told.length > 0 && told.every((output) => found.output.startsWith(output)));
});

test('an example has its screen', { skip }, () => {
  const requests = new ProgramRequests(moduleOf(program));
  assert.equal(requests.example({ text: 'LOW\n', steps: 1 }).screen, 'low\n.\n');
});

test('the tape of a seed is that of the program', { skip: skip || (native ? false : 'CHIPBENCH names no program') }, () => {
  const { tape } = new ProgramRequests(moduleOf(program)).tape({ seed: '7' });
  assert.equal(tape.length, 512);
  const requests = new SessionRequests(moduleOf(session));
  const source = 'L: RND V1, #3f\nRND V2, 255\nJP L\n';
  fs.writeFileSync(`${process.env.TMPDIR ?? '/tmp'}/chipbench-seed.asm`, source);
  const words = ['debug', `${process.env.TMPDIR ?? '/tmp'}/chipbench-seed.asm`, '--seed', '7'];
  const commands = ['regs 1', 'regs 2', 'regs 500', 'regs 5000'];
  const { stdout } = spawnSync(native, words, { input: `${commands.join('\n')}\n` });
  assert.equal(requests.open({ source, options: { tape }, commands }).answers.join(''), `${stdout}`);
});
