// The modules of the page that need no browser.

import assert from 'node:assert/strict';
import { readdirSync, readFileSync } from 'node:fs';
import test from 'node:test';

import './older_node.mjs';
import * as answers from '../static/answers.mjs';
import { codeText } from '../static/codes.mjs';
import { keyCommands, KeyScript, readKeys, writeKeys } from '../static/key_script.mjs';
import { lineCommands } from '../static/line_changes.mjs';
import { Model } from '../static/model.mjs';
import { readNumber } from '../static/numbers.mjs';
import { BreakGuard } from '../static/break_guard.mjs';
import { Player } from '../static/player.mjs';
import { SourceMap } from '../static/source_map.mjs';
import { decodeText, encodeText, programLines, readFile, writeFile } from '../static/text_form.mjs';
import { ProgramEnded, Workbench } from '../static/workbench.mjs';
import { BridgeFault } from '../static/bridge.mjs';

/** A generator of numbers below a bound, the same in each run. */
function generator(seed) {
  let state = seed;
  return (bound) => {
    state = (Math.imul(state, 1664525) + 1013904223) >>> 0;
    return Math.floor((state / 2 ** 32) * bound);
  };
}

/** Carries out commands on lines as the program does. */
function carriedOut(lines, commands) {
  const now = [...lines];
  let most = now.length;
  for (const command of commands) {
    const [, word, number, , text = ''] = /^(ins|rep|del) (\d+)( (.*))?$/s.exec(command);
    const place = Number(number) - 1;
    assert.ok(place >= 0 && place < now.length + (word === 'ins' ? 1 : 0), `${command} of ${now.length} lines`);
    if (word === 'ins') now.splice(place, 0, text);
    if (word === 'rep') now[place] = text;
    if (word === 'del') now.splice(place, 1);
    most = Math.max(most, now.length);
  }
  return { now, most };
}

function editDistance(before, after) {
  let row = after.map((_, place) => place + 1);
  row.unshift(0);
  before.forEach((line, place) => {
    const next = [place + 1];
    after.forEach((other, column) => {
      next.push(Math.min(next[column] + 1, row[column + 1] + 1, row[column] + (line === other ? 0 : 1)));
    });
    row = next;
  });
  return row[after.length];
}

test('lines: the commands make the one into the other, and are the fewest', () => {
  const random = generator(1);
  for (let round = 0; round < 3000; round += 1) {
    const some = () => Array.from({ length: random(14) }, () => `line ${random(5)}`);
    const [before, after] = [some(), some()];
    const commands = lineCommands(before, after);
    const { now, most } = carriedOut(before, commands);
    assert.deepEqual(now, after);
    assert.equal(commands.length, editDistance(before, after));
    assert.ok(most <= Math.max(before.length, after.length));
  }
});

test('lines: one typed character is one command', () => {
  const before = Array.from({ length: 4000 }, (_, place) => `line ${place % 50}`);
  const after = before.with(2000, 'another');
  assert.deepEqual(lineCommands(before, after), ['rep 2001 another']);
  assert.deepEqual(lineCommands(before, before.toSpliced(10, 1)).length, 1);
  assert.deepEqual(lineCommands(before.toSpliced(10, 1), before).length, 1);
  assert.deepEqual(lineCommands(['A', 'B'], ['A', '', 'B']), ['ins 2 ']);
  assert.deepEqual(lineCommands(['A'], ['A']), []);
  assert.deepEqual(lineCommands([], []), []);
});

test('lines: far apart changes in a long source, and changes that are too many', () => {
  const before = Array.from({ length: 4000 }, (_, place) => `line ${place}`);
  const after = before.toSpliced(3900, 2).toSpliced(5, 0, 'new', 'newer').with(2000, 'x');
  const commands = lineCommands(before, after);
  assert.equal(commands.length, 5);
  assert.deepEqual(carriedOut(before, commands).now, after);
  assert.equal(carriedOut(before, commands).most, 4000);
  assert.equal(lineCommands(before, before.map((line) => `${line}!`)), null);
});

test('keys: the commands make the one script into the other', () => {
  const random = generator(2);
  for (let round = 0; round < 500; round += 1) {
    const some = () => {
      let script = new KeyScript();
      for (let count = random(8); count > 0; count -= 1) script = script.with(random(5), random(3), random(2) === 1);
      return script;
    };
    const [before, after] = [some(), some()];
    const held = new Map(before.events.map(({ step, key, down }) => [`${step} ${key}`, down]));
    for (const command of keyCommands(before, after)) {
      const [word, step, key, down] = command.split(' ');
      assert.equal(held.has(`${step} ${key}`), word !== 'kins', command);
      if (word === 'kdel') held.delete(`${step} ${key}`);
      else held.set(`${step} ${key}`, down === 'down');
    }
    assert.deepEqual([...held].sort(), after.events.map(({ step, key, down }) => [`${step} ${key}`, down]).sort());
  }
});

test('keys: which are held, neighbours, clearing', () => {
  const script = new KeyScript().with(20, 5, true).with(40, 5, false).with(30, 12, true);
  assert.deepEqual(script.events.map(({ step }) => step), [20, 30, 40]);
  assert.equal(script.held(19)[5], false);
  assert.equal(script.held(20)[5], true);
  assert.equal(script.held(40)[5], false);
  assert.equal(script.held(1000)[12], true);
  assert.equal(script.next(20).step, 30);
  assert.equal(script.previous(20), undefined);
  assert.equal(script.cleared(5, 20, 39).size, 2);
  assert.equal(script.with(20, 5, false).size, 3);
});

test('keys: a script as a text', () => {
  const script = new KeyScript().with(20, 5, true).with(40, 5, false);
  assert.equal(writeKeys(script), '20 5 down\n40 5 up\n');
  assert.deepEqual(readKeys(writeKeys(script)).events, script.events);
  assert.deepEqual(readKeys('; a play\n\n  #28 5 up ; held\r\n 20  #5 down').events, script.events);
  assert.deepEqual(readKeys('20 a down\n40 F up').events, new KeyScript().with(20, 10, true).with(40, 15, false).events);
  for (const text of ['20 5 down\n20 ab up\n', '20 5 down\na 5 up', '20 5 down\n20 16 up\n', '20 5 down\nhello\n', '1 2 up\n1 2', ';\n1 2 up now', '\n1 2 UP']) assert.throws(() => readKeys(text), /line 2/);
});

test('texts: bytes stay as they were', () => {
  const every = String.fromCharCode(...Array.from({ length: 256 }, (_, byte) => byte)).replace('\r', '');
  for (const bytes of ['', 'CLS\n', 'CLS', 'A\r\nB\r\n', '; h\u00c3\u00a9\n', every]) {
    const file = readFile(bytes);
    assert.equal(writeFile(file.text, file), bytes);
    assert.equal(file.hasStrayCr, false);
  }
  assert.equal(readFile('; h\u00c3\u00a9').text, '; hé');
  assert.equal(readFile('; \u00e9').encoding, 'latin-1');
  assert.deepEqual(readFile('A\rB\r\n').hasStrayCr, true);
  assert.equal(encodeText('é€', 'latin-1'), 'é?');
  assert.equal(decodeText(encodeText('é€', 'utf-8'), 'utf-8'), 'é€');
});

test('texts: what the program is given', () => {
  assert.deepEqual(programLines('A\nB\n', 'utf-8').lines, ['A', 'B']);
  assert.deepEqual(programLines('A\n\n', 'utf-8').lines, ['A', '']);
  assert.deepEqual(programLines('', 'utf-8').lines, []);
  const long = programLines(`A\n${'é'.repeat(101)}\nB`, 'utf-8');
  assert.deepEqual(long.lines, ['A', '\u00c3\u00a9'.repeat(101), 'B']);
  assert.deepEqual([...long.refused], [[2, 'O1']]);
  assert.equal(programLines('é'.repeat(100), 'utf-8').refused.size, 0);
  assert.deepEqual([...programLines('A\n'.repeat(4001), 'utf-8').refused], [[4001, 'O2']]);
});

test('answers: registers', () => {
  const read = answers.readRegisters(
    'v 07 00 00 00 00 00 00 00 00 00 00 00 00 00 00 ff\npc 020e i 020a dt 07 st 00 draws 18446744073709551615 high S1\nflags 07 00 00 00 00 00 00 01 stack 020a 0fff\n',
  );
  assert.deepEqual([read.v[0], read.v[15], read.pc, read.i, read.dt, read.st], [7, 255, 0x20e, 0x20a, 7, 0]);
  assert.deepEqual([read.draws, read.size, read.state], ['18446744073709551615', 'high', 'S1']);
  assert.deepEqual(read.flags, [7, 0, 0, 0, 0, 0, 0, 1]);
  assert.deepEqual(read.stack, [0x20a, 0xfff]);
  const empty = answers.readRegisters('v 00\npc 0200 i 0000 dt 00 st 00 draws 0 low run\nflags 00 stack\n');
  assert.deepEqual(empty.stack, []);
});

test('answers: the others', () => {
  assert.equal(answers.refusal('no Q1\n'), 'Q1');
  assert.equal(answers.refusal('ok\n'), null);
  assert.deepEqual([...answers.readBytes('6005\n')], [0x60, 5]);
  assert.deepEqual([...answers.readBytes('\n')], []);
  assert.deepEqual(answers.readScreen('low\n.\n'), { size: 'low', rows: [] });
  assert.deepEqual(answers.readScreen('high\n03 00ff\n63 8000\n.\n').rows, [{ row: 3, digits: '00ff' }, { row: 63, digits: '8000' }]);
  assert.deepEqual(answers.readWords('0202 daba DRW VA, VB, 10\n.\n'), [{ address: 0x202, word: 'daba', text: 'DRW VA, VB, 10' }]);
  assert.deepEqual([...answers.readFaults('6 F9\n12 F4\n.\n')], [[6, 'F9'], [12, 'F4']]);
  assert.deepEqual(answers.readSymbols('SIZE -3 1\n.\n'), [{ name: 'SIZE', value: -3, line: 1 }]);
  assert.deepEqual(answers.readListing('   3 ----               CLS\n   7 0204 736576656e20+ DA \'x\'\n.\n'), [
    { address: null, field: '' },
    { address: 0x204, field: '736576656e20+' },
  ]);
});

test('source map: the line at an address', () => {
  const listing = answers.readListing(
    [
      '   1 0200 =3            SIZE EQU 3',
      '   2 0200 6003          START: LD V0, SIZE',
      '   3 ----               CLS',
      '   4 0202 736576656e20+ DA \'seven b\'',
      '   5 020a               ORG #300',
      '   6 0300 0000          DS 2',
      '.\n',
    ].join('\n'),
  );
  const map = new SourceMap(listing, 0x102);
  const lines = [0x1ff, 0x200, 0x201, 0x202, 0x209, 0x20a, 0x2ff, 0x300, 0x301, 0x302].map((address) => map.lineAt(address));
  assert.deepEqual(lines, [null, 2, 2, 4, 4, null, null, 6, 6, null]);
  assert.equal(new SourceMap().lineAt(0x200), null);
});

test('numbers', () => {
  const symbols = [{ name: 'LOOP', value: 514 }];
  assert.deepEqual(['#1F', '0x1f', '31', ' 31 ', 'loop', '', '#', '1f', '-1', 'NONE'].map((text) => readNumber(text, symbols)), [31, 31, 31, 31, 514, null, null, null, null, null]);
});

/** Requests to a small program that holds lines and events, and ends when it is asked `die`. */
function fakeProgram({ lastStep = 5000, dies = Infinity } = {}) {
  const program = { lines: [], keys: new Map(), log: [], deaths: 0 };
  const answer = (command) => {
    const [word, ...words] = command.split(' ');
    if (/^(ins|rep|del)$/.test(word)) program.lines = carriedOut(program.lines, [command]).now;
    if (word === 'kdel' && Number(words[0]) > lastStep) return 'no N5\n';
    if (word === 'kdel' && words[1] === '16') return 'no N6\n';
    if (/^k/.test(word)) program.keys.set(`${words[0]} ${words[1]}`, words[2]);
    if (word === 'kdel') program.keys.delete(`${words[0]} ${words[1]}`);
    if (word === 'refuse') return 'no C1\n';
    return /^(ins|rep|del|k)/.test(word) ? 'ok\n' : `${program.lines.join('|')}\n`;
  };
  program.ask = async (name, { source, commands }) => {
    program.log.push([name, commands]);
    if (name === 'open') {
      program.lines = source.split('\n').slice(0, -1);
      program.keys = new Map();
    }
    const deadly = commands.indexOf('die');
    if (deadly >= 0 && program.deaths < dies) {
      program.deaths += 1;
      return { answers: commands.slice(0, deadly).map(answer), ended: { status: 4, text: 'out of memory' } };
    }
    return { answers: commands.map(answer) };
  };
  return program;
}

const wantedOf = (lines, keys = new KeyScript(), options = {}) => ({ lines, keys, options });

test('workbench: the first question opens, an edit is one command, and the last step is found', async () => {
  const program = fakeProgram();
  const workbench = new Workbench({ ask: program.ask });
  const first = wantedOf(['A', 'B', 'C'], new KeyScript().with(3, 5, true));
  assert.deepEqual(await workbench.answers(first, ['image']), ['A|B|C\n']);
  assert.equal(workbench.lastStep, 5000);
  assert.equal(program.keys.get('3 5'), 'down');
  const second = { ...first, lines: ['A', 'X', 'C'], keys: first.keys.with(9, 5, false) };
  assert.deepEqual(await workbench.answers(second, ['image']), ['A|X|C\n']);
  assert.deepEqual(program.log.at(-1), ['ask', ['rep 2 X', 'kins 9 5 up', 'image']]);
  assert.deepEqual(await workbench.answers(second, ['image', 'image']), ['A|X|C\n', 'A|X|C\n']);
  assert.deepEqual(program.log.at(-1), ['ask', ['image', 'image']]);
  assert.equal(workbench.starts, 1);
});

test('workbench: other options start the program anew, as do too many changes and commands', async () => {
  const program = fakeProgram();
  const workbench = new Workbench({ ask: program.ask });
  const first = wantedOf(['A']);
  await workbench.answers(first, ['image']);
  await workbench.answers({ ...first, options: { rate: '7' } }, ['image']);
  assert.equal(workbench.starts, 2);
  await workbench.answers(wantedOf(Array.from({ length: 2000 }, (_, place) => `${place}`)), ['image']);
  assert.equal(workbench.starts, 3);
  const many = Array(30_000).fill('image');
  const same = wantedOf(['A']);
  for (let round = 0; round < 4; round += 1) assert.equal((await workbench.answers(same, many)).length, 30_000);
  assert.equal(workbench.starts, 5);
});

test('workbench: questions at the same time are answered in turn, each about what it wants', async () => {
  const program = fakeProgram();
  const workbench = new Workbench({ ask: program.ask });
  const replies = await Promise.all(Array.from({ length: 20 }, (_, place) => workbench.answers(wantedOf([`L${place}`]), ['image'])));
  assert.deepEqual(replies.flat(), Array.from({ length: 20 }, (_, place) => `L${place}\n`));
});

test('workbench: a program that ends is told, started again with everything, and asked again', async () => {
  const program = fakeProgram({ dies: 1 });
  const ended = [];
  const workbench = new Workbench({ ask: program.ask, onEnded: (...words) => ended.push(words) });
  const first = wantedOf(['A', 'B'], new KeyScript().with(3, 5, true));
  await workbench.answers(first, ['image']);
  const second = { ...first, lines: ['A', 'C'] };
  assert.deepEqual(await workbench.answers(second, ['die']), ['A|C\n']);
  assert.deepEqual(ended, [[4, 'out of memory']]);
  assert.equal(program.keys.get('3 5'), 'down');
});

test('workbench: a program that ends again and again is told as a fault, and the next question starts it', async () => {
  const program = fakeProgram();
  const workbench = new Workbench({ ask: program.ask });
  const wanted = wantedOf(['A']);
  await workbench.answers(wanted, ['image']);
  await assert.rejects(workbench.answers(wanted, ['die']), (fault) => fault instanceof ProgramEnded && /status 4: out of memory/.test(fault.message));
  assert.deepEqual(await workbench.answers(wanted, ['image']), ['A\n']);
});

test('workbench: a request that fails loses nothing', async () => {
  const program = fakeProgram();
  let gone = false;
  const ask = async (...words) => {
    if (gone) throw new BridgeFault(0, 'gone');
    return program.ask(...words);
  };
  const workbench = new Workbench({ ask });
  await workbench.answers(wantedOf(['A']), ['image']);
  gone = true;
  await assert.rejects(workbench.answers(wantedOf(['B']), ['image']), BridgeFault);
  gone = false;
  assert.deepEqual(await workbench.answers(wantedOf(['B']), ['image']), ['B\n']);
});

test('model: what is wanted changes only with what it holds', () => {
  const model = new Model();
  const told = [];
  model.addEventListener('change', ({ detail }) => told.push(detail));
  model.setText('A\n');
  const { wanted } = model;
  model.setStep(12);
  model.setStep(12);
  assert.equal(model.wanted, wanted);
  model.setKeys(model.keys.with(1, 2, true));
  assert.notEqual(model.wanted, wanted);
  assert.equal(model.wanted.lines, wanted.lines);
  model.setText('A\n');
  model.setStep(-5);
  model.setStep(1e9);
  assert.equal(model.step, model.lastStep);
  assert.deepEqual(told, ['text', 'step', 'keys', 'step', 'step']);
});

/** A player whose pictures come when the test says so: `pass(milliseconds)` lets that time pass in one picture. */
function playing(context, { rate = '10', lastStep = 5000 } = {}) {
  let now = 1000;
  let next = null;
  context.mock.method(performance, 'now', () => now);
  globalThis.requestAnimationFrame = (draw) => {
    next = draw;
  };
  const model = new Model();
  model.setOptions({ rate });
  model.setLastStep(lastStep);
  const player = new Player(model);
  const pass = (milliseconds) => {
    now += milliseconds;
    const draw = next;
    next = null;
    draw?.(now);
  };
  return { model, player, pass };
}

const told = (model) => model.keys.events.map(({ step, key, down }) => `${step} ${key} ${down ? 'down' : 'up'}`);

test('player: the speed of the rate, on whole frames, forwards and backwards', (context) => {
  const { model, player, pass } = playing(context);
  player.play(1);
  for (let picture = 0; picture < 60; picture += 1) pass(1000 / 60 + 0.001);
  assert.equal(model.step, 600);
  player.speed = 4;
  pass(100);
  assert.equal(model.step, 840);
  player.play(-1);
  player.speed = 1;
  pass(100);
  assert.equal(model.step, 780);
  model.setStep(103);
  pass(100);
  assert.equal(model.step, 40);
  pass(100);
  assert.equal(model.step, 0);
  assert.equal(player.direction, 0);
  model.setStep(4990);
  player.play(1);
  pass(100);
  assert.equal(model.step, 5000);
  assert.equal(player.direction, 0);
  player.play(1);
  assert.equal(model.step, 0);
});

test('player: slower than a frame, and a long gap', (context) => {
  const { model, player, pass } = playing(context);
  player.speed = 0.25;
  player.play(1);
  const seen = [];
  for (let picture = 0; picture < 8; picture += 1) {
    pass(1000 / 60 + 0.001);
    seen.push(model.step);
  }
  assert.deepEqual(seen, [0, 0, 0, 10, 10, 10, 10, 20]);
  player.speed = 1;
  pass(60_000);
  assert.ok(model.step <= 20 + 160);
});

test('player: presses are recorded at their steps, a frame long at least, and overwrite what stood there', (context) => {
  const { model, player, pass } = playing(context);
  model.setKeys(new KeyScript().with(130, 5, false).with(140, 5, true).with(150, 7, true).with(400, 5, true));
  const before = model.keys;
  player.play(1);
  pass(100);
  player.press(5);
  player.press(5);
  pass(200);
  assert.equal(model.step, 180);
  assert.deepEqual(told(model), ['60 5 down', '150 7 down', '400 5 down']);
  player.release(5);
  player.release(5);
  assert.deepEqual(told(model), ['60 5 down', '150 7 down', '180 5 up', '400 5 down']);
  player.press(1);
  player.release(1);
  assert.deepEqual(told(model).slice(2, 5), ['180 1 down', '180 5 up', '190 1 up']);
  player.press(2);
  player.play(0);
  assert.ok(told(model).includes('190 2 up'));
  model.undoKeys(true);
  assert.deepEqual(model.keys.events, before.events);
});

test('player: without a run nothing is played and nothing recorded', (context) => {
  const { model, player, pass } = playing(context);
  const told = [];
  player.addEventListener('told', ({ detail }) => told.push(detail));
  player.play(1);
  pass(100);
  const { step } = model;
  assert.ok(step > 0);
  player.setRun(false);
  assert.equal(player.direction, 0);
  pass(100);
  player.press(5);
  player.release(5);
  player.play(1);
  pass(100);
  assert.deepEqual([model.step, model.keys.size, player.direction], [step, 0, 0]);
  assert.match(told.join(), /a line has a fault/);
  player.setRun(true);
  player.play(1);
  pass(100);
  assert.ok(model.step > step);
});

test('player: it stops at breakpoints, waits for what lies ahead, and tells the end before it comes', async (context) => {
  const { model, player, pass } = playing(context);
  model.setLastStep(30_000);
  const [asked, told, stops] = [[], [], [130, 4000]];
  player.addEventListener('told', ({ detail }) => told.push(detail));
  const scan = async ({ first, last, where }) => {
    asked.push([first, last, where]);
    return { steps: stops.filter((stop) => stop >= first && stop <= last).slice(0, 1), end: null };
  };
  player.guard = new BreakGuard(model, { addresses: () => [0x202], scan });
  player.play(1);
  pass(100);
  assert.equal(model.step, 0);
  assert.deepEqual(asked[0][2], [['pc', ['0202'], false]]);
  const wait = async (milliseconds) => {
    for (let passed = 0; passed < milliseconds && player.direction !== 0; passed += 50) {
      pass(50);
      await new Promise((done) => { setImmediate(done); });
    }
  };
  await wait(3000);
  assert.deepEqual([model.step, player.direction], [130, 0]);
  assert.equal(told.at(-1), 'breakpoint at step 130');
  // it leaves the step with the breakpoint, and a key that is pressed is another run
  player.play(1);
  await wait(200);
  assert.ok(model.step > 130 && model.step < 400, model.step);
  stops[1] = model.step + 100;
  player.press(5);
  await wait(1000);
  assert.equal(model.step, stops[1]);
  player.guard = null;
  model.setStep(25_000);
  player.play(1);
  pass(100);
  assert.match(told.at(-1), /^the run ends in \d+ s, at step 30,000/);
  for (let count = 0; count < 200 && player.direction !== 0; count += 1) pass(100);
  assert.equal(told.at(-1), 'the end of the run, step 30,000; Play starts again at step 0');
});

test('player: at rest a key is turned from the step on', (context) => {
  const { model, player } = playing(context);
  model.setStep(50);
  player.press(5);
  player.release(5);
  assert.deepEqual(told(model), ['50 5 down']);
  player.press(5);
  assert.deepEqual(told(model), []);
  player.press(5);
  model.setStep(70);
  player.press(5);
  assert.deepEqual(told(model), ['50 5 down', '70 5 up']);
  player.press(5);
  assert.deepEqual(told(model), ['50 5 down']);
});

test('codes: every fault and stop has a text, and those of faults are the language\'s', () => {
  const language = readFileSync(new URL('../../../docs/LANGUAGE.md', import.meta.url), 'utf8');
  for (let number = 1; number <= 17; number += 1) {
    assert.doesNotMatch(codeText(`F${number}`), /doesn't know/);
    assert.match(language, new RegExp(`\\| F${number} \\|`));
  }
  for (let number = 1; number <= 7; number += 1) assert.doesNotMatch(codeText(`S${number}`), /doesn't know/);
});

test('the page: its texts are plain English', () => {
  const folder = new URL('../static/', import.meta.url);
  const odd = /by the signal|Fewer are faster|Keys of the keyboard|a step back, on\b|Key of key/;
  for (const name of readdirSync(folder)) assert.doesNotMatch(readFileSync(new URL(name, folder), 'utf8'), odd, name);
});

test('the page: no module has over 400 lines', () => {
  const folder = new URL('../static/', import.meta.url);
  for (const name of readdirSync(folder).filter((file) => file.endsWith('.mjs'))) {
    const lines = readFileSync(new URL(name, folder), 'utf8').split('\n').length - 1;
    assert.ok(lines <= 400, `${name}: ${lines} lines`);
  }
});

test('the page: no text is run or read as HTML, nothing comes from elsewhere, and each element that is named is there', () => {
  const folder = new URL('../static/', import.meta.url);
  const page = readFileSync(new URL('index.html', folder), 'utf8');
  const ids = new Set([...page.matchAll(/ id="([^"]+)"/g)].map(([, id]) => id));
  assert.equal(ids.size, [...page.matchAll(/ id="/g)].length);
  for (const [, id] of page.matchAll(/(?:aria-labelledby|aria-describedby|list)="([^"]+)"/g)) {
    for (const name of id.split(' ')) assert.ok(ids.has(name), name);
  }
  assert.doesNotMatch(page, / style="| on[a-z]+="|<style|https?:/);
  for (const name of readdirSync(folder).filter((file) => file.endsWith('.mjs'))) {
    const text = readFileSync(new URL(name, folder), 'utf8');
    assert.doesNotMatch(text, /innerHTML|outerHTML|insertAdjacentHTML|\beval\(|new Function|document\.write|https?:/, name);
    for (const [, id] of text.matchAll(/byId\('([^']+)'\)/g)) assert.ok(ids.has(id), `${name}: ${id}`);
  }
});
