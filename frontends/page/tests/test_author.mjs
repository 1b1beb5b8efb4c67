// The modules of the page that need no browser: what an author undoes, reads and takes away.

import assert from 'node:assert/strict';
import { readFileSync } from 'node:fs';
import test from 'node:test';

import './older_node.mjs';
import { Breakpoints } from '../static/breakpoints.mjs';
import { columnOf, indentAfter, outdentLength, placeOf } from '../static/columns.mjs';
import { completionsOf } from '../static/completion.mjs';
import { readPlaces } from '../static/fault_places.mjs';
import { fixed, fixesOf } from '../static/fixes.mjs';
import { Findings } from '../static/findings.mjs';
import { gamePage } from '../static/game_page.mjs';
import { readGame, writeGame } from '../static/game_file.mjs';
import { encodeGif } from '../static/gif.mjs';
import { KeyHistory } from '../static/key_history.mjs';
import { KeyScript } from '../static/key_script.mjs';
import { nearestPlace, wordAround } from '../static/editor_pointer.mjs';
import { Crashes, readExplored } from '../static/crashes.mjs';
import { furtherTexts } from '../static/crashes_view.mjs';
import { MNEMONICS, REGISTERS, rowOfWord, rowsOf, tokensOf } from '../static/language.mjs';
import { PROFILES } from '../static/quirk_table.mjs';
import { lookOf, mappedKey } from '../static/look.mjs';
import { Model } from '../static/model.mjs';
import { Names } from '../static/names.mjs';
import { difference, SourceText } from '../static/source_text.mjs';
import { answerText, isBad, readProved, scriptOf } from '../static/properties.mjs';
import { namedValues, propertyTokens, propertyWords } from '../static/property_line.mjs';
import { placeFrom, placesOf, replacedAll } from '../static/text_find.mjs';
import { listOf, quirksOf } from '../static/quirks.mjs';
import { readSprite, readSpriteLine, writeSprite } from '../static/sprite_lines.mjs';
import { TextHistory } from '../static/text_history.mjs';

/** A generator of numbers below a bound, the same in each run. */
function generator(seed) {
  let state = seed;
  return (bound) => {
    state = (Math.imul(state, 1664525) + 1013904223) >>> 0;
    return Math.floor((state / 2 ** 32) * bound);
  };
}

const kept = (value) => JSON.parse(JSON.stringify(value));

// What is taken away -----------------------------------------------------------------------------------------------------------

test('games: a page has the game, and no text of it is read as the page', () => {
  const template = '<title>@TITLE@</title><p>@SETTINGS@</p><script id="game">@GAME@</script>@MODULE@@TITLE@';
  const game = { title: 'a <b> & @GAME@', source: '; </script>@MODULE@\n', options: { rate: '20' }, tape: '05', look: { arrows: '2486', letters: true }, module: new Uint8Array(3) };
  const page = gamePage(template, game);
  const title = 'a &#60;b&#62; &#38; @GAME@';
  const about = '{"source":"; \\u003c/script>@MODULE@\\n","rate":20,"profile":"schip","quirks":"","tape":"05","arrows":"2486","letters":true}';
  assert.equal(page, `<title>${title}</title><p>Profile schip, rate 20</p><script id="game">${about}</script>AAAA${title}`);
  const other = gamePage('@SETTINGS@ @GAME@', { ...game, options: { profile: 'octo', quirks: 'shift=vx,edges=clip' } });
  assert.ok(other.startsWith('Profile octo, shift=vx, edges=clip, rate 10 {'), other);
  assert.ok(other.includes('"profile":"octo","quirks":"shift=vx,edges=clip"'), other);
});

test('quirks: a list has what differs from the profile, in the order of docs/MACHINE.md', () => {
  const octo = { shift: 'vy', memory: 'x+1', jump: 'v0', logic: 'keep', edges: 'wrap', dxy0: '16x16', scroll: 'whole', size: 'clear', fx1e: 'keep', instructions: 'super' };
  assert.deepEqual(quirksOf({ profile: 'octo' }), octo);
  assert.deepEqual(quirksOf({ profile: 'octo', quirks: 'edges=clip,shift=vx' }), { ...octo, edges: 'clip', shift: 'vx' });
  assert.equal(listOf('octo', { ...octo, edges: 'clip', shift: 'vx' }), 'shift=vx,edges=clip');
  assert.equal(listOf('octo', octo), '');
  const vip = { ...octo, logic: 'clear', edges: 'clip', dxy0: 'none', scroll: 'stored', size: 'keep', instructions: 'base' };
  assert.equal(listOf('schip', vip), 'shift=vy,memory=x+1,jump=v0,logic=clear,dxy0=none,instructions=base');
  assert.equal(listOf('schip', quirksOf({})), '');
  // what no quirk has is left out
  assert.deepEqual(quirksOf({ profile: 'octo', quirks: 'edges=round,speed=1,x' }), octo);
});

// What is undone ---------------------------------------------------------------------------------------------------------------

/** Types characters at the end of a text, a tenth of a second apart. */
function typed(history, text, characters, start = 0) {
  let now = text;
  [...characters].forEach((character, place) => {
    const selection = [now.length, now.length];
    history.record(now, now + character, { selectionBefore: selection, selectionAfter: [now.length + 1, now.length + 1], time: start + 100 * place, isTyped: true });
    now += character;
  });
  return now;
}

test('text: typing is undone by words and by pauses', () => {
  const history = new TextHistory();
  const text = typed(history, typed(history, '', 'LD V0, 5\n'), 'JP', 5000);
  const undone = [];
  for (let now = { text }; now !== null; now = history.undo(now.text)) undone.push(now.text);
  assert.deepEqual(undone, ['LD V0, 5\nJP', 'LD V0, 5\n', 'LD V0, 5', 'LD V0, ', 'LD ', '']);
  const redone = [];
  for (let now = { text: '' }; now !== null; now = history.redo(now.text)) redone.push(now.text);
  assert.deepEqual(redone, undone.toReversed());
});

test('text: any edits are undone and made again, also of what was kept', () => {
  const random = generator(5);
  for (let round = 0; round < 300; round += 1) {
    let history = new TextHistory();
    const texts = ['start'];
    for (let count = 1 + random(12); count > 0; count -= 1) {
      const before = texts.at(-1);
      const [at, length] = [random(before.length + 1), random(3)];
      const after = before.slice(0, at) + 'ab \n'.slice(0, random(4)) + before.slice(at + length);
      history.record(before, after, { selectionBefore: [at, at], selectionAfter: [at, at], time: 0, isTyped: random(2) === 1 });
      texts.push(after);
    }
    history = TextHistory.of(kept(history), texts.at(-1));
    let now = { text: texts.at(-1) };
    for (let next = history.undo(now.text); next !== null; next = history.undo(now.text)) now = next;
    assert.equal(now.text, 'start');
    for (let next = history.redo(now.text); next !== null; next = history.redo(now.text)) now = next;
    assert.equal(now.text, texts.at(-1));
  }
});

test('text: what was kept of another text, or is garbage, is not undone', () => {
  const history = new TextHistory();
  typed(history, '', 'LD V0');
  assert.equal(TextHistory.of(kept(history), 'another text').undo('another text'), null);
  for (const garbage of [null, 5, {}, { done: [5], undone: [] }, { done: [{ at: 0 }], undone: [] }, { done: 'x', undone: [] }]) {
    assert.equal(TextHistory.of(garbage, '').canUndo, false);
  }
});

test('keys: one change, or one play, is undone and made again, also after a reload', () => {
  const model = new Model();
  const scripts = [model.keys.events];
  const change = (keys, group) => {
    model.setKeys(keys, group);
    scripts.push(model.keys.events);
  };
  change(model.keys.with(1, 1, true));
  change(model.keys.with(2, 1, false), { play: 'one' });
  change(model.keys.with(3, 1, true), { play: 'one' });
  change(model.keys.with(4, 2, true), { play: 'another' });
  for (let place = 3; place >= 0; place -= 1) {
    model.undoKeys();
    assert.deepEqual(model.keys.events, scripts[place]);
  }
  model.undoKeys();
  assert.equal(model.keyHistory.canUndo, false);
  for (let place = 1; place <= 3; place += 1) {
    model.redoKeys();
    assert.deepEqual(model.keys.events, scripts[place]);
  }
  model.keyHistory = model.keyHistory.constructor.of(kept(model.keyHistory));
  assert.equal(model.keyHistory.lastPlay, 2);
  model.undoKeys(true);
  assert.deepEqual(model.keys.events, scripts[1]);
  model.redoKeys(true);
  assert.deepEqual(model.keys.events, scripts[3]);
});

test('keys: the dragging of an event is one change', () => {
  const model = new Model();
  model.setKeys(model.keys.with(10, 5, true));
  for (const step of [11, 15, 12]) model.setKeys(new KeyScript([{ step, key: 5, down: true }]), { move: 'a' });
  model.undoKeys();
  assert.deepEqual(model.keys.events, [{ step: 10, key: 5, down: true }]);
  model.redoKeys();
  assert.deepEqual(model.keys.events, [{ step: 12, key: 5, down: true }]);
});

test('breakpoints go along with their lines', () => {
  const breakpoints = new Breakpoints();
  breakpoints.set([2, 4]);
  breakpoints.follow(['A', 'B', 'C', 'D'], ['A', 'X', 'B', 'C', 'D']);
  assert.deepEqual(breakpoints.lines, [3, 5]);
  breakpoints.follow(['A', 'X', 'B', 'C', 'D'], ['A', 'X', 'B', 'D']);
  assert.deepEqual(breakpoints.lines, [3, 4]);
  breakpoints.follow(['A', 'X', 'B', 'D'], ['A', 'X', 'B!', 'D']);
  assert.deepEqual(breakpoints.lines, [3, 4]);
});

// What is read and written -------------------------------------------------------------------------------------------------------

test('language: what an instruction does is told for the machine that is chosen', () => {
  // what the manuals of the machines say, and the table of profiles in docs/MACHINE.md
  const told = [
    ['8ab1', { schip: /VF stays/, vip: /VF := 0/, octo: /VF stays/ }],
    ['8ab2', { schip: /VF stays/, vip: /VF := 0/ }],
    ['8ab3', { schip: /VF stays/, vip: /VF := 0/ }],
    ['8ab6', { schip: /Vx := Vx moved right/, vip: /Vx := Vy moved right/, octo: /Vx := Vy moved right/ }],
    ['8abe', { chip48: /Vx := Vx moved left/, vip: /Vx := Vy moved left/ }],
    ['b234', { schip: /a \+ Vx/, vip: /a \+ V0$/ }],
    ['f155', { schip: /I stays/, vip: /I \+ x \+ 1/, chip48: /I := I \+ x modulo/ }],
    ['f165', { schip: /I stays/, vip: /I \+ x \+ 1/, chip48: /I := I \+ x modulo/ }],
    ['f11e', { schip: /VF stays/ }],
    ['00c4', { schip: /stored pixels/, octo: /twice as far/, vip: /not an instruction/ }],
    ['00fb', { schip: /stored pixels/, octo: /twice as far/, vip: /not an instruction/ }],
    ['00fc', { schip: /stored pixels/, octo: /twice as far/, chip48: /not an instruction/ }],
    ['00fe', { schip: /the pixels stay/, octo: /become dark/, vip: /not an instruction/ }],
    ['00ff', { schip: /the pixels stay/, octo: /become dark/, vip: /not an instruction/ }],
    ['f130', { schip: /a large digit/, vip: /not an instruction/ }],
    ['f175', { schip: /flag registers/, chip48: /not an instruction/ }],
    ['d120', { schip: /8 pixels, 16 bytes.*S6/, vip: /draws nothing/, octo: /modulo the size.*32 bytes/ }],
    ['6a02', { schip: /Vx := kk$/, vip: /Vx := kk$/ }],
  ];
  for (const [word, texts] of told) for (const [profile, text] of Object.entries(texts)) assert.match(rowOfWord(word, { profile }), text, `${word} ${profile}`);
  assert.match(rowOfWord('f11e', { profile: 'octo', quirks: 'fx1e=flag' }), /VF := 1 if/);
  assert.match(rowOfWord('8ab1', { profile: 'vip', quirks: 'logic=keep' }), /VF stays/);
  // nothing is told of two kinds at once
  for (const profile of Object.keys(PROFILES)) for (const word of MNEMONICS) for (const row of rowsOf(word, { profile })) assert.ok(!(/VF stays/.test(row) && /VF :=/.test(row)), row);
});

test('language: tokens, and what completes them', () => {
  const kinds = (line) => tokensOf(line).map(({ kind, text }) => `${kind} ${text}`);
  assert.deepEqual(kinds("LOOP: ld v0, #1f ; it's"), ['name LOOP', 'sign :', 'mnemonic ld', 'register v0', 'sign ,', 'number #1f', "comment ; it's"]);
  assert.deepEqual(kinds("DA 'a;b', \"x"), ['directive DA', "text 'a;b'", 'sign ,', 'text "x']);
  const symbols = [{ name: 'LOOP', value: 512, line: 1 }, { name: 'LOW_BYTE', value: 3, line: 2 }];
  const words = (line, isAsked) => completionsOf(line, line.length, symbols, { isAsked })?.found.map(([word]) => word) ?? null;
  assert.deepEqual(words('  SK'), ['SKP', 'SKNP']);
  assert.deepEqual(words('A: sc'), ['SCD', 'SCR', 'SCL']);
  assert.deepEqual(words('  JP LO'), ['LOOP', 'LOW_BYTE']);
  assert.equal(words('  JP LOOP'), null);
  assert.equal(words('  J'), null);
  assert.equal(words('  JP #20'), null);
  assert.equal(words('  ; SK'), null);
  assert.equal(words("  DA 'SK"), null);
  assert.deepEqual(words('  LD ', true), [...symbols.map(({ name }) => name), ...REGISTERS].slice(0, 12));
  assert.ok(MNEMONICS.includes('DRW') && new Set(MNEMONICS).size === MNEMONICS.length);
});

test('faults: their places and sentences, as `check` prints them', () => {
  const output = 'a.asm:1:16: F9: undefined name\n        LD V0, COLUMN\n               ^~~~~~\nhelp: did you mean COLUMNS?\nnote: it is in line 9\nb:c.asm:3:9: F4: operands don\'t fit\nCLS LD V\n        ^\n';
  const places = readPlaces(output, ['        LD V0, COLUMN', '', 'CLS LD V'], 'utf-8');
  assert.deepEqual([...places], [
    [1, { code: 'F9', sentence: 'undefined name', start: 15, end: 21, help: ['did you mean COLUMNS?', 'it is in line 9'] }],
    [3, { code: 'F4', sentence: "operands don't fit", start: 8, end: 8, help: [] }],
  ]);
  const bytes = readPlaces("x:1:9: F1: bad character\nDB '\u00c3\u00a9'?\n       ^\n", ["DB '\u00c3\u00a9'?"], 'utf-8');
  assert.deepEqual(bytes.get(1), { code: 'F1', sentence: 'bad character', start: 7, end: 7, help: [] });
});

test('faults: what may be written in their place', () => {
  const made = (line, start, end, code, ...help) => fixesOf(line, { start, end, code, help }).map((fix) => [fix.title, fixed(line, fix)]);
  assert.deepEqual(made(' LD V1, NOWERE', 8, 14, 'F9', 'did you mean NOWHERE?'), [['Write NOWHERE', ' LD V1, NOWHERE']]);
  assert.deepEqual(made(' jp stat ; x', 4, 8, 'F9', 'did you mean START?'), [['Write START', ' jp start ; x']]);
  assert.deepEqual(made(' MOV V0, 1', 1, 4, 'F3', 'MOV is written LD here'), [['Write LD', ' LD V0, 1']]);
  assert.deepEqual(made(' LD V0, 0x12', 8, 12, 'F1', 'a hexadecimal number begins with `#`: #12'), [['Write #12', ' LD V0, #12']]);
  assert.deepEqual(made('A: LD V0 5', 6, 8, 'F4', 'a comma is missing between two operands'), [['Put a comma', 'A: LD V0, 5']]);
  assert.deepEqual(made(' drw v0 V1 5 ; x y', 5, 7, 'F4', 'a comma is missing between two operands'), [
    ['Put a comma', ' drw v0, V1 5 ; x y'], ['Put commas', ' drw v0, V1, 5 ; x y'],
  ]);
  assert.deepEqual(made(' LD V0, 1 // note', 8, 9, 'F4', 'a comment begins with `;`'), [['Write ;', ' LD V0, 1 ; note']]);
  assert.deepEqual(made(' LD V0, 1 << 2', 8, 9, 'F4', 'a shift is one sign, `<` or `>`'), [['Write <', ' LD V0, 1 < 2']]);
  assert.deepEqual(made(' DB ">>", 8>>1', 4, 8, 'F4', 'a shift is one sign, `<` or `>`'), [['Write >', ' DB ">>", 8>1']]);
  assert.deepEqual(made(' DA "abc ', 4, 8, 'F2', 'a text ends with the quote that it begins with'), [['Close the text', ' DA "abc"']]);
  assert.deepEqual(made('LOOPS', 0, 5, 'F3'), [['Make LOOPS a label', 'LOOPS:']]);
  assert.deepEqual(made(' LD V0, 300', 8, 11, 'F10', 'the value is 300, and has to lie from -128 to 255'), []);
});

test('the form of an instruction is that of its word', () => {
  // docs/MACHINE.md: the words and their rows
  for (const [word, form] of [['00e0', 'CLS'], ['6a02', 'LD Vx, kk'], ['8ab0', 'LD Vx, Vy'], ['f10a', 'LD Vx, K'], ['f155', 'LD [I], Vx'], ['0123', 'SYS a'], ['00c4', 'SCD n'], ['d014', 'DRW Vx, Vy, n']]) {
    assert.equal(rowOfWord(word).split('  ')[0], form, word);
  }
  assert.equal(rowOfWord('f1ff'), null);
});

test('text: finding and replacing', () => {
  const text = 'Ball, ball; BALLS\nball';
  assert.deepEqual(placesOf(text, 'ball'), [0, 6, 12, 18]);
  assert.deepEqual(placesOf(text, 'ball', true), [6, 18]);
  assert.deepEqual([placesOf(text, ''), placesOf('aaaa', 'aa'), placesOf('\u0130ball', 'ball')], [[], [0, 2], [1]]);
  assert.deepEqual([0, 6, 7, 19].map((cursor) => placeFrom([0, 6, 12, 18], cursor, true)), [0, 1, 2, 0]);
  assert.deepEqual([0, 6, 7, 19].map((cursor) => placeFrom([0, 6, 12, 18], cursor, false)), [3, 0, 1, 3]);
  assert.equal(placeFrom([], 3, true), -1);
  assert.equal(replacedAll(text, 'ball', 'x$&'), 'x$&, x$&; x$&S\nx$&');
});

test('columns, with tabs; indents', () => {
  assert.deepEqual([0, 1, 2, 3].map((place) => columnOf('a\tb', place)), [0, 1, 8, 9]);
  assert.deepEqual([0, 1, 7, 8, 9, 30].map((column) => placeOf('a\tb', column)), [0, 1, 1, 2, 3, 3]);
  assert.deepEqual(['  CLS', 'LOOP: CLS', 'CLS', 'LONG_LABEL: CLS'].map(indentAfter), ['  ', '        ', '', '            ']);
  assert.deepEqual(['        ', '          ', 'CLS', ' ', '\t\t'].map(outdentLength), [8, 2, 0, 0, 0]);
});

test('names of addresses', () => {
  const listing = [{ address: 512, field: '=3' }, { address: 512, field: '00e0' }, { address: 514, field: '00e0' }, { address: 0x400, field: '' }];
  const names = new Names([{ name: 'SIZE', value: 512, line: 1 }, { name: 'START', value: 512, line: 2 }, { name: 'NEXT', value: 514, line: 3 }], listing);
  assert.deepEqual([511, 512, 513, 514, 600, 2000].map((address) => names.at(address)), [null, 'START', 'START+1', 'NEXT', 'NEXT+86', null]);
  assert.equal(names.told(0x203), '#203 NEXT+1');
  assert.equal(new Names().told(0x203), '#203');
});

test('a source with its keys is one file, which is read as it was written', () => {
  const keys = new KeyScript().with(20, 3, true).with(44, 3, false);
  const game = { text: 'CLS ; é\nRET', form: { encoding: 'utf-8', lineEnd: '\n' }, keys, options: { rate: '7', tape: '0f'.repeat(400), profile: 'schip-modern', quirks: 'memory=x+1,edges=wrap' }, step: 99 };
  Object.assign(game, { look: { screen: 'amber', arrows: '2486', letters: true }, breakLines: Array.from({ length: 60 }, (_, place) => place + 1) });
  const read = readGame(writeGame(game));
  assert.deepEqual(read, { source: 'CLS ; \u00c3\u00a9\nRET\n', keys: '20 3 down\n44 3 up\n', options: game.options, look: game.look, breakLines: game.breakLines, step: 99 });
  for (const line of writeGame(game).split('\n')) assert.ok(line.length <= 200, line);
  // as it was written before it had a look and breakpoints
  const older = 'CLS\n; chipbench: the keys, settings and step of this game\n; --seed=7\n; step 5\n; 20 3 down\n';
  assert.deepEqual(readGame(older), { source: 'CLS\n', keys: '20 3 down\n', options: { seed: '7' }, look: { screen: 'theme', arrows: '', letters: false }, breakLines: [], step: 5 });
  assert.equal(readGame('CLS\nRET\n'), null);
  for (const line of writeGame(game).split('\n').slice(2, -1)) assert.ok(line.startsWith('; '), line);
});

/** The pictures of a GIF file, by a reader that knows no more than the form. */
function framesOf(bytes) {
  const frames = [];
  let at = 13 + 6;
  while (bytes[at] !== 0x3b) {
    if (bytes[at] === 0x21) {
      at += 2;
      while (bytes[at] !== 0) at += bytes[at] + 1;
      at += 1;
      continue;
    }
    at += 11;
    const data = [];
    while (bytes[at] !== 0) {
      data.push(...bytes.slice(at + 1, at + 1 + bytes[at]));
      at += bytes[at] + 1;
    }
    at += 1;
    frames.push(pixelsOfCodes(data));
  }
  return frames;
}

function pixelsOfCodes(data) {
  const pixels = [];
  let [table, size, place, before] = [[[0], [1], [2], [3], null, null], 3, 0, null];
  const next = () => {
    let code = 0;
    for (let bit = 0; bit < size; bit += 1, place += 1) code |= ((data[place >> 3] >> (place & 7)) & 1) << bit;
    return code;
  };
  for (let code = next(); code !== 5; code = next()) {
    if (code === 4) {
      [table, size, before] = [[[0], [1], [2], [3], null, null], 3, null];
      continue;
    }
    const entry = table[code] ?? [...before, before[0]];
    pixels.push(...entry);
    if (before !== null) table.push([...before, entry[0]]);
    before = entry;
    if (table.length === 1 << size && size < 12) size += 1;
  }
  return pixels;
}

test('gif: the pictures are those that were written', () => {
  const random = generator(9);
  for (const density of [1, 2, 50]) {
    const frames = Array.from({ length: 3 }, () => Uint8Array.from({ length: 128 * 64 }, () => (random(density) === 0 ? 1 : 0)));
    const bytes = encodeGif({ frames, width: 128, height: 64, scale: 1, colours: ['#000000', '#ffffff'], hundredths: 3 });
    assert.deepEqual(framesOf(bytes), density === 1 ? [[...frames[0]]] : frames.map((frame) => [...frame]));
  }
  const large = encodeGif({ frames: [Uint8Array.of(1, 0)], width: 2, height: 1, scale: 2, colours: ['#000000', '#ffffff'], hundredths: 3 });
  assert.deepEqual(framesOf(large), [[1, 1, 0, 0, 1, 1, 0, 0]]);
});

// The text of the editor ---------------------------------------------------------------------------------------------------------

test('text: parts that are replaced give the lines and places of the whole text', () => {
  const random = generator(11);
  const source = new SourceText();
  let text = '';
  for (let round = 0; round < 500; round += 1) {
    const [one, other] = [random(text.length + 1), random(text.length + 1)];
    const [start, end] = [Math.min(one, other), Math.max(one, other)];
    const part = Array.from({ length: random(9) }, () => 'ab\n'[random(3)]).join('');
    const lines = source.lines;
    const before = lines.join('\n');
    source.replace(start, end, part);
    assert.equal(lines.join('\n'), before);
    const { at, removed, inserted } = difference(text, source.text);
    assert.equal(text.slice(0, at) + inserted + text.slice(at + removed.length), source.text);
    text = text.slice(0, start) + part + text.slice(end);
    assert.equal(source.text, text);
    assert.deepEqual(source.lines, text.split('\n'));
    const place = random(text.length + 1);
    const line = text.slice(0, place).split('\n').length;
    assert.equal(source.lineAt(place), line);
    assert.equal(source.startOf(line), text.split('\n').slice(0, line - 1).join('\n').length + (line > 1 ? 1 : 0));
  }
});

test('text: the place under a pointer, and the word around it', () => {
  const wide = (part) => [...part].reduce((sum, character) => sum + (character > '\u2fff' ? 20 : 10), 0);
  assert.deepEqual([0, 14, 16, 99].map((x) => nearestPlace('LD V0', x, 10, wide)), [0, 1, 2, 5]);
  assert.deepEqual([0, 9, 11, 31, 49].map((x) => nearestPlace('\u5b57\u5b57a', x, 10, wide)), [0, 0, 1, 2, 3]);
  assert.deepEqual([wordAround('LD V0, 5', 4), wordAround('LD V0, 5', 5), wordAround('LD V0, 5', 6), wordAround('', 0)], [[3, 5], [3, 5], [6, 7], [0, 0]]);
});

test('look: the keys that arrows stand for, and what was kept', () => {
  const look = lookOf({ screen: 'amber', arrows: '2486', letters: true });
  assert.deepEqual(['ArrowUp', 'ArrowLeft', 'ArrowDown', 'ArrowRight', 'KeyA', 'KeyQ'].map((code) => mappedKey(look, code)), [2, 4, 8, 6, 4, null]);
  assert.deepEqual(['ArrowUp', 'KeyA'].map((code) => mappedKey(lookOf({ arrows: '5789' }), code)), [5, null]);
  assert.equal(mappedKey(lookOf(null), 'ArrowUp'), null);
  assert.deepEqual(lookOf({ screen: 5, arrows: '12', letters: 'x' }), { screen: 'theme', arrows: '', letters: false });
});

test('sprites: the DB lines that one is from, and is written to', () => {
  const lines = ['SHIP: DB $...11..., 255 ; top', '  DB #0f', 'NEXT: DB 1', 'DB 1, NAME', 'LD V0, 5'];
  const found = readSprite(lines, 1);
  assert.deepEqual([found.bytes, found.lines.length], [[0x18, 255, 15], 2]);
  assert.deepEqual(writeSprite(found.lines, [1, 2, 3]), ['SHIP: DB $.......1, $......1.  ; top', '  DB $......11']);
  assert.deepEqual(writeSprite(found.lines, [1, 2, 3, 4]), ['SHIP: DB $.......1, $......1.  ; top', '  DB $......11, $.....1..']);
  assert.deepEqual(writeSprite(found.lines, [1]), ['SHIP: DB $.......1  ; top']);
  assert.deepEqual([readSprite(lines, 3).bytes, readSprite(lines, 4), readSprite(lines, 5)], [[1], null, null]);
  assert.equal(readSpriteLine('DB 256'), null);
});

// Crashes ---------------------------------------------------------------------------------------------------------------------

test('crashes: what `explore` prints', () => {
  // as docs/FORMATS.md has it
  assert.deepEqual(readExplored('S5 3\nkeys 2\nstates 1\n'), { crash: { cause: 'S5', step: 3, line: null }, within: null, isForAll: false, left: [], others: [] });
  assert.deepEqual(readExplored('S5 3, line 13: RET\nkeys 2\nstates 1\n').crash, { cause: 'S5', step: 3, line: 13 });
  assert.deepEqual(readExplored('S6 40\nkeys 2\nS2 77\nstates 91\n').others, [{ cause: 'S2', step: 77 }]);
  assert.deepEqual(readExplored('within 2349\nstates 200001\n'), { crash: null, within: 2349, isForAll: false, left: [], others: [] });
  assert.deepEqual(readExplored('never\nstates 7\n'), { crash: null, within: null, isForAll: false, left: [], others: [] });
  assert.equal(readExplored('never\nfor any keys, random bytes and speed\nfacts 5\n').isForAll, true);
  const some = readExplored('S2 3, line 4: DW #0000\nkeys 2\nstates 1\nleft S2 0206, line 4: DW #0000\nleft S6 020a\n');
  assert.deepEqual(some.left, [{ cause: 'S2', address: '0206', line: 4 }, { cause: 'S6', address: '020a', line: null }]);
  assert.deepEqual(furtherTexts(some).map((text) => text.slice(0, 26)), ['Still possible: S6 at 020a']);
  assert.equal(readExplored('a.asm:1:1: F9: undefined name\n'), null);
});

// Timers that go off as the test lets time pass: those of node's test runner are enabled in another way in each version.
class Timers {
  constructor(context) {
    this.now = 0;
    this.number = 0;
    this.waiting = new Map();
    context.mock.method(globalThis, 'setTimeout', (call, delay = 0) => {
      this.number += 1;
      this.waiting.set(this.number, { time: this.now + delay, call });
      return this.number;
    });
    context.mock.method(globalThis, 'clearTimeout', (number) => this.waiting.delete(number));
  }

  pass(milliseconds) {
    const end = this.now + milliseconds;
    for (;;) {
      const [number, next] = [...this.waiting].sort(([, one], [, other]) => one.time - other.time)[0] ?? [];
      if (!next || next.time > end) break;
      this.waiting.delete(number);
      this.now = next.time;
      next.call();
    }
    this.now = end;
  }
}

/** A search for crashes on a model, whose requests are noted, and whose answers are `told`. */
function searchOn(context, text) {
  const timers = new Timers(context);
  const model = new Model();
  model.setText(text);
  const findings = new Findings(model);
  const search = { model, findings, asked: [], told: { step: 5, states: 6, result: null }, number: 0 };
  const ask = async (name, body) => {
    search.asked.push(body.action === 'start' ? `start ${body.source.trim()}` : `${body.action} ${body.number}`);
    if (body.action === 'start') search.number += 1;
    return { number: search.number, ...search.told };
  };
  search.crashes = new Crashes({ model, findings, hasRun: async () => model.text !== 'BAD', ask });
  search.pass = async (milliseconds) => {
    timers.pass(milliseconds);
    for (let count = 0; count < 19; count += 1) await Promise.resolve();
  };
  return search;
}

const FOUND = { status: 1, output: 'S5 0\nkeys 0\nstates 1\n', keys: '' };
const opened = (text) => ({ text, form: { encoding: 'utf-8', lineEnd: '\n' }, keys: new KeyScript(), options: {}, textHistory: new TextHistory(), keyHistory: new KeyHistory() });

test('crashes: what was found goes with the text, and comes back with it', async (context) => {
  const search = searchOn(context, 'RET');
  const { model, crashes, pass } = search;
  search.told.result = FOUND;
  crashes.start();
  await pass(0);
  assert.equal(crashes.state.name, 'found');
  crashes.stop();
  assert.equal(crashes.state.found.crash.cause, 'S5');
  model.setText('CLS');
  assert.deepEqual([crashes.state.name, crashes.state.found], ['off', null]);
  model.setText('RET');
  assert.equal(crashes.state.found.crash.cause, 'S5');
  model.setOptions({ profile: 'vip' });
  assert.equal(crashes.state.found, null);
  model.startWith(opened('RET'));
  assert.deepEqual([crashes.state.name, crashes.state.found], ['off', null]);
});

test('crashes: an answer that comes when another document is open is dropped', async (context) => {
  const search = searchOn(context, 'RET');
  const { model, findings } = search;
  const { wanted } = model;
  model.startWith(opened('CLS'));
  assert.equal(findings.take('explore', wanted, { name: 'found' }), false);
  assert.equal(findings.get('explore'), null);
  assert.equal(findings.take('explore', model.wanted, { name: 'found' }), true);
});

test('findings: one of an earlier text is told apart, and what rests on less is present longer', () => {
  const model = new Model();
  model.startWith(opened('CLS'));
  const findings = new Findings(model);
  findings.take('shown', model.wanted, 'the machine');
  findings.take('places', model.wanted, 'the places');
  model.setKeys(model.keys.with(3, 5, true));
  assert.deepEqual([findings.get('shown'), findings.present('shown')], [{ value: 'the machine', isPresent: false }, null]);
  assert.deepEqual(findings.get('places'), { value: 'the places', isPresent: true });
  model.setText('RET');
  assert.deepEqual(findings.get('places'), { value: 'the places', isPresent: false });
  model.startWith(opened('RET'));
  assert.deepEqual([findings.get('shown'), findings.get('places')], [null, null]);
});

test('crashes: unasked it looks for a second; asked it goes on', async (context) => {
  const search = searchOn(context, 'RET');
  const { crashes, pass } = search;
  let now = 0;
  context.mock.method(performance, 'now', () => now);
  crashes.begin();
  await pass(0);
  assert.deepEqual([crashes.state.name, crashes.isBusy], ['searches', true]);
  for (const time of [400, 800, 1200]) {
    now = time;
    await pass(300);
  }
  assert.deepEqual([crashes.state.name, crashes.state.step, crashes.isBusy], ['paused', 5, false]);
  assert.equal(search.asked.at(-1), 'stop 1');
  crashes.start();
  await pass(0);
  now = 99_000;
  await pass(900);
  assert.deepEqual([crashes.state.name, crashes.isBusy], ['searches', true]);
  crashes.stop();
});

test('crashes: a change of the source begins the search anew, and a stop ends it', async (context) => {
  const search = searchOn(context, 'CLS');
  const { model, crashes, pass, asked } = search;
  crashes.start();
  await pass(0);
  assert.deepEqual([crashes.state.name, crashes.state.step], ['searches', 5]);
  model.setText('RET');
  assert.equal(crashes.state.name, 'waits');
  await pass(1000);
  search.told.result = FOUND;
  await pass(400);
  assert.deepEqual([crashes.state.name, crashes.state.found.crash], ['found', { cause: 'S5', step: 0, line: null }]);
  model.setText('BAD');
  await pass(1000);
  assert.equal(crashes.state.name, 'faulty');
  search.told.result = null;
  model.setText('RET ');
  await pass(1000);
  crashes.stop();
  await pass(1000);
  assert.deepEqual([crashes.state.name, crashes.isBusy], ['paused', false]);
  assert.deepEqual(asked, ['start CLS', 'stop 1', 'start RET', 'tell 2', 'start RET', 'stop 3']);
});

// Properties -------------------------------------------------------------------------------------------------------------------

test('properties: what `prove --json` prints', () => {
  const lines = [
    '{"line":12,"column":12,"end":17,"code":"P3","message":"undefined name","help":["did you mean LIVES?"],"file":"game.asm"}',
    '{"line":4,"property":"always V1 <= 27","answer":"broken","step":3384,"keys":[{"step":20,"key":5,"down":true},{"step":31,"key":5,"down":false}],"file":"game.asm"}',
    '{"line":5,"property":"V0 <= 63 here","answer":"proved","file":"game.asm"}',
    '{"line":6,"property":"never VF = 1 at ADDED","answer":"unbroken","covered":16291,"file":"game.asm"}',
    '{"line":7,"property":"ever at OVER","answer":"not reached","covered":9,"file":"game.asm"}',
    '{"line":8,"property":"can at WIN","answer":"dead end","step":18,"keys":[{"step":2,"key":4,"down":true}],"file":"game.asm"}',
    '{"line":9,"property":"can at OVER","answer":"always","file":"game.asm"}',
    '{"line":10,"property":"can V1 = 0","answer":"undecided","covered":40,"file":"game.asm"}',
    '{"states":30065,"file":"game.asm"}',
  ];
  const { answers, faults, ending } = readProved(lines.map((line) => `${line}\n`).join(''));
  assert.deepEqual(faults.get(12), { code: 'P3', message: 'undefined name', help: ['did you mean LIVES?'] });
  assert.equal(ending.states, 30065);
  assert.equal(scriptOf(answers.get(4)), '20 5 down\n31 5 up\n');
  const texts = [...answers.values()].map((answer) => [answerText(answer, String), isBad(answer)]);
  assert.deepEqual(texts, [
    ['broken at step 3384', true],
    ['proved', false],
    ['unbroken up to step 16291', false],
    ['not reached up to step 9', true],
    ['dead end at step 18', true],
    ['always', false],
    ['undecided up to step 40', false],
  ]);
  assert.equal(answerText({ answer: 'broken', step: 5000, covered: 300 }, String), 'broken at step 5000; no keys do so up to step 300');
  // as far as it has come, without the line that isn't whole
  assert.equal(readProved(`${lines[1]}\n{"line":5`).answers.size, 1);
  assert.equal(readProved('usage: chipbench\n'), null);
});

test('properties: the lines that state them, their tokens and what may stand there', () => {
  const tokens = propertyTokens(';! never [LIVES] = 3 at END ; so');
  assert.deepEqual(
    tokens.map(({ kind, text }) => [kind, text]),
    [
      ['directive', ';!'], ['mnemonic', 'never'], ['sign', '['], ['name', 'LIVES'], ['sign', ']'], ['sign', '='],
      ['number', '3'], ['mnemonic', 'at'], ['name', 'END'], ['comment', '; so'],
    ],
  );
  assert.ok(tokens.every(({ text, start }) => ';! never [LIVES] = 3 at END ; so'.startsWith(text, start)));
  const names = [['LIVES', '= 768']];
  assert.deepEqual(propertyWords(';! always V0 <= 3 at ', names), names);
  assert.deepEqual(propertyWords(';! [', names), names);
  assert.ok(propertyWords(';! ', names).some(([word]) => word === 'always'));
  assert.ok(!propertyWords(';! V0 ', names).some(([word]) => word === 'always'));
});

test('properties: the values that one names', () => {
  const registers = { v: Array.from({ length: 16 }, (_, number) => 16 * number), pc: 0x202, i: 0x300, dt: 7, stack: [0x204] };
  const screen = { size: 'low', rows: [{ row: 4, digits: `0008${'0'.repeat(28)}` }] };
  const machine = { registers, memory: Uint8Array.from({ length: 4096 }, (_, place) => place % 251), screen };
  const symbols = [{ name: 'LIVES', value: 768 }];
  const valuesOf = (property) => namedValues(property, machine, symbols);
  assert.deepEqual(valuesOf('V0 + 2 * vf <= I and V0 > 1'), [['V0', 0], ['VF', 240], ['I', 768]]);
  assert.deepEqual(valuesOf('[LIVES] < DEPTH or [#301] = DT at LIVES'), [['[LIVES]', 15], ['DEPTH', 1], ['[#301]', 16], ['DT', 7]]);
  assert.deepEqual(valuesOf('PIXEL(6, 2) = PIXEL(7,2) and HIGH = 0'), [['PIXEL(6,2)', 1], ['PIXEL(7,2)', 0], ['HIGH', 0]]);
});
