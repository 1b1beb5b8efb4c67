// What the browser keeps, where its database is slow, late, closed or faulty: no text, key or undo is lost, and what belongs together
// stays together.

import assert from 'node:assert/strict';
import test, { beforeEach } from 'node:test';

import { asksToLeave, database, fillStorage, fresh, hurryUp, keptOf, notices, otherWindow, page, pause, press, reload, stateOf, storage, until } from './fake_page.mjs';

const [ONE, TWO, MINE, NEXT] = ['LD V0, 1\n', 'LD V0, 2\n', 'LD V0, 7 ; mine\n', 'LD V0, 8 ; next\n'];

beforeEach(() => fresh({ 'one.asm': ONE, 'two.asm': TWO }));

const texts = (store) => database.rows(store).map(({ text }) => text);

/** A page whose one.asm has work that is kept, with two.asm open. */
async function withWork() {
  const here = await page('one.asm');
  here.editor.become(MINE);
  here.model.setKeys(here.model.keys.with(3, 5, true));
  await here.openNamed('two.asm');
  await until(() => keptOf('two.asm') !== undefined);
  assert.equal(keptOf('one.asm').text, MINE);
  return here;
}

test('kept: a read that fails once is made again', async () => {
  const here = await withWork();
  let left = 1;
  database.fails = (mode) => mode === 'readonly' && left-- > 0;
  await here.openNamed('one.asm');
  assert.deepEqual([here.model.text, here.model.keys.size], [MINE, 1]);
  here.editor.undo();
  assert.equal(here.model.text, ONE);
});

test('kept: what cannot be read is not written over, and is read again', async () => {
  const here = await withWork();
  database.fails = (mode) => mode === 'readonly';
  await here.openNamed('one.asm');
  assert.equal(here.model.text, ONE);
  assert.match(notices().join(), /one\.asm can't be read/);
  here.editor.become(NEXT);
  await until(() => texts('documents').includes(NEXT));
  assert.deepEqual([keptOf('one.asm').text, keptOf('one.asm').keys], [MINE, '3 5 down\n']);
  database.fails = () => false;
  press('Read it again');
  await until(() => here.model.text === MINE);
  assert.equal(here.model.keys.size, 1);
  await pause(400);
  // what was typed meanwhile is a document of its own
  assert.deepEqual(texts('documents').sort(), [TWO, MINE, NEXT].sort());
});

test('kept: what cannot be read at the begin is there after a reload', async () => {
  await withWork();
  database.fails = (mode) => mode === 'readonly';
  const here = await reload('one.asm');
  await pause(500);
  assert.match(notices().join(), /can't be read/);
  assert.equal(keptOf('one.asm').text, MINE);
  assert.equal(database.rows('documents').length, 2);
  here.editor.become(NEXT);
  database.fails = () => false;
  const again = await reload('one.asm');
  assert.deepEqual([again.model.text, keptOf('one.asm').text], [TWO, MINE]);
  await again.openNamed('one.asm');
  assert.equal(again.model.text, MINE);
  assert.ok(texts('documents').includes(NEXT));
});

test('kept: the author has what cannot be read written over, and its text is put aside', async () => {
  const here = await withWork();
  database.fails = (mode) => mode === 'readonly';
  await here.openNamed('one.asm');
  here.editor.become(NEXT);
  press('Write over it');
  await until(() => keptOf('one.asm').text === NEXT);
  assert.ok(texts('earlier').includes(MINE));
});

test('kept: a database that the browser closed is opened again', async () => {
  for (const isTold of [true, false]) {
    const here = await withWork();
    database.close(isTold);
    await here.openNamed('one.asm');
    assert.equal(here.model.text, MINE);
    here.editor.become(NEXT);
    await until(() => keptOf('one.asm').text === NEXT);
    fresh({ 'one.asm': ONE, 'two.asm': TWO });
  }
});

test('kept: a database that cannot be opened is opened later, and what was typed is kept then', async () => {
  const here = await withWork();
  database.isShut = true;
  database.close();
  const again = await reload('one.asm');
  await again.openNamed('one.asm');
  assert.match(notices().join(), /one\.asm can't be read: the disk failed/);
  again.editor.become(NEXT);
  await until(() => asksToLeave());
  database.isShut = false;
  await until(() => texts('documents').includes(NEXT));
  assert.deepEqual([here.model.text, keptOf('one.asm').text], [TWO, MINE]);
  await again.openNamed('one.asm');
  assert.equal(again.model.text, MINE);
});

test('kept: a write that fails belongs to its document, and is made again', async () => {
  const here = await page('one.asm');
  await until(() => keptOf('one.asm') !== undefined);
  database.fails = (mode) => mode === 'readwrite';
  here.editor.become(MINE);
  here.model.setKeys(here.model.keys.with(3, 5, true));
  await here.openNamed('two.asm');
  assert.equal(here.model.text, TWO);
  assert.match(notices().join(), /no room/);
  assert.equal(asksToLeave(), true);
  // it is here again, with its keys and what can be undone
  await here.openNamed('one.asm');
  assert.deepEqual([here.model.text, here.model.keys.size], [MINE, 1]);
  here.editor.undo();
  assert.equal(here.model.text, ONE);
  here.editor.become(NEXT);
  await here.openNamed('two.asm');
  database.fails = () => false;
  await until(() => keptOf('one.asm').text === NEXT);
  assert.equal(here.model.text, TWO);
  await until(() => !/no room/.test(notices().join()));
  assert.equal(asksToLeave(), false);
});

test('kept: a write that fails is not lost at a reload after another document was opened', async () => {
  const here = await page('one.asm');
  await until(() => keptOf('one.asm') !== undefined);
  database.fails = (mode) => mode === 'readwrite';
  here.editor.become(MINE);
  await here.openNamed('two.asm');
  const isAsked = asksToLeave();
  database.fails = () => false;
  const again = await reload('one.asm');
  assert.equal(isAsked, true);
  await again.openNamed('one.asm');
  assert.equal(again.model.text, MINE);
  again.editor.undo();
  assert.equal(again.model.text, ONE);
});

test('kept: what is changed while another document is read is kept', async () => {
  const here = await page('one.asm');
  await until(() => keptOf('one.asm') !== undefined);
  database.delay = 60;
  const opening = here.openNamed('two.asm');
  await pause(30);
  here.editor.become(MINE);
  await opening;
  assert.equal(here.model.text, TWO);
  await here.openNamed('one.asm');
  assert.equal(here.model.text, MINE);
  // and also while the same document is opened again
  const again = here.openNamed('one.asm');
  await pause(30);
  here.editor.become(NEXT);
  await again;
  assert.equal(here.model.text, NEXT);
});

test('kept: what is changed while the same document is read is kept, also where it is written before that is read', async () => {
  const here = await page('one.asm');
  await until(() => keptOf('one.asm') !== undefined);
  // longer than the page waits until it writes what was changed
  database.delay = 500;
  const opening = here.openNamed('one.asm');
  await pause(30);
  here.editor.become(NEXT);
  await opening;
  assert.equal(here.model.text, NEXT);
  here.editor.undo();
  assert.equal(here.model.text, ONE);
});

test('kept: an opening waits for what is written of the document', async () => {
  const here = await page('one.asm');
  await until(() => keptOf('one.asm') !== undefined);
  database.delay = 40;
  here.editor.become(MINE);
  void here.openNamed('two.asm');
  await here.openNamed('one.asm');
  assert.equal(here.model.text, MINE);
});

test('kept: a write that goes on at a reload does not hide the undo after it', async () => {
  for (const isWritten of [false, true]) {
    const here = await page('one.asm');
    await until(() => keptOf('one.asm') !== undefined);
    database.hangs = (mode) => mode === 'readwrite';
    here.editor.become(MINE);
    await until(() => database.isHeld);
    here.editor.undo();
    database.hangs = () => false;
    const again = await reload('one.asm', isWritten);
    assert.equal(again.model.text, ONE);
    fresh({ 'one.asm': ONE, 'two.asm': TWO });
  }
});

test('kept: a database that never answers is as one that fails', async () => {
  const here = await withWork();
  hurryUp();
  database.hangs = (mode) => mode === 'readonly';
  await here.openNamed('one.asm');
  assert.match(notices().join(), /one\.asm can't be read: the browser didn't answer/);
  assert.equal(keptOf('one.asm').text, MINE);
  database.hangs = (mode) => mode === 'readwrite';
  here.editor.become(NEXT);
  await until(() => /no room/.test(notices().join()));
  database.hangs = () => false;
  await until(() => texts('documents').includes(NEXT));
  assert.equal(keptOf('one.asm').text, MINE);
});

test('kept: what a closed window had not written stays until it is taken over', async () => {
  let here = await page('one.asm');
  await until(() => keptOf('one.asm') !== undefined);
  here.editor.become(MINE);
  database.fails = () => true;
  here = await reload('one.asm');
  // what is written of another document drops nothing
  database.fails = (mode) => mode === 'readonly';
  await here.openNamed('two.asm');
  here.editor.become(NEXT);
  await until(() => texts('documents').includes(NEXT));
  database.fails = () => false;
  await here.openNamed('one.asm');
  assert.equal(here.model.text, MINE);
});

test('kept: what one window had not written is not dropped by another one', async () => {
  const here = await page('one.asm');
  await until(() => keptOf('one.asm') !== undefined);
  const theirs = { ...keptOf('one.asm'), text: 'LD V0, 9 ; theirs\n', stamp: 'theirs', before: [keptOf('one.asm').stamp], isWork: true };
  const otherModule = '../static/old_storage.mjs?other';
  (await import(otherModule)).keepPending(theirs);
  here.editor.become(MINE);
  await until(() => keptOf('one.asm').text === MINE);
  await pause(50);
  const again = await reload('one.asm');
  assert.deepEqual([again.model.text, ...texts('earlier')].sort(), [theirs.text, MINE].sort());
});

test('kept: two windows of a document that is new write over nothing unasked', async () => {
  const here = await page('one.asm');
  const other = await otherWindow('one.asm');
  here.editor.become(MINE);
  await until(() => keptOf('one.asm')?.text === MINE);
  other.editor.become(NEXT);
  await until(() => keptOf('one.asm').text === NEXT);
  assert.deepEqual(texts('earlier'), [MINE]);
});

test('kept: an earlier text that cannot be written is told, and written later', async () => {
  const here = await page('one.asm');
  await until(() => keptOf('one.asm') !== undefined);
  here.editor.become(MINE);
  database.fails = (mode, names) => mode === 'readwrite' && names.join() === 'earlier';
  here.documents.replace(NEXT, here.model.form, 'Another text.');
  await until(() => /no room/.test(notices().join()));
  assert.equal(asksToLeave(), true);
  database.fails = () => false;
  here.editor.become(ONE);
  await until(() => texts('earlier').includes(MINE));
  assert.equal(asksToLeave(), false);
});

test('kept: an earlier text that is being written at a reload is not lost', async () => {
  const here = await page('one.asm');
  await until(() => keptOf('one.asm') !== undefined);
  here.editor.become(MINE);
  database.hangs = () => true;
  here.documents.replace(NEXT, here.model.form, 'Another text.');
  await pause(20);
  database.hangs = () => false;
  const again = await reload('one.asm');
  assert.deepEqual([again.model.text, texts('earlier')], [NEXT, [MINE]]);
});

test('kept: a window whose work has room nowhere asks before it is closed', async () => {
  const here = await page('one.asm');
  await until(() => keptOf('one.asm') !== undefined);
  here.editor.become(MINE);
  fillStorage();
  assert.equal(asksToLeave(), true);
  await until(() => keptOf('one.asm').text === MINE);
  assert.equal(asksToLeave(), false);
});

test('kept: a text that is saved over a file puts aside what was kept of that file', async () => {
  const here = await page('one.asm');
  await here.openNamed('two.asm');
  here.editor.become(NEXT);
  database.write('documents', { ...keptOf('one.asm'), key: '/saved.asm', name: 'saved.asm', text: MINE, stamp: 'before' });
  await here.documents.saveAs();
  await until(() => keptOf('saved.asm').text === NEXT);
  assert.ok(texts('earlier').includes(MINE));
});

test('kept: a text that is in no file stays until it is kept as a file', async () => {
  const here = await page('one.asm');
  await here.documents.openText('elsewhere.asm', MINE);
  await until(() => texts('documents').includes(MINE));
  database.fails = (mode, names) => mode === 'readwrite' && names.includes('documents');
  await here.documents.saveAs();
  database.fails = () => false;
  await until(() => keptOf('saved.asm')?.text === MINE);
});

test('kept: a record has the undo of its own text, also where more is typed before it is written', async () => {
  const here = await page('one.asm');
  await until(() => keptOf('one.asm') !== undefined);
  database.hangs = (mode) => mode === 'readwrite';
  here.editor.become(MINE);
  await until(() => database.isHeld);
  here.editor.become(NEXT);
  database.goOn();
  await until(() => keptOf('one.asm').text === NEXT);
  const written = database.written.filter(({ text }) => text !== ONE);
  assert.deepEqual(written.map(({ text, history }) => [text, history.text.done.length]), [[MINE, 1], [NEXT, 2]]);
});

test('kept: the keys of the first document go to no other one, and what is pressed meanwhile stays', async () => {
  const { takeKeptPlace } = await import('../static/page_start.mjs');
  const here = await page('one.asm');
  const { model } = here;
  model.setLastStep(100);
  const { document: number } = model;
  model.setKeys(model.keys.with(3, 5, true).with(500, 6, true));
  takeKeptPlace(model, number, 7);
  assert.deepEqual([model.step, model.keys.events.map(({ step }) => step)], [7, [3]]);
  await here.openNamed('two.asm');
  takeKeptPlace(model, number, 9);
  assert.deepEqual([model.step, model.keys.size], [0, 0]);
});

test('kept: the browser is asked to keep all once the first edit is written, once in a tab', async () => {
  storage.grants = false;
  const here = await page('one.asm');
  here.model.setStep(3);
  await until(() => keptOf('one.asm')?.step === 3);
  await pause(50);
  assert.equal(storage.asked, 0);
  database.hangs = (mode) => mode === 'readwrite';
  here.editor.become(MINE);
  await until(() => database.isHeld);
  assert.equal(storage.asked, 0);
  database.goOn();
  await until(() => storage.asked === 1);
  await pause(50);
  assert.equal(stateOf(here), 'not saved; kept in this browser for now');
  const again = await reload('one.asm');
  again.editor.become(NEXT);
  await until(() => keptOf('one.asm').text === NEXT);
  await pause(50);
  assert.equal(storage.asked, 1);
});

test('kept: a browser that keeps all until it is asked to delete it is not asked', async () => {
  const here = await page('one.asm');
  here.editor.become(MINE);
  await until(() => storage.asked === 1);
  const again = await reload('one.asm');
  again.editor.become(NEXT);
  await until(() => keptOf('one.asm').text === NEXT);
  await pause(50);
  assert.deepEqual([storage.asked, stateOf(again)], [1, 'not saved; kept in this browser']);
});

test('kept: a browser that does not say how long it keeps', async () => {
  storage.persisted = async () => { throw new TypeError('an opaque origin'); };
  const here = await page('one.asm');
  here.editor.become(MINE);
  await until(() => keptOf('one.asm')?.text === MINE);
  await pause(50);
  assert.deepEqual([storage.asked, stateOf(here)], [0, 'not saved; kept in this browser']);
});
