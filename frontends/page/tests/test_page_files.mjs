// The files of a page without a bridge, beside a stand-in for a browser's file access.
import assert from 'node:assert/strict';
import { readdir, readFile } from 'node:fs/promises';
import test, { afterEach } from 'node:test';
import { carryBy } from '../static/bridge.mjs';
import { PageFiles } from '../static/page_files.mjs';

class FakeFile {
  constructor(name, text) {
    this.name = name;
    this.text = text;
  }

  async getFile() {
    if (this.text === null) throw Object.assign(new Error('gone'), { name: 'NotFoundError' });
    const bytes = Uint8Array.from(this.text, (character) => character.charCodeAt(0));
    return { arrayBuffer: async () => bytes.buffer };
  }

  async createWritable() {
    const pieces = [];
    return {
      write: async (bytes) => pieces.push(...bytes),
      close: async () => {
        this.text = String.fromCharCode(...pieces);
      },
    };
  }
}

// Has the browser's pickers give these files, one after another; null is a picker that is left.
function pickers(...files) {
  const next = async () => {
    const file = files.shift();
    if (file === null) throw Object.assign(new Error('left'), { name: 'AbortError' });
    return file;
  };
  globalThis.showOpenFilePicker = async () => [await next()];
  globalThis.showSaveFilePicker = next;
}

afterEach(() => {
  delete globalThis.showOpenFilePicker;
  delete globalThis.showSaveFilePicker;
});

test('a file that is picked is read, and saved in its place', async () => {
  const file = new FakeFile('game.asm', 'CLS ; \xe9\n');
  pickers(file);
  const files = new PageFiles({ 'bounce.asm': 'CLS\n' });
  assert.equal(files.picks, true);
  const picked = await files.pick();
  assert.equal(picked.name, 'game.asm');
  const found = await files.read(picked);
  assert.deepEqual([found.text, found.path], ['CLS ; \xe9\n', picked.key]);
  const reply = await files.save({ ...picked, text: 'RET\xff\n', known: found.digest });
  assert.equal(reply.saved, true);
  assert.equal(file.text, 'RET\xff\n');
  assert.equal((await files.read(picked)).digest, reply.digest);
  assert.deepEqual(files.list(), [{ name: 'bounce.asm', size: 4 }]);
});

test('two files of one name are two files, and a file that is picked again is the same', async () => {
  const [one, other] = [new FakeFile('game.asm', 'one\n'), new FakeFile('game.asm', 'other\n')];
  pickers(one, other, one);
  const files = new PageFiles({});
  const [first, second, again] = [await files.pick(), await files.pick(), await files.pick()];
  assert.notEqual(first.key, second.key);
  assert.equal(again.key, first.key);
  assert.deepEqual([(await files.read(first)).text, (await files.read(second)).text], ['one\n', 'other\n']);
  const known = (await files.read(second)).digest;
  await files.save({ ...second, text: 'changed\n', known });
  assert.deepEqual([one.text, other.text], ['one\n', 'changed\n']);
});

test('a file that another program changed is not written over', async () => {
  const file = new FakeFile('game.asm', 'CLS\n');
  pickers(file);
  const files = new PageFiles({});
  const picked = await files.pick();
  const { digest } = await files.read(picked);
  file.text = 'theirs\n';
  const reply = await files.save({ ...picked, text: 'mine\n', known: digest });
  assert.deepEqual([reply.saved, reply.text, file.text], [false, 'theirs\n', 'theirs\n']);
  assert.equal((await files.save({ ...picked, text: 'mine\n', known: reply.digest })).saved, true);
  assert.equal(file.text, 'mine\n');
});

test('a file that is chosen to save to is written over once, since the browser asked', async () => {
  const file = new FakeFile('other.asm', 'there before\n');
  pickers(file);
  const files = new PageFiles({});
  const chosen = await files.choose('game.asm');
  assert.equal(chosen.name, 'other.asm');
  assert.equal((await files.save({ ...chosen, text: 'mine\n', known: null })).saved, true);
  assert.equal((await files.save({ ...chosen, text: 'more\n', known: null })).saved, false);
  assert.equal(file.text, 'mine\n');
});

test('a picker that is left chooses nothing, and a file that is gone has no text', async () => {
  const file = new FakeFile('game.asm', 'CLS\n');
  pickers(null, null, file);
  const files = new PageFiles({});
  assert.deepEqual(await files.pick(), { name: null });
  await assert.rejects(files.save({ name: 'game.asm', text: 'CLS\n', known: null }), /no file was chosen/);
  const picked = await files.pick();
  file.text = null;
  assert.equal((await files.read(picked)).text, null);
});

test('a browser that asks again before a file is written is obeyed', async () => {
  const file = new FakeFile('game.asm', 'CLS\n');
  file.requestPermission = async () => 'denied';
  pickers(file);
  const files = new PageFiles({});
  const picked = await files.pick();
  const { digest } = await files.read(picked);
  await assert.rejects(files.save({ ...picked, text: 'RET\n', known: digest }), /haven't allowed/);
  assert.equal(file.text, 'CLS\n');
});

test('an example is read by its name, and another name has no text', async () => {
  const files = new PageFiles({ 'bounce.asm': 'CLS\n' });
  assert.equal(files.picks, false);
  assert.equal((await files.read({ name: 'bounce.asm' })).text, 'CLS\n');
  assert.deepEqual(await files.read({ name: 'none.asm' }), { name: 'none.asm', path: null, text: null, digest: null });
});

test('modules: none has over 300 lines, and all that is served has fewer than 11,300', async () => {
  const folder = new URL('../static/', import.meta.url);
  const counted = await Promise.all((await readdir(folder)).map(async (name) => [name, (await readFile(new URL(name, folder), 'utf-8')).split('\n').length - 1]));
  assert.deepEqual(counted.filter(([name, lines]) => name.endsWith('.mjs') && lines > 300), []);
  assert.ok(counted.reduce((sum, [, lines]) => sum + lines, 0) < 11_300);
});

test('a file: what was read before a save, and comes after it, takes the place of nothing', async () => {
  let [look, answer] = [null, null];
  carryBy(() => new Promise((done) => {
    answer = done;
  }));
  const place = { addEventListener() {}, querySelectorAll: () => [] };
  Object.assign(globalThis, { addEventListener: (_, act) => (look = act), setInterval: () => 0, document: { hidden: true, getElementById: () => place, addEventListener() {} } });
  const { FileWatch } = await import('../static/file_watch.mjs');
  const open = { is: { key: '/a.asm', name: 'a.asm', isFile: true, digest: 'new' }, savedText: 'RET\n', toldDigest: 'old', isThere: true };
  const become = [];
  new FileWatch({ putAside() {}, tellState() {} }, { model: { text: 'RET\n' }, editor: { become: (text) => become.push(text) }, open });
  const looking = look();
  // saved meanwhile
  Object.assign(open, { is: { ...open.is }, toldDigest: 'new' });
  answer({ name: 'a.asm', path: '/a.asm', text: 'CLS\n', digest: 'old' });
  await looking;
  await new Promise((done) => setTimeout(done, 10));
  assert.deepEqual([become, open.toldDigest], [[], 'new']);
});
