// The extension over a fake editor and a real language server; skipped where no program is built.
'use strict';

const assert = require('node:assert');
const fs = require('node:fs');
const Module = require('node:module');
const os = require('node:os');
const path = require('node:path');
const { after, test } = require('node:test');
const { makeEditor, Position, Range, TextDocument } = require('./fake_vscode.js');

const FOLDER = path.dirname(__dirname);
const TOP = path.dirname(path.dirname(path.dirname(FOLDER)));
const PROGRAM = process.env.CHIPBENCH || path.join(TOP, 'crates/chipbench/out/chipbench');
const options = { skip: fs.existsSync(PROGRAM) ? false : 'no program is built', timeout: 120_000 };

const GAME = `STEP    EQU 3
START:  LD V0, 5
LOOP:   ADD V0, STEP
        JP LOOP
`;

let editor = null;
const load = Module._load;
Module._load = (name, ...rest) => (name === 'vscode' ? editor.vscode : load(name, ...rest));

const settings = (more) => ({
  server: path.join(TOP, 'packaging/chipbench-lsp'),
  program: PROGRAM,
  profile: 'schip',
  rate: 10,
  tape: '00',
  ...more,
});

const running = [];
const removed = [];

/** The extension, started anew over an editor of its own. */
function activated(more) {
  editor = makeEditor(settings(more));
  for (const name of ['extension.js', 'convert.js', 'debugger.js']) delete require.cache[path.join(FOLDER, name)];
  const context = { subscriptions: [], extensionPath: more?.folder ?? FOLDER };
  const server = require('../extension.js').activate(context);
  running.push(context);
  return { editor, server };
}

async function opened(text = GAME, more = {}) {
  const made = activated(more);
  const document = new TextDocument('game.asm', text);
  made.editor.open(document);
  await made.editor.diagnosed(document, () => true);
  return { ...made, document };
}

after(async () => {
  for (const context of running) for (const part of context.subscriptions) await part.dispose?.();
  for (const folder of removed) fs.rmSync(folder, { recursive: true });
});

test('faults come and go as typed', options, async () => {
  const { editor, document } = await opened();
  editor.type(document, 2, 16, 20, 'NONE');
  const [fault] = await editor.diagnosed(document, (found) => found.length === 1);
  assert.deepStrictEqual([fault.code, fault.range.start.line, fault.severity], ['F9', 2, 0]);
  editor.type(document, 2, 16, 20, 'STEP');
  await editor.diagnosed(document, (found) => found.length === 0);
});

test('what the providers answer', options, async () => {
  const { editor, document } = await opened();
  const { providers } = editor;
  const at = new Position(3, 12);
  assert.match((await providers.Hover.provideHover(document, at)).contents.value, /\*\*LOOP\*\* = 514/);
  const [definition] = await providers.Definition.provideDefinition(document, at);
  assert.deepStrictEqual([definition.uri.toString(), definition.range.start.line], [document.uri.toString(), 2]);
  assert.strictEqual((await providers.Reference.provideReferences(document, at, { includeDeclaration: true })).length, 2);
  assert.strictEqual((await providers.DocumentHighlight.provideDocumentHighlights(document, at)).length, 2);
  const symbols = await providers.DocumentSymbol.provideDocumentSymbols(document);
  assert.deepStrictEqual(symbols.map((symbol) => symbol.name), ['STEP', 'START', 'LOOP']);
  const hints = await providers.InlayHints.provideInlayHints(document, new Range(new Position(0, 0), new Position(9, 0)));
  assert.deepStrictEqual(hints.map((hint) => hint.label), ['0200 6005', '0202 7003', '0204 1202']);
  const [lens] = await providers.CodeLens.provideCodeLenses(document);
  assert.strictEqual(lens.command.title, 'run to here');
  const [action] = await providers.CodeActions.provideCodeActions(document, new Range(at, at), {});
  assert.strictEqual(action.command.command, 'chipbench.runTo');
});

test('colours, signatures, calls, and the names of all documents', options, async () => {
  const { editor, document } = await opened('A: CALL HIT\nRET\nHIT: LD V0, 5\nRET\n');
  const { providers } = editor;
  const tokens = await providers.DocumentSemanticTokens.provideDocumentSemanticTokens(document);
  assert.deepStrictEqual([...tokens.data.slice(0, 5)], [0, 0, 1, 6, 1]);
  const help = await providers.SignatureHelp.provideSignatureHelp(document, new Position(2, 12));
  assert.deepStrictEqual([help.signatures[0].label, help.activeParameter], ['LD Vx, kk', 1]);
  const [symbol] = await providers.WorkspaceSymbol.provideWorkspaceSymbols('hi');
  assert.deepStrictEqual([symbol.name, symbol.location.range.start.line], ['HIT', 2]);
  const [item] = await providers.CallHierarchy.prepareCallHierarchy(document, new Position(0, 8));
  const [call] = await providers.CallHierarchy.provideCallHierarchyIncomingCalls(item);
  assert.deepStrictEqual([call.from.name, call.fromRanges[0].start.line], ['the program', 0]);
  assert.deepStrictEqual(await providers.CallHierarchy.provideCallHierarchyOutgoingCalls(item), []);
});

test('completion of some names out of many', options, async () => {
  const labels = Array.from({ length: 300 }, (_, number) => `L${number}:`).join('\n');
  const { editor } = await opened(`${labels}\nJP L\n`);
  const { items, isIncomplete } = await editor.providers.CompletionItem.provideCompletionItems(editor.documents[0], new Position(300, 4));
  assert.deepStrictEqual([items.length, isIncomplete], [200, true]);
});

test('completion with fields', options, async () => {
  const { editor, document } = await opened('DR\n');
  const [item] = await editor.providers.CompletionItem.provideCompletionItems(document, new Position(0, 2));
  assert.strictEqual(item.insertText.value, 'DRW ${1:Vx}, ${2:Vy}, ${3:n}');
});

test('rename, and a name that is refused', options, async () => {
  const { editor, document } = await opened();
  const rename = editor.providers.Rename;
  const edit = await rename.provideRenameEdits(document, new Position(2, 1), 'AGAIN');
  assert.strictEqual(edit.edits.get(document.uri.toString()).length, 2);
  await assert.rejects(rename.provideRenameEdits(document, new Position(2, 1), 'V0'), /reserved/);
  await assert.rejects(rename.prepareRename(document, new Position(2, 10)), /no name/);
});

test('formatting and folding', options, async () => {
  const { editor, document } = await opened('IFDEF A\nCLS\nENDIF\n');
  const edits = await editor.providers.DocumentFormattingEdit.provideDocumentFormattingEdits(document, {});
  assert.deepStrictEqual(edits.map((edit) => edit.newText), ['        IFDEF A', '        CLS', '        ENDIF']);
  const folds = await editor.providers.FoldingRange.provideFoldingRanges(document);
  assert.deepStrictEqual([folds[0].start, folds[0].end], [0, 1]);
});

test('a fix', options, async () => {
  const { editor, document } = await opened('LD V0, 0x1F\n');
  const at = new Position(0, 1);
  const [fix] = await editor.providers.CodeActions.provideCodeActions(document, new Range(at, at), {});
  assert.deepStrictEqual([fix.kind, fix.isPreferred], ['quickfix', true]);
  assert.strictEqual(fix.edit.edits.get(document.uri.toString())[0].newText, 'LD V0, #1F');
});

test('a fix for a missing comma', options, async () => {
  const { editor, document } = await opened('LD V0 5\n');
  const at = new Position(0, 1);
  const actions = await editor.providers.CodeActions.provideCodeActions(document, new Range(at, at), {});
  // a source with a fault doesn't run, so this is all that is offered
  assert.deepStrictEqual(actions.map((action) => action.title), ['Put a comma']);
  assert.strictEqual(actions[0].edit.edits.get(document.uri.toString())[0].newText, 'LD V0, 5');
});

test('the settings of a run', options, async () => {
  const game = 'LD V1, 6\nSHR V0, V1\nRND V2, 255\nHERE: JP HERE\n';
  const { editor, document } = await opened(game, { quirks: 'shift=vy', tape: '2a', every: 2000 });
  await editor.commands['chipbench.runTo'](document.uri.toString(), 3);
  assert.match(editor.output.join('\n'), /v 03 06 2a/);
});

test('run to here is shown in the output', options, async () => {
  const { editor, document } = await opened();
  await editor.commands['chipbench.runTo'](document.uri.toString(), 3);
  assert.match(editor.output.at(-1), /step 2: pc is at #204/);
  await editor.commands['chipbench.runTo'](document.uri.toString(), 0);
  editor.configure('profile', 'vip');
  await editor.commands['chipbench.runTo'](document.uri.toString(), 3);
  assert.match(editor.output.at(-1), /step 2/);
});

test('a property is proved at its lens, which then has the answer', options, async () => {
  const { editor, document } = await opened(';! always V0 <= 5\nLD V0, 5\n');
  const lenses = editor.providers.CodeLens;
  let changes = 0;
  lenses.onDidChangeCodeLenses(() => (changes += 1));
  const [before] = await lenses.provideCodeLenses(document);
  assert.deepStrictEqual([before.command.title, before.command.command], ['prove', 'chipbench.prove']);
  await editor.commands['chipbench.prove'](...before.command.arguments);
  assert.match(editor.output.at(-1), /proved/);
  const [after] = await lenses.provideCodeLenses(document);
  assert.deepStrictEqual([after.command.title, changes], ['proved for any keys, random bytes and speed', 1]);
});

test('a server that dies is restarted, and nothing is lost', options, async () => {
  const { editor, server, document } = await opened();
  editor.type(document, 0, 0, 0, 'X');
  process.kill(server.processId, 'SIGKILL');
  editor.type(document, 2, 16, 20, 'NONE');
  const found = await editor.diagnosed(document, (faults) => faults.length === 2 || faults.length === 1);
  assert.ok(found.some((fault) => fault.range.start.line === 2));
});

/** Waits until something is there. */
async function there(found) {
  for (let tries = 0; tries < 5000 && !found(); tries += 1) await new Promise((resolve) => setTimeout(resolve, 20));
  assert.ok(found());
}

test('a server that is not there is given up, and what to install is said', options, async () => {
  const { editor } = activated({ server: '/nowhere/chipbench-lsp' });
  await there(() => editor.errors.length > 0);
  assert.match(editor.errors[0], /language server .nowhere.chipbench-lsp isn't there. Install chipbench/);
  assert.strictEqual(editor.errors.length, 1);
  assert.strictEqual(await editor.providers.Hover.provideHover(new TextDocument('x.asm', ''), new Position(0, 0)), null);
});

test('a server that keeps ending is given up', options, async () => {
  const { editor } = activated({ server: '/bin/false' });
  await there(() => editor.errors.length > 0);
  assert.match(editor.errors[0], /keeps ending/);
});

/** A folder as the package has it: the extension beside the programs that it starts. */
function packaged() {
  const folder = fs.mkdtempSync(path.join(os.tmpdir(), 'chipbench-extension-'));
  removed.push(folder);
  fs.mkdirSync(path.join(folder, 'chipbench'));
  for (const name of ['python', 'page', 'web']) fs.symlinkSync(path.join(TOP, 'frontends', name), path.join(folder, 'chipbench', name));
  return folder;
}

test('the programs of the package are started by Python', options, async () => {
  const { editor, document } = await opened('FOO\n', { server: '', page: '', folder: packaged() });
  await editor.diagnosed(document, (found) => found.length === 1);
  const made = editor.providers.DebugAdapter.createDebugAdapterDescriptor();
  assert.deepStrictEqual([made.command, path.basename(made.args[1])], ['python3', 'chipbench_dap']);
});

test('without Python it says what to install', options, async () => {
  const { editor } = activated({ server: '', python: '/nowhere/python3', folder: packaged() });
  await there(() => editor.errors.length > 0);
  assert.match(editor.errors[0], /python3 isn't there or is older. Install Python 3.10 or later/);
  assert.throws(() => editor.providers.DebugAdapter.createDebugAdapterDescriptor(), /Install Python/);
});

test('a program that was killed, and a Python that takes long, are there', () => {
  const programs = require('../programs.js');
  const launched = { kind: 'server', command: '/bin/false', isPackaged: true };
  assert.match(programs.missing(launched, { status: 1 }), /Install Python/);
  assert.strictEqual(programs.missing(launched, { status: null }), undefined);
  const slow = path.join(packaged(), 'python3');
  fs.writeFileSync(slow, '#!/bin/sh\nexec sleep 60\n', { mode: 0o755 });
  assert.strictEqual(programs.isPythonMissing(slow, 200), false);
});

test('a launch takes the file that is shown and the settings', options, async () => {
  const { editor, document } = await opened(GAME, { seed: '7', every: 2000 });
  const { resolveDebugConfiguration } = editor.providers.DebugConfiguration;
  const launch = resolveDebugConfiguration({ uri: { fsPath: '/tmp' } }, {});
  const wanted = { source: document.uri.fsPath, seed: '7', every: 2000, rate: 10, profile: 'schip', chipbench: PROGRAM, cwd: '/tmp' };
  assert.deepStrictEqual(launch, { type: 'chipbench', request: 'launch', name: 'Debug this file', ...wanted });
  assert.strictEqual(resolveDebugConfiguration(undefined, { source: 'a.asm', tape: '2a' }).seed, undefined);
  editor.close(document);
  assert.strictEqual(resolveDebugConfiguration(undefined, {}), undefined);
  assert.match(editor.errors[0], /open a source/);
});

test('a game runs on the page', options, async () => {
  const folder = packaged();
  const made = activated({ page: '', folder });
  const document = new TextDocument('game.asm', GAME);
  document.uri = { fsPath: path.join(folder, 'game.asm'), toString: () => `file://${folder}/game.asm` };
  made.editor.open(document);
  await made.editor.commands['chipbench.runOnPage']();
  assert.deepStrictEqual(made.editor.errors, []);
  assert.match(made.editor.opened[0], /^http:..127\.0\.0\.1:/);
  assert.match(await (await fetch(made.editor.opened[0])).text(), /<title>/);
});

test('messages in pieces', () => {
  const { Messages } = require('../connection.js');
  const messages = new Messages();
  const body = Buffer.from(JSON.stringify({ text: 'ü' }));
  const whole = Buffer.concat([Buffer.from(`Content-Length: ${body.length}\r\n\r\n`), body]);
  const found = [];
  for (const byte of Buffer.concat([whole, whole])) found.push(...messages.take(Buffer.from([byte])));
  assert.deepStrictEqual(found, [{ text: 'ü' }, { text: 'ü' }]);
});

test('the words of the package lead somewhere', () => {
  const made = JSON.parse(fs.readFileSync(path.join(FOLDER, 'package.json'), 'utf8'));
  const { languages, grammars } = made.contributes;
  for (const place of [made.main, made.icon, languages[0].configuration, grammars[0].path]) assert.ok(fs.existsSync(path.join(FOLDER, place)));
  JSON.parse(fs.readFileSync(path.join(FOLDER, languages[0].configuration), 'utf8'));
});

test('the manifest has a setting for each option of the server, and claims no file of other assemblers', () => {
  const { contributes } = JSON.parse(fs.readFileSync(path.join(FOLDER, 'package.json'), 'utf8'));
  const server = fs.readFileSync(path.join(TOP, 'frontends/python/chipbench_lsp/server.py'), 'utf8');
  const names = [.../^OPTIONS = \((.*)\)$/m.exec(server)[1].matchAll(/"(\w+)"/g)].map(([, name]) => name);
  assert.ok(names.includes('seed') && names.includes('every'), names.join());
  for (const name of names) assert.ok(`chipbench.${name}` in contributes.configuration.properties, name);
  assert.deepStrictEqual(contributes.languages[0].extensions, ['.ch8asm']);
  assert.strictEqual(contributes.commands[0].title, 'Run to Cursor');
});

test('the manifest has each argument of a launch', () => {
  const { contributes } = JSON.parse(fs.readFileSync(path.join(FOLDER, 'package.json'), 'utf8'));
  const launch = fs.readFileSync(path.join(TOP, 'frontends/python/chipbench_dap/launch.py'), 'utf8');
  const names = [.../^KINDS: [^]*?^}$/m.exec(launch)[0].matchAll(/"(\w+)": /g)].map(([, name]) => name);
  const known = Object.keys(contributes.debuggers[0].configurationAttributes.launch.properties);
  // VS Code adds noDebug itself
  assert.deepStrictEqual(known.sort(), [...names.filter((name) => name !== 'noDebug'), 'seed'].sort());
});
