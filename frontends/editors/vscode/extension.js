// The extension: keeps one language server, sends it what is typed, and passes its answers to VS Code.
'use strict';

const vscode = require('vscode');
const { Connection } = require('./connection.js');
const convert = require('./convert.js');
const debug = require('./debugger.js');
const programs = require('./programs.js');

const LANGUAGE = 'chip8';
const RUN_TO = 'chipbench.runTo';
const PROVE = 'chipbench.prove';
const WARNING = 2;
// A server that ends more often than this in a minute is left alone.
const MOST_STARTS = 4;
const MINUTE = 60_000;

const documentOf = (document) => ({ textDocument: { uri: document.uri.toString() } });
const placeOf = (document, position) => ({ ...documentOf(document), position: convert.toPosition(position) });

class Server {
  #connection = null;
  #ready = null;
  #isReady = false;
  #starts = [];
  #output;
  #diagnostics;
  #folder;
  #onReady;

  /** `folder` is that of the extension; `onReady(capabilities)` is called once, when a server can be asked. */
  constructor(output, diagnostics, folder, onReady) {
    this.#folder = folder;
    this.#onReady = onReady;
    this.#output = output;
    this.#diagnostics = diagnostics;
  }

  get processId() {
    return this.#connection?.processId;
  }

  start() {
    const settings = vscode.workspace.getConfiguration('chipbench');
    this.#starts.push(Date.now());
    const launched = programs.launcher('server', settings, this.#folder);
    const connection = new Connection(launched.command, launched.args, {
      onNotification: (method, params) => this.#told(method, params),
      onEnd: (reason, how) => this.#ended(connection, reason, programs.missing(launched, how)),
    });
    this.#connection = connection;
    this.#isReady = false;
    const options = { ...this.#options(settings), program: settings.get('program') || undefined, showsRuns: true };
    const snippets = { textDocument: { completion: { completionItem: { snippetSupport: true } } } };
    const params = { processId: process.pid, rootUri: null, capabilities: snippets, initializationOptions: options };
    this.#ready = connection.ask('initialize', params).then(({ capabilities }) => {
      connection.tell('initialized', {});
      this.#isReady = true;
      for (const document of vscode.workspace.textDocuments) this.#open(connection, document);
      this.#onReady?.(capabilities);
      this.#onReady = undefined;
    });
    this.#ready.catch(() => {});
  }

  #options(settings) {
    const [profile, quirks, rate, every, seed] = ['profile', 'quirks', 'rate', 'every', 'seed'].map((name) => settings.get(name));
    // the program takes a tape or a seed, and not both
    return { profile, quirks, rate, every, ...(seed ? { seed } : { tape: settings.get('tape') }) };
  }

  /** `missing` says what to install, where that is why it ended. */
  #ended(connection, reason, missing) {
    if (connection !== this.#connection) return;
    this.#connection = null;
    this.#diagnostics.clear();
    this.#output.appendLine(`the language server ended: ${reason}`);
    this.#starts = this.#starts.filter((at) => at > Date.now() - MINUTE);
    if (missing !== undefined) vscode.window.showErrorMessage(missing);
    else if (this.#starts.length < MOST_STARTS) this.start();
    else vscode.window.showErrorMessage('chipbench: the language server keeps ending; the output of chipbench says why.');
  }

  #told(method, params) {
    if (method === 'textDocument/publishDiagnostics') {
      this.#diagnostics.set(vscode.Uri.parse(params.uri), params.diagnostics.map(convert.diagnostic));
    } else if (method === 'window/showMessage') {
      this.#output.appendLine(params.message);
      if (params.type <= WARNING) vscode.window.showWarningMessage(params.message);
    }
  }

  #open(connection, document) {
    if (document.languageId !== LANGUAGE) return;
    const { uri, version } = document;
    const item = { uri: uri.toString(), languageId: LANGUAGE, version, text: document.getText() };
    connection.tell('textDocument/didOpen', { textDocument: item });
  }

  /** Notifies the server. One that isn't ready yet gets all open documents when it is. */
  #tell(document, method, params) {
    if (document.languageId === LANGUAGE && this.#isReady) this.#connection?.tell(`textDocument/${method}`, params);
  }

  didOpen(document) {
    if (this.#isReady && this.#connection !== null) this.#open(this.#connection, document);
  }

  didChange({ document, contentChanges }) {
    if (contentChanges.length === 0) return;
    const changes = contentChanges.map((change) => ({ range: convert.toRange(change.range), text: change.text }));
    const textDocument = { uri: document.uri.toString(), version: document.version };
    this.#tell(document, 'didChange', { textDocument, contentChanges: changes });
  }

  didClose(document) {
    this.#tell(document, 'didClose', documentOf(document));
  }

  didConfigure(change) {
    if (change.affectsConfiguration('chipbench.server') || change.affectsConfiguration('chipbench.program')) this.restart();
    else if (change.affectsConfiguration('chipbench')) {
      const settings = this.#options(vscode.workspace.getConfiguration('chipbench'));
      this.#connection?.tell('workspace/didChangeConfiguration', { settings: { chipbench: settings } });
    }
  }

  async ask(method, params, token) {
    if (this.#connection === null) return null;
    await this.#ready;
    return this.#connection.ask(method, params, token);
  }

  async restart() {
    this.#starts = [];
    await this.close();
    this.start();
  }

  async close() {
    const connection = this.#connection;
    this.#connection = null;
    await connection?.close();
  }
}

/** Providers for a place in a document. */
function placeProviders(ask) {
  const at = (method, make) => async (document, position, token) => make(await ask(method, placeOf(document, position), token));
  const lists = (make) => (found) => convert.list(found, make);
  return {
    Hover: { provideHover: at('hover', convert.hover) },
    Definition: { provideDefinition: at('definition', lists(convert.place)) },
    DocumentHighlight: { provideDocumentHighlights: at('documentHighlight', lists(convert.highlight)) },
    CompletionItem: { provideCompletionItems: at('completion', convert.completions) },
    Reference: {
      provideReferences: async (document, position, context, token) =>
        convert.list(await ask('references', { ...placeOf(document, position), context }, token), convert.place),
    },
    Rename: {
      provideRenameEdits: async (document, position, newName, token) =>
        convert.workspaceEdit(await ask('rename', { ...placeOf(document, position), newName }, token)),
      prepareRename: async (document, position, token) => {
        const found = await ask('prepareRename', placeOf(document, position), token);
        if (found === null) throw new Error('There is no name here.');
        return { range: convert.range(found.range), placeholder: found.placeholder };
      },
    },
  };
}

/** Providers for a whole document. */
function documentProviders(ask, onDidChangeCodeLenses) {
  const all = (method, make) => async (document, token) => convert.list(await ask(method, documentOf(document), token), make);
  const folds = all('foldingRange', convert.fold);
  return {
    DocumentSymbol: { provideDocumentSymbols: all('documentSymbol', convert.symbol) },
    CodeLens: { provideCodeLenses: all('codeLens', convert.lens), onDidChangeCodeLenses },
    FoldingRange: { provideFoldingRanges: (document, _, token) => folds(document, token) },
    DocumentFormattingEdit: {
      provideDocumentFormattingEdits: async (document, options, token) =>
        convert.list(await ask('formatting', { ...documentOf(document), options }, token), convert.edit),
    },
  };
}

/** Providers for a range of a document. */
function rangeProviders(ask) {
  const within = async (method, make, document, where, more, token) =>
    convert.list(await ask(method, { ...documentOf(document), range: convert.toRange(where), ...more }, token), make);
  const context = { diagnostics: [] };
  return {
    CodeActions: {
      provideCodeActions: (document, where, _, token) => within('codeAction', convert.action, document, where, { context }, token),
    },
    InlayHints: {
      provideInlayHints: (document, where, token) => within('inlayHint', convert.hint, document, where, {}, token),
    },
    DocumentRangeFormattingEdit: {
      provideDocumentRangeFormattingEdits: (document, where, options, token) =>
        within('rangeFormatting', convert.edit, document, where, { options }, token),
    },
  };
}

/** Registers what needs more than a selector and a provider. `capabilities` are those of the server. */
function registerOthers(server, selector, { semanticTokensProvider, signatureHelpProvider }) {
  const { languages } = vscode;
  const tokens = {
    provideDocumentSemanticTokens: async (document, token) =>
      convert.semanticTokens(await server.ask('textDocument/semanticTokens/full', documentOf(document), token)),
  };
  const signatures = {
    provideSignatureHelp: async (document, position, token) =>
      convert.signatureHelp(await server.ask('textDocument/signatureHelp', placeOf(document, position), token)),
  };
  const symbols = {
    provideWorkspaceSymbols: async (query, token) =>
      convert.list(await server.ask('workspace/symbol', { query }, token), convert.symbolInformation),
  };
  const asked = ({ name, uri }) => ({ item: { name, uri: uri.toString() } });
  const calls = {
    prepareCallHierarchy: async (document, position, token) =>
      convert.list(await server.ask('textDocument/prepareCallHierarchy', placeOf(document, position), token), convert.callItem),
    provideCallHierarchyIncomingCalls: async (item, token) =>
      convert.list(await server.ask('callHierarchy/incomingCalls', asked(item), token), convert.incomingCall),
    provideCallHierarchyOutgoingCalls: async (item, token) =>
      convert.list(await server.ask('callHierarchy/outgoingCalls', asked(item), token), convert.outgoingCall),
  };
  return [
    languages.registerDocumentSemanticTokensProvider(selector, tokens, semanticTokensProvider.legend),
    languages.registerSignatureHelpProvider(selector, signatures, ...signatureHelpProvider.triggerCharacters),
    languages.registerWorkspaceSymbolProvider(symbols),
    languages.registerCallHierarchyProvider(selector, calls),
  ];
}

function providers(server, onDidChangeCodeLenses) {
  const ask = (method, params, token) => server.ask(`textDocument/${method}`, params, token);
  return { ...placeProviders(ask), ...documentProviders(ask, onDidChangeCodeLenses), ...rangeProviders(ask) };
}

/** Has the server carry out a command of a line, which may be cancelled, and shows its text in the output. */
async function carryOut(server, output, title, command, uri, line) {
  const options = { location: vscode.ProgressLocation.Notification, title: `chipbench: ${title}`, cancellable: true };
  const result = await vscode.window.withProgress(options, (_, token) =>
    server.ask('workspace/executeCommand', { command, arguments: [uri, line] }, token),
  );
  if (!result) return;
  output.appendLine(result.text);
  output.show(true);
}

/** Asks for the machine at the first step on a line. */
function runTo(server, output, uri, line) {
  return carryOut(server, output, 'run to here', RUN_TO, uri, line);
}

/** Opens the page on the file that is shown; its server ends with the editor. */
async function runOnPage(pages, folder) {
  const document = vscode.window.activeTextEditor?.document;
  if (document?.languageId !== LANGUAGE) throw new Error('open a source (*.ch8asm) to run it on the page');
  await document.save();
  const settings = vscode.workspace.getConfiguration('chipbench');
  const launched = programs.launcher('page', settings, folder);
  const address = await new Promise((resolve, reject) => {
    const failed = (how, errors) => reject(new Error(programs.missing(launched, how) ?? errors));
    pages.push(programs.startPage(launched, document.uri.fsPath, { onAddress: resolve, onEnd: failed }));
  });
  await vscode.env.openExternal(vscode.Uri.parse(address));
}

function activate(context) {
  const folder = context.extensionPath ?? __dirname;
  const pages = [];
  const output = vscode.window.createOutputChannel('chipbench');
  const diagnostics = vscode.languages.createDiagnosticCollection('chipbench');
  const selector = { language: LANGUAGE };
  const server = new Server(output, diagnostics, folder, (capabilities) => {
    context.subscriptions.push(...registerOthers(server, selector, { ...capabilities }));
  });
  const answered = new vscode.EventEmitter();
  const shown = (work) => async (...args) => {
    try {
      await work(...args);
    } catch (error) {
      vscode.window.showErrorMessage(`chipbench: ${error.message.replace(/^chipbench: /, '')}`);
    }
  };
  context.subscriptions.push(
    output,
    diagnostics,
    vscode.workspace.onDidOpenTextDocument((document) => server.didOpen(document)),
    vscode.workspace.onDidChangeTextDocument((change) => server.didChange(change)),
    vscode.workspace.onDidCloseTextDocument((document) => server.didClose(document)),
    vscode.workspace.onDidChangeConfiguration((change) => server.didConfigure(change)),
    vscode.commands.registerCommand(RUN_TO, shown((uri, line) => runTo(server, output, uri, line))),
    answered,
    vscode.commands.registerCommand(PROVE, shown(async (uri, line) => {
      await carryOut(server, output, 'prove', PROVE, uri, line);
      answered.fire();
    })),
    vscode.commands.registerCommand('chipbench.restart', shown(() => server.restart())),
    vscode.commands.registerCommand('chipbench.runToCursor', shown(async () => {
      const editor = vscode.window.activeTextEditor;
      if (editor) await runTo(server, output, editor.document.uri.toString(), editor.selection.active.line);
    })),
    vscode.commands.registerCommand('chipbench.runOnPage', shown(() => runOnPage(pages, folder))),
    { dispose: () => pages.forEach((page) => page.kill()) },
    ...debug.register(folder),
    { dispose: () => server.close() },
  );
  for (const [kind, provider] of Object.entries(providers(server, answered.event))) {
    context.subscriptions.push(vscode.languages[`register${kind}Provider`](selector, provider));
  }
  server.start();
  return server;
}

module.exports = { activate };
