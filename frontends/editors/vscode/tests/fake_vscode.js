// As much of VS Code as the extension uses: plain data, and an editor that the tests type in.
'use strict';

const fs = require('node:fs');

class Position {
  constructor(line, character) {
    Object.assign(this, { line, character });
  }
}
class Range {
  constructor(start, end) {
    Object.assign(this, { start, end });
  }
}
class Uri {
  constructor(text) {
    this.text = text;
  }
  static parse(text) {
    return new Uri(text);
  }
  toString() {
    return this.text;
  }
  get fsPath() {
    return this.text.replace('file://', '');
  }
}

/** A class whose objects keep what they were made with, under these names. */
const record = (...names) =>
  class {
    constructor(...values) {
      names.forEach((name, index) => {
        this[name] = values[index];
      });
    }
  };

class WorkspaceEdit {
  edits = new Map();
  set(uri, edits) {
    this.edits.set(uri.toString(), edits);
  }
}

class Event {
  #listeners = new Set();
  listen = (listener) => {
    this.#listeners.add(listener);
    return { dispose: () => this.#listeners.delete(listener) };
  };
  fire(value) {
    for (const listener of this.#listeners) listener(value);
  }
}

class TextDocument {
  constructor(name, text, languageId = 'chip8') {
    Object.assign(this, { uri: new Uri(`file:///tmp/${name}`), languageId, version: 1, text });
  }
  getText() {
    return this.text;
  }
  async save() {
    fs.writeFileSync(this.uri.fsPath, this.text);
  }
}

function makeEditor(settings) {
  const events = { opened: new Event(), changed: new Event(), closed: new Event(), configured: new Event() };
  const diagnostics = new Map();
  const shown = new Event();
  const editor = { providers: {}, commands: {}, diagnostics, output: [], errors: [], warnings: [], opened: [], documents: [], settings };

  editor.open = (document) => {
    editor.documents.push(document);
    events.opened.fire(document);
  };
  /** Types a text over a part of a line. */
  editor.type = (document, line, start, end, text) => {
    const lines = document.text.split('\n');
    lines[line] = lines[line].slice(0, start) + text + lines[line].slice(end);
    document.text = lines.join('\n');
    document.version += 1;
    const range = new Range(new Position(line, start), new Position(line, end));
    events.changed.fire({ document, contentChanges: [{ range, text }] });
  };
  editor.close = (document) => {
    editor.documents.splice(editor.documents.indexOf(document), 1);
    events.closed.fire(document);
  };
  editor.configure = (name, value) => {
    settings[name] = value;
    events.configured.fire({ affectsConfiguration: (section) => `chipbench.${name}`.startsWith(section) });
  };
  /** The next diagnostics of a document for which `isWanted` holds. */
  editor.diagnosed = (document, isWanted) =>
    new Promise((resolve) => {
      const look = () => {
        const found = diagnostics.get(document.uri.toString());
        if (found === undefined || !isWanted(found)) return false;
        resolve(found);
        return true;
      };
      if (look()) return;
      const listener = shown.listen(() => look() && listener.dispose());
    });

  const register = (kind) => (_, provider) => {
    editor.providers[kind] = provider;
    return { dispose() {} };
  };
  const kinds = `Hover Definition DocumentHighlight CompletionItem Reference Rename DocumentSymbol FoldingRange CodeLens CodeActions
    InlayHints DocumentFormattingEdit DocumentRangeFormattingEdit DocumentSemanticTokens SignatureHelp CallHierarchy`.split(/\s+/);
  const languages = {
    createDiagnosticCollection: () => ({
      set: (uri, found) => {
        diagnostics.set(uri.toString(), found);
        shown.fire();
      },
      clear: () => diagnostics.clear(),
      dispose() {},
    }),
  };
  for (const kind of kinds) languages[`register${kind}Provider`] = register(kind);
  languages.registerWorkspaceSymbolProvider = (provider) => register('WorkspaceSymbol')(null, provider);

  editor.vscode = {
    Position,
    Range,
    Uri,
    WorkspaceEdit,
    languages,
    Location: record('uri', 'range'),
    TextEdit: record('range', 'newText'),
    MarkdownString: record('value'),
    SnippetString: record('value'),
    Diagnostic: record('range', 'message', 'severity'),
    Hover: record('contents', 'range'),
    CompletionItem: record('label', 'kind'),
    CompletionList: record('items', 'isIncomplete'),
    DocumentSymbol: record('name', 'detail', 'kind', 'range', 'selectionRange'),
    InlayHint: record('position', 'label'),
    SemanticTokens: record('data'),
    SignatureHelp: record(),
    SignatureInformation: record('label', 'documentation'),
    ParameterInformation: record('label'),
    SymbolInformation: record('name', 'kind', 'containerName', 'location'),
    CallHierarchyItem: record('kind', 'name', 'detail', 'uri', 'range', 'selectionRange'),
    CallHierarchyIncomingCall: record('from', 'fromRanges'),
    CallHierarchyOutgoingCall: record('to', 'fromRanges'),
    FoldingRange: record('start', 'end', 'kind'),
    FoldingRangeKind: { Comment: 1, Region: 3 },
    CodeLens: record('range', 'command'),
    CodeAction: record('title', 'kind'),
    CodeActionKind: { Source: 'source', QuickFix: 'quickfix' },
    DocumentHighlight: record('range'),
    ProgressLocation: { Notification: 15 },
    EventEmitter: class {
      #listeners = [];
      event = (listener) => this.#listeners.push(listener);
      fire = () => this.#listeners.forEach((listener) => listener());
      dispose() {}
    },
    DebugAdapterExecutable: record('command', 'args'),
    debug: {
      registerDebugConfigurationProvider: (type, provider) => register('DebugConfiguration')(type, provider),
      registerDebugAdapterDescriptorFactory: (type, factory) => register('DebugAdapter')(type, factory),
    },
    env: { openExternal: async (uri) => editor.opened.push(uri.toString()) },
    commands: {
      registerCommand: (name, work) => {
        editor.commands[name] = work;
        return { dispose() {} };
      },
    },
    window: {
      createOutputChannel: () => ({ appendLine: (text) => editor.output.push(text), show() {}, dispose() {} }),
      showErrorMessage: (text) => editor.errors.push(text),
      showWarningMessage: (text) => editor.warnings.push(text),
      get activeTextEditor() {
        return editor.documents.length > 0 ? { document: editor.documents.at(-1) } : undefined;
      },
      withProgress: (_, work) => work({}, { onCancellationRequested: () => ({ dispose() {} }) }),
    },
    workspace: {
      get textDocuments() {
        return editor.documents;
      },
      getConfiguration: () => ({ get: (name) => settings[name] }),
      onDidOpenTextDocument: events.opened.listen,
      onDidChangeTextDocument: events.changed.listen,
      onDidCloseTextDocument: events.closed.listen,
      onDidChangeConfiguration: events.configured.listen,
    },
  };
  return editor;
}

module.exports = { makeEditor, Position, Range, TextDocument };
