// Converts values of the protocol to those of VS Code, and back.
'use strict';

const vscode = require('vscode');

const position = (at) => new vscode.Position(at.line, at.character);
const range = (from) => new vscode.Range(position(from.start), position(from.end));
const toPosition = (at) => ({ line: at.line, character: at.character });
const toRange = (from) => ({ start: toPosition(from.start), end: toPosition(from.end) });
const place = (found) => new vscode.Location(vscode.Uri.parse(found.uri), range(found.range));
const edit = (made) => new vscode.TextEdit(range(made.range), made.newText);
const list = (found, convert) => (found ?? []).map(convert);

function markdown(content) {
  return new vscode.MarkdownString(content.value);
}

function diagnostic(found) {
  // the protocol counts from 1, VS Code from 0
  const made = new vscode.Diagnostic(range(found.range), found.message, found.severity - 1);
  made.code = found.code;
  made.source = found.source;
  return made;
}

function hover(found) {
  return found && new vscode.Hover(markdown(found.contents), found.range && range(found.range));
}

function completion(item) {
  const made = new vscode.CompletionItem(item.label, item.kind - 1);
  made.detail = item.detail;
  made.documentation = item.documentation && markdown(item.documentation);
  made.filterText = item.filterText;
  made.sortText = item.sortText;
  made.insertText = item.insertTextFormat === 2 ? new vscode.SnippetString(item.textEdit.newText) : item.textEdit.newText;
  made.range = range(item.textEdit.range);
  return made;
}

/** All that may be typed, or so much of it as the server offers at once. */
function completions(found) {
  if (!found || Array.isArray(found)) return list(found, completion);
  return new vscode.CompletionList(found.items.map(completion), found.isIncomplete);
}

function symbol(found) {
  return new vscode.DocumentSymbol(found.name, found.detail, found.kind - 1, range(found.range), range(found.selectionRange));
}

function symbolInformation(found) {
  return new vscode.SymbolInformation(found.name, found.kind - 1, '', place(found.location));
}

function signatureHelp(found) {
  if (!found) return found;
  const made = new vscode.SignatureHelp();
  made.signatures = found.signatures.map((one) => {
    const form = new vscode.SignatureInformation(one.label, markdown(one.documentation));
    form.parameters = one.parameters.map((parameter) => new vscode.ParameterInformation(parameter.label));
    return form;
  });
  made.activeSignature = found.activeSignature;
  made.activeParameter = found.activeParameter;
  return made;
}

function semanticTokens(found) {
  return found && new vscode.SemanticTokens(new Uint32Array(found.data));
}

function callItem(found) {
  const uri = vscode.Uri.parse(found.uri);
  return new vscode.CallHierarchyItem(found.kind - 1, found.name, found.detail, uri, range(found.range), range(found.selectionRange));
}

function incomingCall(found) {
  return new vscode.CallHierarchyIncomingCall(callItem(found.from), found.fromRanges.map(range));
}

function outgoingCall(found) {
  return new vscode.CallHierarchyOutgoingCall(callItem(found.to), found.fromRanges.map(range));
}

function hint(found) {
  const made = new vscode.InlayHint(position(found.position), found.label);
  made.paddingLeft = found.paddingLeft;
  return made;
}

function fold(found) {
  const kind = found.kind === 'comment' ? vscode.FoldingRangeKind.Comment : vscode.FoldingRangeKind.Region;
  return new vscode.FoldingRange(found.startLine, found.endLine, kind);
}

function lens(found) {
  return new vscode.CodeLens(range(found.range), found.command);
}

function action(found) {
  const isFix = found.kind === 'quickfix';
  const made = new vscode.CodeAction(found.title, isFix ? vscode.CodeActionKind.QuickFix : vscode.CodeActionKind.Source);
  made.command = found.command;
  made.edit = found.edit && workspaceEdit(found.edit);
  made.isPreferred = found.isPreferred;
  return made;
}

function highlight(found) {
  return new vscode.DocumentHighlight(range(found.range));
}

function workspaceEdit(found) {
  const made = new vscode.WorkspaceEdit();
  for (const [uri, edits] of Object.entries(found?.changes ?? {})) made.set(vscode.Uri.parse(uri), edits.map(edit));
  return made;
}

module.exports = {
  action,
  callItem,
  completions,
  diagnostic,
  edit,
  fold,
  highlight,
  hint,
  hover,
  incomingCall,
  lens,
  list,
  outgoingCall,
  place,
  range,
  semanticTokens,
  signatureHelp,
  symbol,
  symbolInformation,
  toPosition,
  toRange,
  workspaceEdit,
};
