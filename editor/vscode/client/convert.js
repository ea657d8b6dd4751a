'use strict';
// What the protocol and VS Code have in other forms.
const vscode = require('vscode');

// The protocol counts severities and kinds from 1, VS Code from 0.
const position = (from) => new vscode.Position(from.line, from.character);
const range = (from) => new vscode.Range(position(from.start), position(from.end));
const toPosition = (from) => ({ line: from.line, character: from.character });
const toRange = (from) => ({ start: toPosition(from.start), end: toPosition(from.end) });
const location = (from) => new vscode.Location(vscode.Uri.parse(from.uri), range(from.range));
const textEdit = (from) => new vscode.TextEdit(range(from.range), from.newText);

const related = (from) => new vscode.DiagnosticRelatedInformation(location(from.location), from.message);
// How a completion was asked for, which VS Code counts from 0.
const toContext = (from) => (from ? { triggerKind: from.triggerKind + 1, triggerCharacter: from.triggerCharacter } : undefined);

function diagnostic(from) {
  const made = new vscode.Diagnostic(range(from.range), from.message, from.severity - 1);
  made.source = from.source;
  if (from.tags) made.tags = from.tags;
  if (from.relatedInformation) made.relatedInformation = from.relatedInformation.map(related);
  return made;
}

function symbol(from) {
  const made = new vscode.DocumentSymbol(from.name, from.detail, from.kind - 1, range(from.range), range(from.selectionRange));
  made.children = from.children.map(symbol);
  return made;
}

function completion(from) {
  const made = new vscode.CompletionItem(from.label, from.kind - 1);
  made.detail = from.detail;
  if (from.documentation) made.documentation = from.documentation;
  return made;
}

function signatureHelp(from) {
  const made = new vscode.SignatureHelp();
  made.signatures = from.signatures.map((one) => {
    const signature = new vscode.SignatureInformation(one.label);
    signature.parameters = one.parameters.map((parameter) => new vscode.ParameterInformation(parameter.label));
    return signature;
  });
  made.activeSignature = from.activeSignature;
  made.activeParameter = from.activeParameter;
  return made;
}

function action(from) {
  const made = new vscode.CodeAction(from.title, vscode.CodeActionKind.QuickFix);
  made.edit = new vscode.WorkspaceEdit();
  for (const [uri, edits] of Object.entries(from.edit.changes)) made.edit.set(vscode.Uri.parse(uri), edits.map(textEdit));
  made.diagnostics = from.diagnostics.map(diagnostic);
  made.isPreferred = from.isPreferred;
  return made;
}

module.exports = { range, toContext, toPosition, toRange, location, textEdit, diagnostic, symbol, completion, signatureHelp, action };
