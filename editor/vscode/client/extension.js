'use strict';
// Starts the language server of the repository that this folder is in, and asks it what VS Code wants to know.
const fs = require('fs');
const path = require('path');
const vscode = require('vscode');
const { Connection } = require('./connection');
const convert = require('./convert');

const LANGUAGE = 'silc';
const SERVER = path.join(fs.realpathSync(__dirname), '..', '..', 'lsp', 'silc-lsp');

let connection = null;

// Sources, and files that may be datapaths.
const isOurs = (document) => document.languageId === LANGUAGE || document.uri.path.endsWith('.toml');
const named = (document) => ({ uri: document.uri.toString() });
const at = (document, place) => ({ textDocument: named(document), position: convert.toPosition(place) });

function settings() {
  const { server, datapath, library } = vscode.workspace.getConfiguration(LANGUAGE);
  return { server: server || SERVER, options: { datapath: datapath || undefined, library: library || [] } };
}

function opened(document) {
  if (!isOurs(document)) return;
  const { languageId, version } = document;
  const text = document.getText();
  connection.tell('textDocument/didOpen', { textDocument: { ...named(document), languageId, version, text } });
}

function changed({ document }) {
  if (!isOurs(document)) return;
  connection.tell('textDocument/didChange', {
    textDocument: { ...named(document), version: document.version },
    contentChanges: [{ text: document.getText() }],
  });
}

function closed(document) {
  if (isOurs(document)) connection.tell('textDocument/didClose', { textDocument: named(document) });
}

// What VS Code asks of a source, by the protocol. Without an answer there is nothing to show.
function providers() {
  const ask = (method, params, made) => connection.ask(`textDocument/${method}`, params).then((found) => found && made(found));
  const { languages } = vscode;
  return [
    languages.registerHoverProvider(LANGUAGE, {
      provideHover: (document, place) => ask('hover', at(document, place),
        (found) => new vscode.Hover(new vscode.MarkdownString(found.contents.value), convert.range(found.range))),
    }),
    languages.registerDefinitionProvider(LANGUAGE, {
      provideDefinition: (document, place) => ask('definition', at(document, place), convert.location),
    }),
    languages.registerReferenceProvider(LANGUAGE, {
      provideReferences: (document, place, context) => ask('references', { ...at(document, place), context },
        (found) => found.map(convert.location)),
    }),
    languages.registerDocumentSymbolProvider(LANGUAGE, {
      provideDocumentSymbols: (document) => ask('documentSymbol', { textDocument: named(document) },
        (found) => found.map(convert.symbol)),
    }),
    languages.registerCompletionItemProvider(LANGUAGE, {
      provideCompletionItems: (document, place, token, context) => ask('completion',
        { ...at(document, place), context: convert.toContext(context) }, (found) => found.map(convert.completion)),
    }, '<', '{', ' '),
    languages.registerSignatureHelpProvider(LANGUAGE, {
      provideSignatureHelp: (document, place) => ask('signatureHelp', at(document, place), convert.signatureHelp),
    }, '(', ','),
    languages.registerDocumentFormattingEditProvider(LANGUAGE, {
      provideDocumentFormattingEdits: (document, options) => ask('formatting', { textDocument: named(document), options },
        (found) => found.map(convert.textEdit))
        .catch((why) => { vscode.window.showInformationMessage(`silc: ${why.message}`); }),
    }),
    languages.registerCodeActionsProvider(LANGUAGE, {
      provideCodeActions: (document, range) => ask('codeAction',
        { textDocument: named(document), range: convert.toRange(range), context: { diagnostics: [] } },
        (found) => found.map(convert.action)),
    }, { providedCodeActionKinds: [vscode.CodeActionKind.QuickFix] }),
  ];
}

async function activate(context) {
  const marks = vscode.languages.createDiagnosticCollection(LANGUAGE);
  const { server, options } = settings();
  connection = new Connection(server, (method, params) => {
    if (method === 'textDocument/publishDiagnostics') {
      marks.set(vscode.Uri.parse(params.uri), params.diagnostics.map(convert.diagnostic));
    }
  }, (why) => vscode.window.showWarningMessage(`silc: the language server ${server} does not run: ${why}`));
  context.subscriptions.push(marks, { dispose: deactivate });
  await connection.ask('initialize', { processId: process.pid, capabilities: {}, initializationOptions: options });
  connection.tell('initialized', {});
  vscode.workspace.textDocuments.forEach(opened);
  context.subscriptions.push(
    vscode.workspace.onDidOpenTextDocument(opened),
    vscode.workspace.onDidChangeTextDocument(changed),
    vscode.workspace.onDidCloseTextDocument(closed),
    vscode.workspace.onDidChangeConfiguration(() => connection.tell('workspace/didChangeConfiguration',
      { settings: { silc: settings().options } })),
    ...providers(),
  );
}

function deactivate() {
  return connection ? connection.close() : undefined;
}

module.exports = { activate, deactivate };
