'use strict';
// A session of the extension for VS Code with a stub of the editor: it writes what the extension hands over as JSON.
// The first argument is the folder of the extension, the second the file of a source that is there.
const fs = require('fs');
const Module = require('module');
const path = require('path');

const [, , extension, file] = process.argv;

// Classes of the editor that keep what they are made of.
const kept = (name, ...keys) => ({
  [name]: class {
    constructor(...given) {
      keys.forEach((key, at) => { this[key] = given[at]; });
    }
  },
})[name];

class Uri {
  constructor(text) {
    this.text = text;
    this.path = decodeURIComponent(new URL(text).pathname);
  }

  static parse(text) { return new Uri(text); }

  toString() { return this.text; }

  toJSON() { return path.basename(this.path); }
}

class WorkspaceEdit {
  set(uri, edits) { this.edits = { ...this.edits, [uri.toJSON()]: edits }; }
}

const providers = {};
const listeners = {};
const said = [];
const marks = [];
let waiting = [];
const listener = (name) => (call) => { listeners[name] = call; return { dispose() {} }; };
const provider = (name) => (language, made) => { providers[name] = made; return { dispose() {} }; };

function collection() {
  return {
    set(uri, found) {
      marks.push({ uri, found });
      waiting = waiting.filter((is) => !is());
    },
    dispose() {},
  };
}

const vscode = {
  Position: kept('Position', 'line', 'character'), Range: kept('Range', 'start', 'end'),
  Location: kept('Location', 'uri', 'range'),
  Diagnostic: kept('Diagnostic', 'range', 'message', 'severity'), TextEdit: kept('TextEdit', 'range', 'newText'),
  Hover: kept('Hover', 'contents', 'range'), MarkdownString: kept('MarkdownString', 'value'),
  CompletionItem: kept('CompletionItem', 'label', 'kind'),
  DocumentSymbol: kept('DocumentSymbol', 'name', 'detail', 'kind', 'range', 'own'),
  SignatureHelp: kept('SignatureHelp'), SignatureInformation: kept('SignatureInformation', 'label'),
  ParameterInformation: kept('ParameterInformation', 'label'), CodeAction: kept('CodeAction', 'title', 'kind'),
  CodeActionKind: { QuickFix: 'quickfix' }, Uri, WorkspaceEdit,
  window: { showWarningMessage: (text) => said.push(text), showInformationMessage: (text) => said.push(text) },
  workspace: {
    textDocuments: [],
    getConfiguration: () => vscode.settings,
    onDidOpenTextDocument: listener('open'), onDidChangeTextDocument: listener('change'),
    onDidCloseTextDocument: listener('close'), onDidChangeConfiguration: listener('settings'),
  },
  languages: {
    createDiagnosticCollection: collection,
    registerHoverProvider: provider('hover'), registerDefinitionProvider: provider('definition'),
    registerReferenceProvider: provider('references'), registerDocumentSymbolProvider: provider('symbols'),
    registerCompletionItemProvider: provider('completion'), registerSignatureHelpProvider: provider('signature'),
    registerDocumentFormattingEditProvider: provider('layout'), registerCodeActionsProvider: provider('actions'),
  },
  settings: { server: '', datapath: 'plain.toml' },
};

const load = Module._load;
Module._load = (name, ...rest) => (name === 'vscode' ? vscode : load(name, ...rest));

const text = fs.readFileSync(file, 'utf8');
const uri = Uri.parse(`file://${encodeURI(file)}`);
const document = { uri, languageId: 'silc', version: 1, text, getText() { return this.text; } };

// The position of a text in the source, some characters after its beginning.
function place(words, after = 0) {
  const before = document.text.slice(0, document.text.indexOf(words) + after).split('\n');
  return new vscode.Position(before.length - 1, before[before.length - 1].length);
}

// The next marks of the source.
function marked() {
  const first = marks.length;
  return new Promise((resolve) => {
    const is = () => {
      const found = marks.slice(first).find(({ uri }) => uri.text === document.uri.text);
      if (found) resolve(found.found);
      return Boolean(found);
    };
    waiting.push(is);
  });
}

async function session() {
  const { main } = JSON.parse(fs.readFileSync(path.join(extension, 'package.json')));
  const { activate, deactivate } = require(path.join(extension, main));
  vscode.workspace.textDocuments.push(document);
  const first = marked();
  await activate({ subscriptions: [] });
  const answers = { opened: await first };
  answers.hover = await providers.hover.provideHover(document, place('t = x', 0));
  answers.nothing = await providers.hover.provideHover(document, place('begin', 1));
  answers.definition = await providers.definition.provideDefinition(document, place('y = t', 4));
  answers.references = await providers.references.provideReferences(document, place('t = x'), { includeDeclaration: false });
  answers.symbols = await providers.symbols.provideDocumentSymbols(document);
  answers.completion = (await providers.completion.provideCompletionItems(document, place('t = x'))).slice(0, 2);
  answers.signature = await providers.signature.provideSignatureHelp(document, place('s = same(', 9));
  answers.layout = await providers.layout.provideDocumentFormattingEdits(document, {});
  answers.actions = await providers.actions.provideCodeActions(document, new vscode.Range(place('t + s'), place('t + s')));
  const next = marked();
  document.text = document.text.replace('y = t', 'y = u');
  document.version += 1;
  listeners.change({ document });
  answers.changed = await next;
  const refused = { ...document, text: 'func', uri: Uri.parse('file:///nowhere/other.sil') };
  listeners.open(refused);
  await providers.layout.provideDocumentFormattingEdits(refused, {});
  listeners.close(document);
  await deactivate();
  vscode.settings = { server: '/nowhere/silc-lsp' };
  await activate({ subscriptions: [] }).catch((why) => said.push(why.message));
  answers.said = said;
  process.stdout.write(JSON.stringify(answers));
}

session().catch((fault) => { process.stderr.write(`${fault.stack}\n`); process.exitCode = 1; });
