// Runs the client of extension.js with a server, under a stand-in for the part of VS Code that it uses:
//
//     node test.js PROGRAM
//
// It opens a program with an error, looks where a name is declared, lists its symbols, types the missing keyword, and applies the fix; the
// status is 1 if something is otherwise than it must be.
'use strict';
const Module = require('module');
const assert = require('assert');

const program = process.argv[2];
class Position { constructor(line, character) { this.line = line; this.character = character; } }
class Range { constructor(start, end) { this.start = start; this.end = end; } }
class Diagnostic { constructor(range, message, severity) { Object.assign(this, { range, message, severity }); } }
class Location { constructor(uri, range) { Object.assign(this, { uri, range }); } }
class DiagnosticRelatedInformation { constructor(location, message) { Object.assign(this, { location, message }); } }
class SymbolInformation { constructor(name, kind, container, location) { Object.assign(this, { name, kind, container, location }); } }
class Hover { constructor(contents, range) { Object.assign(this, { contents, range }); } }
class MarkdownString { constructor(value) { this.value = value; } }
class CodeAction { constructor(title, kind) { Object.assign(this, { title, kind }); } }
class WorkspaceEdit { constructor() { this.edits = []; } replace(uri, range, text) { this.edits.push({ uri, range, text }); } }
class Uri { constructor(text) { this.text = text; } toString() { return this.text; } static parse(text) { return new Uri(text); } }
const kinds = { QuickFix: { value: 'quickfix' }, SourceFixAll: { value: 'source.fixAll' } };
const events = {}, providers = {}, shown = new Map(), errors = [];
const on = (name) => (handler) => { events[name] = handler; return { dispose() {} }; };
const document = {
  uri: new Uri('file:///a.ti'), languageId: 'titan', version: 1,
  text: 'class Main {\n  public static single void main(String[] args) {\n    /* \u{1F600} */ int rounds = broadcast 3 from 0;\n'
    + '    for (int single round = 0; round < rounds; round++) { Ti.barrier(); }\n  }\n}\n',
  getText() { return this.text; },
};
const vscode = {
  Position, Range, Location, Diagnostic, DiagnosticRelatedInformation, SymbolInformation, Hover, MarkdownString, CodeAction, WorkspaceEdit, Uri,
  CodeActionKind: kinds, DiagnosticSeverity: { Error: 0 },
  workspace: {
    textDocuments: [document], getConfiguration: () => ({ get: () => program }),
    onDidOpenTextDocument: on('open'), onDidChangeTextDocument: on('change'), onDidCloseTextDocument: on('close'),
  },
  window: { showErrorMessage: (text) => errors.push(text) },
  languages: {
    createDiagnosticCollection: () => ({ set: (uri, list) => shown.set(uri.toString(), list), clear: () => shown.clear(), dispose() {} }),
    registerHoverProvider: (selector, provider) => { providers.hover = provider; return { dispose() {} }; },
    registerDocumentSymbolProvider: (selector, provider) => { providers.symbols = provider; return { dispose() {} }; },
    registerDefinitionProvider: (selector, provider) => { providers.definition = provider; return { dispose() {} }; },
    registerCodeActionsProvider: (selector, provider) => { providers.actions = provider; return { dispose() {} }; },
  },
};
const load = Module._load;
Module._load = (name, ...rest) => (name === 'vscode' ? vscode : load(name, ...rest));
const extension = require('./extension.js');

// Waits until the diagnostics are as wanted.
async function diagnostics(count) {
  for (let i = 0; i < 500; i++) {
    const found = shown.get('file:///a.ti');
    if (found && found.length === count) return found;
    await new Promise((resolve) => setTimeout(resolve, 20));
  }
  throw new Error(`never ${count} diagnostics`);
}

// Replaces a part of one line, as VS Code reports it.
function edit(line, start, end, text) {
  const lines = document.text.split('\n');
  lines[line] = lines[line].slice(0, start) + text + lines[line].slice(end);
  document.text = lines.join('\n');
  document.version += 1;
  events.change({ document, contentChanges: [{ range: new Range(new Position(line, start), new Position(line, end)), text }] });
}

async function main() {
  extension.activate({ subscriptions: [] });
  const [found] = await diagnostics(1);
  assert.deepStrictEqual([found.code, found.source, found.range.start.line, found.range.start.character], ['S2', 'titan', 3, 4]);
  assert.deepStrictEqual(found.relatedInformation.map(({ location }) => location.range.start.line), [3, 2, 3]);
  const hover = await providers.hover.provideHover(document, new Position(3, 5));
  assert.ok(hover.contents.value.startsWith('**S2** '));
  assert.strictEqual(await providers.hover.provideHover(document, new Position(0, 0)), null);
  const [declared] = await providers.definition.provideDefinition(document, new Position(3, 39));
  assert.deepStrictEqual([declared.uri.text, declared.range.start.line], ['file:///a.ti', 2]);
  const symbols = await providers.symbols.provideDocumentSymbols(document);
  assert.deepStrictEqual(symbols.map(({ name, kind, location }) => [name, kind, location.range.start.line]), [['Main', 4, 0], ['main', 5, 1]]);
  const at = document.text.split('\n')[2].indexOf('rounds');
  edit(2, at, at, 'single ');
  await diagnostics(0);
  edit(2, at, at + 7, '');
  await diagnostics(1);
  const [action] = await providers.actions.provideCodeActions(document, found.range, { only: kinds.QuickFix });
  assert.strictEqual(action.title, 'Insert `single` where it belongs');
  for (const { range, text } of action.edit.edits) edit(range.start.line, range.start.character, range.end.character, text);
  await diagnostics(0);
  assert.ok(document.text.includes('int single rounds'));
  events.close(document);
  await extension.deactivate();
  await new Promise((resolve) => setTimeout(resolve, 200));
  assert.deepStrictEqual(errors, []);
  console.log('as it must be');
}

main().catch((error) => { console.error(String(error)); process.exit(1); });
