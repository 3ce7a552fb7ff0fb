// A client of titan_lsp for VS Code, without dependencies: it starts the server, sends it the open documents and their changes, and shows its
// diagnostics, hovers, fixes, symbols and definitions. VS Code counts columns in code units of UTF-16, as the server does by default.
'use strict';
const vscode = require('vscode');
const { spawn } = require('child_process');

const SELECTOR = { language: 'titan' };

// The connection: requests by id, and the bytes that were received and aren't a whole message yet.
class Connection {
  constructor(command, onDiagnostics, onEnd) {
    this.pending = new Map();
    this.lastId = 0;
    this.received = Buffer.alloc(0);
    this.onDiagnostics = onDiagnostics;
    this.process = spawn(command, [], { stdio: ['pipe', 'pipe', 'pipe'] });
    this.process.stdout.on('data', (bytes) => this.receive(bytes));
    this.process.stdin.on('error', () => {});
    let errors = '';
    this.process.stderr.on('data', (bytes) => { errors += bytes.toString(); });
    this.process.on('error', (error) => this.end(onEnd, `${command} can't be started: ${error.message}`));
    this.process.on('close', (status) => this.end(onEnd, errors.trim() || `${command} ended with status ${status}`));
  }

  end(onEnd, reason) {
    for (const { resolve } of this.pending.values()) resolve(null);
    this.pending.clear();
    if (!this.ended) onEnd(this.stopping ? null : reason);
    this.ended = true;
  }

  send(message) {
    if (this.ended) return;
    const content = Buffer.from(JSON.stringify({ jsonrpc: '2.0', ...message }), 'utf8');
    this.process.stdin.write(`Content-Length: ${content.length}\r\n\r\n`);
    this.process.stdin.write(content);
  }

  // A request; its promise yields the result, or null if it failed.
  request(method, params) {
    if (this.ended) return Promise.resolve(null);
    const id = ++this.lastId;
    return new Promise((resolve) => {
      this.pending.set(id, { resolve });
      this.send({ id, method, params });
    });
  }

  notify(method, params) {
    this.send({ method, params });
  }

  // Splits what was received into messages. The server writes a header with only a Content-Length.
  receive(bytes) {
    this.received = Buffer.concat([this.received, bytes]);
    for (;;) {
      const end = this.received.indexOf('\r\n\r\n');
      if (end < 0) return;
      const found = /^Content-Length: (\d+)$/m.exec(this.received.toString('latin1', 0, end));
      const from = end + 4;
      const to = from + Number(found[1]);
      if (this.received.length < to) return;
      const message = JSON.parse(this.received.toString('utf8', from, to));
      this.received = this.received.subarray(to);
      this.dispatch(message);
    }
  }

  dispatch(message) {
    if (message.method === 'textDocument/publishDiagnostics') {
      this.onDiagnostics(message.params);
    } else if (this.pending.has(message.id)) {
      const { resolve } = this.pending.get(message.id);
      this.pending.delete(message.id);
      resolve('result' in message ? message.result : null);
    }
  }
}

const toPosition = (at) => new vscode.Position(at.line, at.character);
const toRange = (range) => new vscode.Range(toPosition(range.start), toPosition(range.end));
const fromPosition = (at) => ({ line: at.line, character: at.character });
const fromRange = (range) => ({ start: fromPosition(range.start), end: fromPosition(range.end) });
const toLocation = (found) => new vscode.Location(vscode.Uri.parse(found.uri), toRange(found.range));
const identifier = (document) => ({ uri: document.uri.toString() });
const isTitan = (document) => document.languageId === 'titan';

function toDiagnostic(found) {
  const diagnostic = new vscode.Diagnostic(toRange(found.range), found.message, vscode.DiagnosticSeverity.Error);
  diagnostic.code = found.code;
  diagnostic.source = found.source;
  diagnostic.relatedInformation = (found.relatedInformation || [])
    .map(({ location, message }) => new vscode.DiagnosticRelatedInformation(toLocation(location), message));
  return diagnostic;
}

function toAction(found) {
  const kind = found.kind === 'source.fixAll' ? vscode.CodeActionKind.SourceFixAll : vscode.CodeActionKind.QuickFix;
  const action = new vscode.CodeAction(found.title, kind);
  action.isPreferred = found.isPreferred;
  action.diagnostics = found.diagnostics.map(toDiagnostic);
  action.edit = new vscode.WorkspaceEdit();
  for (const [uri, edits] of Object.entries(found.edit.changes)) {
    for (const edit of edits) action.edit.replace(vscode.Uri.parse(uri), toRange(edit.range), edit.newText);
  }
  return action;
}

// Kinds of symbols are numbered from 1 in the protocol, and from 0 in VS Code.
function toSymbol(found) {
  return new vscode.SymbolInformation(found.name, found.kind - 1, found.containerName || '', toLocation(found.location));
}

let connection;

function activate(context) {
  const command = vscode.workspace.getConfiguration('titan').get('server.path') || 'titan_lsp';
  const diagnostics = vscode.languages.createDiagnosticCollection('titan');
  const current = new Connection(
    command,
    (params) => diagnostics.set(vscode.Uri.parse(params.uri), params.diagnostics.map(toDiagnostic)),
    (reason) => {
      diagnostics.clear();
      if (reason) vscode.window.showErrorMessage(`titan: ${reason}`);
    });
  connection = current;

  const open = (document) => {
    if (!isTitan(document)) return;
    const { languageId, version } = document;
    current.notify('textDocument/didOpen', { textDocument: { ...identifier(document), languageId, version, text: document.getText() } });
  };
  const change = ({ document, contentChanges }) => {
    if (!isTitan(document) || contentChanges.length === 0) return;
    const changes = contentChanges.map(({ range, text }) => ({ range: fromRange(range), text }));
    current.notify('textDocument/didChange', { textDocument: { ...identifier(document), version: document.version }, contentChanges: changes });
  };
  const close = (document) => {
    if (isTitan(document)) current.notify('textDocument/didClose', { textDocument: identifier(document) });
  };
  const hover = async (document, at) => {
    const found = await current.request('textDocument/hover', { textDocument: identifier(document), position: fromPosition(at) });
    return found && new vscode.Hover(new vscode.MarkdownString(found.contents.value), toRange(found.range));
  };
  const actions = async (document, range, { only }) => {
    const wanted = only ? { only: [only.value] } : {};
    const params = { textDocument: identifier(document), range: fromRange(range), context: { diagnostics: [], ...wanted } };
    const found = await current.request('textDocument/codeAction', params);
    return (found || []).map(toAction);
  };
  const symbols = async (document) => {
    const found = await current.request('textDocument/documentSymbol', { textDocument: identifier(document) });
    return (found || []).map(toSymbol);
  };
  const definition = async (document, at) => {
    const found = await current.request('textDocument/definition', { textDocument: identifier(document), position: fromPosition(at) });
    return found && [found].flat().map(toLocation);
  };

  const capabilities = {
    general: { positionEncodings: ['utf-16'] },
    textDocument: { publishDiagnostics: { relatedInformation: true } },
  };
  current.request('initialize', { processId: process.pid, rootUri: null, capabilities });
  current.notify('initialized', {});
  vscode.workspace.textDocuments.forEach(open);
  context.subscriptions.push(
    diagnostics,
    vscode.workspace.onDidOpenTextDocument(open),
    vscode.workspace.onDidChangeTextDocument(change),
    vscode.workspace.onDidCloseTextDocument(close),
    vscode.languages.registerHoverProvider(SELECTOR, { provideHover: hover }),
    vscode.languages.registerDocumentSymbolProvider(SELECTOR, { provideDocumentSymbols: symbols }),
    vscode.languages.registerDefinitionProvider(SELECTOR, { provideDefinition: definition }),
    vscode.languages.registerCodeActionsProvider(SELECTOR, { provideCodeActions: actions },
      { providedCodeActionKinds: [vscode.CodeActionKind.QuickFix, vscode.CodeActionKind.SourceFixAll] }));
}

async function deactivate() {
  if (!connection) return;
  connection.stopping = true;
  await connection.request('shutdown');
  connection.notify('exit');
}

module.exports = { activate, deactivate };
