// The client of tools/lsp.py for VS Code. It uses no package, so the folder is an extension as it is.
"use strict";
const { spawn } = require("child_process");
const fs = require("fs");
const path = require("path");
const vscode = require("vscode");

const LANGUAGES = require("./package.json").contributes.languages.map((it) => it.id);
const SERVER = path.join(fs.realpathSync(__dirname), "..", "..", "tools", "lsp.py");
let client;

// Messages of the protocol to a process and from it.
class Client {
  constructor(words, receive, failed) {
    this.process = spawn(words[0], words.slice(1), { stdio: ["pipe", "pipe", "ignore"] });
    this.receive = receive;
    this.buffer = Buffer.alloc(0);
    this.answers = new Map();
    this.count = 0;
    this.process.on("error", failed);
    this.process.on("exit", (status) => this.ended || failed(new Error(`it ended with ${status}`)));
    this.process.stdin.on("error", () => {});
    this.process.stdout.on("data", (data) => this.read(data));
  }

  send(message) {
    const body = Buffer.from(JSON.stringify({ jsonrpc: "2.0", ...message }));
    this.process.stdin.write(`Content-Length: ${body.length}\r\n\r\n`);
    this.process.stdin.write(body);
  }

  notify(method, params) {
    this.send({ method, params });
  }

  ask(method, params) {
    const id = ++this.count;
    return new Promise((answer) => {
      this.answers.set(id, answer);
      this.send({ id, method, params });
    });
  }

  read(data) {
    this.buffer = Buffer.concat([this.buffer, data]);
    for (;;) {
      const start = this.buffer.indexOf("\r\n\r\n") + 4;
      const length = Number((/Content-Length: *(\d+)/i.exec(this.buffer.toString("latin1", 0, Math.max(start, 0))) || [])[1]);
      if (start < 4 || !(this.buffer.length >= start + length)) return;
      const message = JSON.parse(this.buffer.toString("utf8", start, start + length));
      this.buffer = this.buffer.subarray(start + length);
      this.take(message);
    }
  }

  take(message) {
    const answer = this.answers.get(message.id);
    if (message.method) this.receive(message.method, message.params);
    else if (answer) {
      this.answers.delete(message.id);
      answer(message.result || null);
    }
  }
}

function range({ start, end }) {
  return new vscode.Range(start.line, start.character, end.line, end.character);
}

function diagnostic(found) {
  // The protocol counts severities from 1, and VS Code from 0.
  const made = new vscode.Diagnostic(range(found.range), found.message, found.severity - 1);
  return Object.assign(made, { source: found.source, code: found.code });
}

function place(document, position) {
  return { textDocument: { uri: document.uri.toString() }, position: { line: position.line, character: position.character } };
}

async function hover(document, position) {
  const found = await client.ask("textDocument/hover", place(document, position));
  return found && new vscode.Hover(new vscode.MarkdownString(found.contents.value), range(found.range));
}

async function definition(document, position) {
  const found = await client.ask("textDocument/definition", place(document, position));
  return found && new vscode.Location(vscode.Uri.parse(found.uri), range(found.range));
}

function open(document) {
  const { languageId, version } = document;
  const given = { uri: document.uri.toString(), languageId, version, text: document.getText() };
  if (LANGUAGES.includes(languageId)) client.notify("textDocument/didOpen", { textDocument: given });
}

function change({ document }) {
  const given = { uri: document.uri.toString(), version: document.version };
  if (LANGUAGES.includes(document.languageId))
    client.notify("textDocument/didChange", { textDocument: given, contentChanges: [{ text: document.getText() }] });
}

function close(document) {
  const given = { uri: document.uri.toString() };
  if (LANGUAGES.includes(document.languageId)) client.notify("textDocument/didClose", { textDocument: given });
}

async function activate(context) {
  const shown = vscode.languages.createDiagnosticCollection("kat");
  const given = vscode.workspace.getConfiguration("kat").get("server") || [];
  const words = given.length ? given : ["python3", SERVER];
  const failed = (why) => vscode.window.showErrorMessage(`kat: ${words.join(" ")} does not run: ${why.message}`);
  const receive = (method, params) => {
    if (method === "textDocument/publishDiagnostics") shown.set(vscode.Uri.parse(params.uri), params.diagnostics.map(diagnostic));
    else if (method === "window/showMessage") vscode.window.showErrorMessage(params.message);
  };
  client = new Client(words, receive, failed);
  await client.ask("initialize", { processId: process.pid, rootUri: null, capabilities: {} });
  client.notify("initialized", {});
  vscode.workspace.textDocuments.forEach(open);
  context.subscriptions.push(
    shown,
    vscode.workspace.onDidOpenTextDocument(open),
    vscode.workspace.onDidChangeTextDocument(change),
    vscode.workspace.onDidCloseTextDocument(close),
    vscode.languages.registerHoverProvider(LANGUAGES, { provideHover: hover }),
    vscode.languages.registerDefinitionProvider(LANGUAGES, { provideDefinition: definition }),
  );
}

async function deactivate() {
  client.ended = true;
  await client.ask("shutdown");
  client.notify("exit");
}

module.exports = { activate, deactivate };
