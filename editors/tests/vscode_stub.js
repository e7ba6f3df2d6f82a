// Runs the extension with what it uses of VS Code replaced: it opens a document, changes it, and prints what is shown.
"use strict";
const Module = require("module");
const path = require("path");

const [extension, ...server] = process.argv.slice(2);
const shown = [], errors = [], events = {}, providers = {};
let told = () => {};
const text = { now: "test b;\ngoal equal b, ;\n", version: 1 };
const document = {
  uri: { toString: () => "file:///problem.kat" }, languageId: "kat", getText: () => text.now,
  get version() { return text.version; },
};
const register = (name) => (listener) => { events[name] = listener; };
const vscode = {
  Range: function (...places) { this.places = places; },
  Diagnostic: function (range, message, severity) { Object.assign(this, { range, message, severity }); },
  Hover: function (contents, range) { Object.assign(this, { contents, range }); },
  MarkdownString: function (value) { this.value = value; },
  Location: function (uri, range) { Object.assign(this, { uri, range }); },
  Uri: { parse: (uri) => uri },
  languages: {
    createDiagnosticCollection: () => ({ set: (uri, found) => { shown.push(found.map((it) => [it.code, it.severity, ...it.range.places])); told(); } }),
    registerHoverProvider: (languages, provider) => { providers.hover = provider.provideHover; },
    registerDefinitionProvider: (languages, provider) => { providers.definition = provider.provideDefinition; },
  },
  window: { showErrorMessage: (why) => { errors.push(why); told(); } },
  workspace: {
    textDocuments: [document], getConfiguration: () => ({ get: () => server }), onDidOpenTextDocument: register("open"),
    onDidChangeTextDocument: register("change"), onDidCloseTextDocument: register("close"),
  },
};
const load = Module._load;
Module._load = (name, ...rest) => (name === "vscode" ? vscode : load(name, ...rest));

// The first answers that are not `undecided`, after those that were there.
async function next(count) {
  const decided = () => shown.filter((found) => found.every((it) => it[0] !== "undecided"));
  while (decided().length < count && !errors.length) await new Promise((done) => { told = done; });
  return decided()[count - 1];
}

async function main() {
  const { activate, deactivate } = require(path.resolve(extension));
  await activate({ subscriptions: [] });
  const fault = await next(1);
  Object.assign(text, { now: "test b;\ngoal equal b, b;\n", version: 2 });
  events.change({ document });
  const answer = await next(2);
  const hover = await providers.hover(document, { line: 1, character: 11 });
  const definition = await providers.definition(document, { line: 1, character: 11 });
  const nothing = await providers.hover(document, { line: 0, character: 0 });
  events.close(document);
  const closed = await next(3);
  await deactivate();
  console.log(JSON.stringify({ fault, answer, hover, definition, nothing, closed, errors }));
}

main();
