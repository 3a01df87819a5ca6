// Starts the language server, `bcpl lsp`, if vscode-languageclient is installed in this folder: npm install vscode-languageclient@9
"use strict";

let client;

function library() {
  try {
    return require("vscode-languageclient/node");
  } catch (error) {
    return undefined;
  }
}

function activate() {
  const languages = library();
  if (!languages) {
    return undefined;
  }
  const settings = require("vscode").workspace.getConfiguration("bcpl");
  const folders = settings.get("include").flatMap((folder) => ["--include", folder]);
  const server = { command: settings.get("server"), args: ["lsp", ...folders], transport: languages.TransportKind.stdio };
  client = new languages.LanguageClient("bcpl", "BCPL", server, { documentSelector: [{ scheme: "file", language: "bcpl" }] });
  return client.start();
}

function deactivate() {
  return client ? client.stop() : undefined;
}

module.exports = { activate, deactivate };
