// Starts pest-language-server for grammars of pest.
const { workspace } = require("vscode");
const { LanguageClient } = require("vscode-languageclient/node");

let client;

exports.activate = function () {
  const command = workspace.getConfiguration("pest").get("server");
  client = new LanguageClient(
    "pest",
    "Pest grammars",
    { command },
    { documentSelector: [{ language: "pest" }] },
  );
  return client.start();
};

exports.deactivate = function () {
  return client && client.stop();
};
