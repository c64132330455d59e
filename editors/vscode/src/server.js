// Python's server, `gregorio-chant server`: where it is, it tells the messages, those of rules too, and repairs them.

import * as vscode from "vscode";
import { Connection } from "./connection.js";
import { actionOf, completionOf, diagnosticOf, editsOf, hoverOf, identifier, position, range } from "./protocol.js";

const USUAL = ["gregorio-chant", "server"];
const FIX_ALL = "source.fixAll.gregorio-chant";
const TRIGGERS = ["<", ">", "|"];
const TOKENS = ["property", "comment", "keyword", "parameter", "class", "operator", "variable", "function"];
// A server that ends more often than this within a time, in milliseconds, is not started again.
const MOST_ENDS = 3;
const WITHIN = 180_000;
const CAPABILITIES = {
  workspace: { workspaceEdit: { documentChanges: false } },
  textDocument: { hover: { contentFormat: ["markdown"] } },
};

export class Server {
  #of;
  #command = [];
  #connection;
  #registered = [];
  #ends = [];
  isRunning = false;

  /** `of` has the `selector` of scores and `isScore`, the `diagnostics` to fill, the `log`, and `onChange`, which is called once the server answers, or has ended. */
  constructor(of) {
    this.#of = of;
  }

  // ---- beginning and ending

  /** Starts the server, and returns once it answers or has ended. */
  async start() {
    this.#command = vscode.workspace.getConfiguration("gregorio-chant").get("command") ?? USUAL;
    if (this.#command.length === 0) return;
    const connection = new Connection(this.#command, {
      told: (method, params) => this.#told(method, params),
      ended: (why) => this.#ended(connection, why),
      log: (line) => this.#of.log.appendLine(line),
    });
    this.#connection = connection;
    const answer = await connection.request("initialize", { processId: process.pid, rootUri: null, capabilities: CAPABILITIES });
    if (answer === undefined || this.#connection !== connection) return;
    connection.notify("initialized", {});
    this.#begin();
  }

  #begin() {
    this.isRunning = true;
    for (const document of vscode.workspace.textDocuments) this.opened(document);
    this.#registered = this.#providers();
    this.#of.log.appendLine(`${this.#command.join(" ")} is running`);
    this.#of.onChange();
  }

  /** Lets go of a server that has ended or is to end, with its messages. */
  #letGo() {
    const connection = this.#connection;
    this.#connection = undefined;
    this.isRunning = false;
    for (const it of this.#registered.splice(0)) it.dispose();
    this.#of.diagnostics.clear();
    this.#of.onChange();
    return connection;
  }

  async stop() {
    await this.#letGo()?.close();
  }

  async restart() {
    this.#ends = [];
    await this.stop();
    await this.start();
  }

  #ended(connection, why) {
    if (this.#connection !== connection) return;
    const [name, wasRunning] = [this.#command.join(" "), this.isRunning];
    this.#letGo();
    this.#of.log.appendLine(`${name} has ended: ${why}`);
    if (!wasRunning) this.#notStarted(name, why);
    else if (this.#mayStart()) this.start();
    else vscode.window.showErrorMessage(`${name} ends again and again (${why}): scores are checked without it. The output GABC says more.`);
  }

  /** Says that there is no server, unless nobody asked for one. */
  #notStarted(name, why) {
    const isMissing = why.includes("ENOENT") && this.#command.every((it, i) => it === USUAL[i]);
    if (isMissing) this.#of.log.appendLine("Scores are checked without it: there are no rules and no repairs.");
    else vscode.window.showWarningMessage(`${name} has ended: ${why}. Scores are checked without it.`);
  }

  #mayStart() {
    const now = Date.now();
    this.#ends = [...this.#ends.filter((it) => now - it < WITHIN), now];
    return this.#ends.length <= MOST_ENDS;
  }

  // ---- what the server says and is told

  #told(method, params) {
    if (method === "textDocument/publishDiagnostics") {
      if (this.isRunning) this.#of.diagnostics.set(vscode.Uri.parse(params.uri), params.diagnostics.map(diagnosticOf));
    } else if (method === "window/showMessage") vscode.window.showWarningMessage(params.message);
    else if (method === "window/logMessage") this.#of.log.appendLine(params.message);
  }

  #notify(what, document, params) {
    if (this.isRunning && this.#of.isScore(document)) this.#connection.notify(`textDocument/${what}`, params);
  }

  opened(document) {
    const { languageId, version } = document;
    this.#notify("didOpen", document, { textDocument: { ...identifier(document), languageId, version, text: document.getText() } });
  }

  changed({ document, contentChanges }) {
    if (contentChanges.length === 0) return;
    const changes = contentChanges.map((it) => ({ range: range(it.range), text: it.text }));
    this.#notify("didChange", document, { textDocument: { ...identifier(document), version: document.version }, contentChanges: changes });
  }

  closed(document) {
    this.#notify("didClose", document, { textDocument: identifier(document) });
  }

  #ask(what, document, params, token) {
    return this.#connection?.request(`textDocument/${what}`, { textDocument: identifier(document), ...params }, token);
  }

  // ---- what VS Code asks for

  async format(document, options, token) {
    return editsOf(await this.#ask("formatting", document, { options }, token));
  }

  async #formatLines(document, lines, options, token) {
    return editsOf(await this.#ask("rangeFormatting", document, { range: range(lines), options }, token));
  }

  async #hover(document, at, token) {
    const told = await this.#ask("hover", document, { position: position(at) }, token);
    return told && hoverOf(told);
  }

  async #complete(document, at, token) {
    return ((await this.#ask("completion", document, { position: position(at) }, token)) ?? []).map(completionOf);
  }

  async #colour(document, token) {
    const told = await this.#ask("semanticTokens/full", document, {}, token);
    return told && new vscode.SemanticTokens(new Uint32Array(told.data));
  }

  async #act(document, where, context, token) {
    const only = context.only ? { only: [context.only.value] } : {};
    const found = await this.#ask("codeAction", document, { range: range(where), context: { diagnostics: [], ...only } }, token);
    return (found ?? []).map((it) => actionOf(it, document, context.diagnostics));
  }

  /** Registers what the server does beside what the package does. */
  #providers() {
    const { languages } = vscode;
    const { selector } = this.#of;
    const providedCodeActionKinds = ["quickfix", FIX_ALL].map((it) => vscode.CodeActionKind.Empty.append(it));
    const legend = new vscode.SemanticTokensLegend(TOKENS);
    return [
      languages.registerDocumentRangeFormattingEditProvider(selector, { provideDocumentRangeFormattingEdits: (...words) => this.#formatLines(...words) }),
      languages.registerHoverProvider(selector, { provideHover: (...words) => this.#hover(...words) }),
      languages.registerCompletionItemProvider(selector, { provideCompletionItems: (...words) => this.#complete(...words) }, ...TRIGGERS),
      languages.registerDocumentSemanticTokensProvider(selector, { provideDocumentSemanticTokens: (...words) => this.#colour(...words) }, legend),
      languages.registerCodeActionsProvider(selector, { provideCodeActions: (...words) => this.#act(...words) }, { providedCodeActionKinds }),
    ];
  }
}
