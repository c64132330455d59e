// What the extension does of itself: it reads the scores that are open by the package, and shows what comes of it.

import * as vscode from "vscode";
import { load } from "../../../js/src/load.js";
import { canonicalEdits } from "./format.js";
import { diagnosticsOf } from "./messages.js";
import { foldingsOf, symbolsOf } from "./outline.js";
import { Picture } from "./picture.js";
import { Scores } from "./scores.js";

export const LANGUAGE = "gabc";
// How long nothing has to be typed before a score is read, in milliseconds.
const PAUSE = 150;

const fileOf = (context, name) => vscode.workspace.fs.readFile(vscode.Uri.joinPath(context.extensionUri, name));

class Extension {
  #scores;
  #server;
  #waiting = new Map();

  constructor(calls, page, { schemes, Server }) {
    this.#scores = new Scores(calls);
    this.selector = schemes.map((scheme) => ({ language: LANGUAGE, scheme }));
    this.log = vscode.window.createOutputChannel("GABC");
    this.diagnostics = vscode.languages.createDiagnosticCollection("gregorio-chant");
    this.picture = new Picture(this.#scores, page, (it) => this.isScore(it));
    const { selector, log, diagnostics } = this;
    this.#server = Server && new Server({ selector, log, diagnostics, isScore: (it) => this.isScore(it), onChange: () => this.readAll() });
  }

  isScore(document) {
    return vscode.languages.match(this.selector, document) > 0;
  }

  /** Has the server started, if there is one, and returns once it answers or has ended. */
  start() {
    return this.#server?.start();
  }

  stop() {
    return this.#server?.stop();
  }

  restart() {
    return this.#server?.restart();
  }

  /** Shows the messages of all scores: those of the package, while no server tells them. */
  readAll() {
    for (const it of vscode.workspace.textDocuments) this.read(it);
  }

  read(document) {
    if (!this.isScore(document) || document.isClosed) return;
    this.picture.changed(document);
    if (!this.#server?.isRunning) this.diagnostics.set(document.uri, diagnosticsOf(this.#scores.of(document)));
  }

  opened(document) {
    this.#server?.opened(document);
    this.read(document);
  }

  changed(event) {
    const { document } = event;
    if (!this.isScore(document)) return;
    this.#server?.changed(event);
    clearTimeout(this.#waiting.get(document));
    const isOver = () => {
      this.#waiting.delete(document);
      this.read(document);
    };
    this.#waiting.set(document, setTimeout(isOver, PAUSE));
  }

  closed(document) {
    clearTimeout(this.#waiting.get(document));
    this.#waiting.delete(document);
    if (!this.isScore(document)) return;
    this.#server?.closed(document);
    this.diagnostics.delete(document.uri);
  }

  format(document, options, token) {
    return this.#server?.isRunning ? this.#server.format(document, options, token) : canonicalEdits(this.#scores.of(document));
  }

  /** Returns what VS Code asks for a score. */
  registered() {
    const { languages } = vscode;
    return [
      languages.registerDocumentFormattingEditProvider(this.selector, { provideDocumentFormattingEdits: (...words) => this.format(...words) }),
      languages.registerDocumentSymbolProvider(this.selector, { provideDocumentSymbols: (it) => symbolsOf(this.#scores.of(it)) }),
      languages.registerFoldingRangeProvider(this.selector, { provideFoldingRanges: (it) => foldingsOf(this.#scores.of(it)) }),
    ];
  }

  listening() {
    const { commands, window, workspace } = vscode;
    return [
      workspace.onDidOpenTextDocument((it) => this.opened(it)),
      workspace.onDidChangeTextDocument((it) => this.changed(it)),
      workspace.onDidCloseTextDocument((it) => this.closed(it)),
      workspace.onDidChangeConfiguration((it) => it.affectsConfiguration("gregorio-chant") && this.restart()),
      window.onDidChangeActiveTextEditor((it) => this.picture.follow(it)),
      window.onDidChangeTextEditorSelection(({ textEditor }) => this.picture.follow(textEditor)),
      commands.registerCommand("gregorio-chant.show", () => this.picture.show()),
      commands.registerCommand("gregorio-chant.restart", () => this.restart()),
    ];
  }
}

/** Begins the extension. Scores are the documents of these `schemes`; `Server`, if it is given, is what runs Python's server. Returns what stops that. */
export async function begin(context, given) {
  const [wasm, page] = await Promise.all([fileOf(context, "gregorio.wasm"), fileOf(context, "picture.html")]);
  const extension = new Extension(await load(wasm), new TextDecoder().decode(page), given);
  context.subscriptions.push(extension.log, extension.diagnostics, extension.picture, ...extension.registered(), ...extension.listening());
  extension.readAll();
  extension.start();
  return extension;
}
