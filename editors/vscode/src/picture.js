// The picture of a score, beside the editor: it follows the text and the cursor, and a syllable in it leads to its place.

import * as vscode from "vscode";
import { LEAST_WIDTH } from "../../../js/src/picture.js";

const TOO_LONG = "A score of more than 50,000 bytes is not drawn here.";

export class Picture {
  #scores;
  #page;
  #isScore;
  #panel;
  #editor;
  // How wide the panel says that it is.
  #width;

  constructor(scores, page, isScore) {
    [this.#scores, this.#page, this.#isScore] = [scores, page, isScore];
  }

  dispose() {
    this.#panel?.dispose();
  }

  /** Opens the panel for the score in the editor that is active. */
  show() {
    const editor = vscode.window.activeTextEditor;
    if (!editor || !this.#isScore(editor.document)) return;
    if (this.#panel === undefined) this.#open();
    else this.#panel.reveal(undefined, true);
    this.follow(editor);
  }

  #open() {
    const where = { viewColumn: vscode.ViewColumn.Beside, preserveFocus: true };
    this.#panel = vscode.window.createWebviewPanel("gregorio-chant.picture", "GABC", where, { enableScripts: true, localResourceRoots: [] });
    this.#panel.onDidDispose(() => (this.#panel = this.#editor = this.#width = undefined));
    this.#panel.webview.onDidReceiveMessage((it) => this.#told(it));
    this.#panel.webview.html = this.#page;
  }

  /** Shows the score in `editor`, if it holds one, at its cursor. */
  follow(editor) {
    if (this.#panel === undefined || !editor || !this.#isScore(editor.document)) return;
    const isNew = this.#editor?.document !== editor.document;
    this.#editor = editor;
    if (isNew) this.#draw();
    else this.#send({});
  }

  changed(document) {
    if (this.#panel && this.#editor?.document === document) this.#draw();
  }

  #told({ width, byte }) {
    if (width !== undefined) {
      this.#width = Math.max(LEAST_WIDTH, Math.floor(width));
      this.#draw();
    } else this.#goTo(byte);
  }

  #draw() {
    if (this.#width === undefined || this.#editor === undefined) return;
    const { document } = this.#editor;
    this.#panel.title = document.uri.path.split("/").at(-1) || "GABC";
    const svg = this.#scores.of(document).picture(this.#width);
    this.#send({ svg: svg ?? "", words: svg === undefined ? TOO_LONG : "" });
  }

  /** Sends the panel what it shows anew, with the byte at the cursor. */
  #send(shown) {
    const { document, selection } = this.#editor;
    this.#panel.webview.postMessage({ ...shown, byte: this.#scores.of(document).byteAt(selection.active) });
  }

  async #goTo(byte) {
    if (this.#editor === undefined) return;
    const { document, viewColumn } = this.#editor;
    const { start } = this.#scores.of(document).rangeOf(byte, byte);
    const selection = new vscode.Range(start.line, start.character, start.line, start.character);
    await vscode.window.showTextDocument(document, { viewColumn, selection });
  }
}
