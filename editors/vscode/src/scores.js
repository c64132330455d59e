// The documents that are open, as the package reads them.

import * as vscode from "vscode";
import { MOST_BYTES } from "../../../js/page/files.js";
import { findingsOf } from "../../../js/page/found.js";
import { Places } from "../../../js/page/places.js";
import { MOST_DRAWN } from "../../../js/src/picture.js";
import HELPS from "../../../python/gregorio_chant/linting/helps.json";

/** A document in one version. What the package says of it is asked for once. */
class Score {
  #calls;
  #document;
  #places;
  #compiled;
  #tree;

  constructor(calls, document) {
    [this.#calls, this.#document] = [calls, document];
    this.version = document.version;
    this.text = document.getText();
    this.isTooLong = this.text.length > MOST_BYTES;
  }

  get places() {
    return (this.#places ??= new Places(this.text));
  }

  get compiled() {
    return (this.#compiled ??= this.#calls.compile(this.text));
  }

  get tree() {
    return (this.#tree ??= this.#calls.tree(this.text));
  }

  /** Returns the messages, each with its range in units of the text, and its help if it has one. */
  findings() {
    return findingsOf({ messages: this.compiled.messages, tree: this.tree }, this.text, this.places, HELPS);
  }

  /** Returns the picture of a score of at most 50,000 bytes, of this width in pixels. */
  picture(width) {
    return this.text.length > MOST_DRAWN ? undefined : this.#calls.draw(this.text, { width });
  }

  /** Returns the position of a unit. */
  positionAt(unit) {
    return this.#document.positionAt(unit);
  }

  /** Returns the range between two bytes. */
  rangeOf(begin, end) {
    const [from, to] = [begin, end].map((it) => this.positionAt(this.places.unitAt(it)));
    return new vscode.Range(from.line, from.character, to.line, to.character);
  }

  /** Returns the byte at a position. */
  byteAt(position) {
    return this.places.byteAt(this.#document.offsetAt(position));
  }
}

export class Scores {
  #calls;
  #kept = new WeakMap();

  constructor(calls) {
    this.#calls = calls;
  }

  /** Returns a document as it is now. */
  of(document) {
    const kept = this.#kept.get(document);
    if (kept?.version === document.version) return kept;
    const made = new Score(this.#calls, document);
    this.#kept.set(document, made);
    return made;
  }
}
