// The tree of a score: views of the library's records, which are made when they are asked for.

import { bytesOfScore } from "./bytes.js";
import { KINDS } from "./kinds.js";
import { withMemory } from "./library.js";

// A record: begin, end and inner of four bytes each, and kind, a, b and c of two each.
const RECORD = 20;
const [END, INNER, KIND, VALUES] = [4, 8, 12, 14];

// How many records there is room for at first, for each four bytes of the score: more than most scores want, since a second call reads the score again.
const TIMES = 5;
const LEAST = 256;
const decoder = new TextDecoder("utf-8", { ignoreBOM: true });

/** A node of a tree: what it is, its bytes, and what its kind says of it in numbers. */
class Node {
  #tree;

  constructor(tree, number) {
    this.#tree = tree;
    this.number = number;
  }

  get kind() {
    return KINDS[this.#tree.records.getUint16(RECORD * this.number + KIND, true)];
  }

  get begin() {
    return this.#wide(0);
  }

  get end() {
    return this.#wide(END);
  }

  get inner() {
    return this.#wide(INNER);
  }

  get values() {
    const at = RECORD * this.number + VALUES;
    return [0, 2, 4].map((it) => this.#tree.records.getUint16(at + it, true));
  }

  get bytes() {
    return this.#tree.score.subarray(this.begin, this.end);
  }

  get text() {
    return decoder.decode(this.bytes);
  }

  *children() {
    const past = this.number + 1 + this.inner;
    for (let number = this.number + 1; number < past; ) {
      const child = new Node(this.#tree, number);
      yield child;
      number += 1 + child.inner;
    }
  }

  #wide(at) {
    return this.#tree.records.getUint32(RECORD * this.number + at, true);
  }
}

/** The tree of a score: its nodes in the order of the score, each before those that lie in it. */
export class Tree {
  #parts;

  constructor(score, records) {
    this.#parts = { score, records: new DataView(records.buffer) };
    this.length = records.length / RECORD;
  }

  /** Returns the node with this number, from 0; `undefined` if there is none. */
  node(number) {
    return Number.isInteger(number) && 0 <= number && number < this.length ? new Node(this.#parts, number) : undefined;
  }

  get root() {
    return this.node(0);
  }

  *[Symbol.iterator]() {
    for (let number = 0; number < this.length; number++) yield new Node(this.#parts, number);
  }
}

/** Returns the records of the tree of a score. */
export function recordsOf(library, score) {
  return library.within((rooms, calls) => {
    const key = library.newKey();
    const told = [...rooms.put(score), rooms.put(key)[0], BigInt(key.length / 8)];
    const size = RECORD * (LEAST + Math.ceil((TIMES * score.length) / 4));
    const [, [[at, length]]] = rooms.fit(
      [size],
      ([[at, room]], count) => withMemory(calls.gregorio_tree(...told, at, room / BigInt(RECORD), count)),
      RECORD,
    );
    return rooms.view(at, length).slice();
  });
}

/** Reads `score`, and returns its tree. */
export function tree(library, score) {
  const bytes = bytesOfScore(score);
  return new Tree(bytes.slice(), recordsOf(library, bytes));
}
