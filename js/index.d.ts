/** What a score is compiled to: canonical GABC, or a line for each syllable, neume, note and sign. */
export type Format = "gabc" | "dump";

/** How a score was read: to its end without an error, to its end with errors, or up to a fatal fault. */
export type Status = "whole" | "errors" | "fatal";

/** A message. Lines and columns count from 1, a column for each character. */
export interface Message {
  readonly line: number;
  readonly column: number;
  readonly kind: "warning" | "error" | "fatal";
  readonly code: string;
  readonly text: string;
}

/** What was found in a score. It can be iterated over: its messages, in the order of their places. */
export interface Report<S = Status> extends Iterable<Message> {
  readonly status: S;
  readonly messages: readonly Message[];
  /** The messages as lines, as the program writes them. */
  readonly messagesText: string;
}

/** What is made of a score. */
export interface Result extends Report {
  readonly format: Format;
  readonly output: string;
  /** The canonical GABC, if that format was asked for. */
  readonly canonical: string | undefined;
  /** The dump, if that format was asked for. */
  readonly dump: string | undefined;
}

/** What became known with a piece of a run, or at its end. The status is `undefined` as long as the run goes on. */
export interface Step extends Report<Status | "broken" | undefined> {
  readonly output: string;
}

/** The limits of a run, in bytes: of all headers and of a syllable, 64 to 16,777,216, and of the whole input, 64 to 4,294,967,295. */
export interface Limits {
  readonly header?: number;
  readonly syllable?: number;
  readonly input?: number;
}

export interface RunOptions {
  readonly format?: Format;
  /** Whether warnings are told; they are if this is left out. */
  readonly allWarnings?: boolean;
  readonly limits?: Limits;
}

/** Bytes. They are copied before the call returns. */
export type Bytes = ArrayBufferLike | ArrayBufferView;

/** A score that comes in pieces. */
export declare class Run {
  /**
   * Begins a run. Throws a `TypeError` for options that are not known, a `RangeError` for limits that are out of range, and a `RangeError` if there is
   * not enough memory.
   */
  constructor(options?: RunOptions);

  /**
   * Returns a run that goes on from `state`, in this process or another than that which saved it. Throws a `TypeError` for a state that is not bytes,
   * and a `StateError` for bytes that are no state, and for the state of a run with another format, other warnings or other limits.
   */
  static restore(state: Bytes, options?: RunOptions): Run;

  /** A copy of the state: all that a later process needs to go on, besides the options. Throws a `RunOverError` after the end. */
  get state(): Uint8Array;

  /** The status, once the run is over. */
  get status(): Status | "broken" | undefined;

  /**
   * Reads `piece`, of any length, and returns what became known. Its status is `undefined`, or `"fatal"` if a fatal fault ended the run.
   *
   * Throws a `RunOverError` if the run is over, a `TypeError` for a piece that is not bytes, and a `RangeError` if there is not enough memory. The run is
   * as it was before then, and can be fed again.
   */
  feed(piece: Bytes): Step;

  /** Ends the run, at the end of its input, and returns the last output and messages, with the status of the whole run. */
  end(): Step;

  /** Ends the run if the source of its input failed: the status is `"broken"`, unless a fatal fault was found. */
  broken(): Step;

  /** Yields what becomes known with each of `pieces`, and at their end, or up to a fatal fault. If reading a piece fails, that is thrown. */
  steps(pieces: Iterable<Bytes> | AsyncIterable<Bytes>): AsyncGenerator<Step, void, void>;
}

/**
 * Compiles `score` under the usual limits. A text is read as its UTF-8. Throws a `TypeError` for a score that is neither a text nor bytes, for bytes of a
 * buffer that was moved elsewhere, and for options that are not known; a `RangeError` if there is not enough memory, or if the output is longer than a
 * text can be.
 */
export declare function compile(score: string | Bytes, options?: Pick<RunOptions, "format" | "allWarnings">): Result;

/** Reads `score` as `compile` does, and returns its status and messages alone. */
export declare function check(score: string | Bytes, options?: Pick<RunOptions, "allWarnings">): Report;

/** What a node of a tree is. */
export type NodeKind =
  | "file"
  | "header"
  | "headerName"
  | "headerValue"
  | "headerLeftOut"
  | "headerComment"
  | "scoreLine"
  | "syllable"
  | "characters"
  | "escape"
  | "textBlank"
  | "raw"
  | "tag"
  | "spanMark"
  | "styleTag"
  | "brace"
  | "translation"
  | "snippet"
  | "glyph"
  | "note"
  | "alteration"
  | "clef"
  | "bar"
  | "spacing"
  | "custos"
  | "lineBreak"
  | "attribute"
  | "fusion"
  | "descriptor"
  | "nabcSpace"
  | "nabcGlyph"
  | "nabcPoints"
  | "nabcLetters"
  | "comment"
  | "leftOut"
  | "furtherBlank"
  | "silent"
  | "unread";

/** A node of a tree. Those of its bytes that lie in none of its children are its own. */
export interface Node {
  readonly number: number;
  readonly kind: NodeKind;
  /** Its first byte in the score, from 0. */
  readonly begin: number;
  /** The byte after its last one. */
  readonly end: number;
  /** How many nodes lie in it, at any depth. They stand directly after it. */
  readonly inner: number;
  /** Three numbers that its kind says. */
  readonly values: readonly [number, number, number];
  /** All of its bytes, not copied. */
  readonly bytes: Uint8Array;
  /** All that stands at its place; bytes that are no UTF-8 as U+FFFD. */
  readonly text: string;
  /** Yields the nodes that lie directly in it, in order. */
  children(): IterableIterator<Node>;
}

/** The tree of a score: its nodes in the order of the score, each before those that lie in it. Each byte of the score belongs to one node. */
export interface Tree extends Iterable<Node> {
  readonly length: number;
  /** The file, in which all other nodes lie. */
  readonly root: Node;
  /** Returns the node with this number, from 0; `undefined` if there is none. */
  node(number: number): Node | undefined;
}

/**
 * Reads `score` under the usual limits, and returns its tree. Throws a `TypeError` for a score that is neither a text nor bytes, and a `RangeError` if there
 * is not enough memory.
 */
export declare function tree(score: string | Bytes): Tree;

export interface DrawOptions {
  /** How wide the picture is at most, in pixels: 120 to 100,000, and 720 if it is left out. */
  readonly width?: number;
  /** Which messages stand in the picture, each at its place: "none" (default), "errors" with fatal faults, or "all" with warnings. */
  readonly messages?: "none" | "errors" | "all";
}

/**
 * Draws `score` under the usual limits, and returns its picture: a text of SVG that stands alone, with the outlines that it uses. Each syllable is a group of the
 * class `syllable`, whose `data-begin` and `data-end` are its bytes in the score.
 *
 * Throws a `TypeError` for a score that is neither a text nor bytes, and for options that are not known; a `RangeError` for a width that is out of range, if there
 * is not enough memory, or if the picture is longer than a text can be.
 */
export declare function draw(score: string | Bytes, options?: DrawOptions): string;

/** The version of the compiler. */
export declare const version: string;

/** Bytes that are no state of a run, or the state of a run with another format, other warnings or other limits. */
export declare class StateError extends Error {}

/** A run that is over was to go on. */
export declare class RunOverError extends Error {}

/** The calls of this package. */
export interface Calls {
  readonly compile: typeof compile;
  readonly check: typeof check;
  readonly tree: typeof tree;
  readonly draw: typeof draw;
  readonly Run: typeof Run;
  readonly version: string;
}
