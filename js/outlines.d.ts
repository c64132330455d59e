/** An outline around its origin, in tenths of a staff space. The origin of a note is at its left, at the height of its first note. */
export interface OutlinePath {
  readonly width: number;
  /** The path, as SVG has it. */
  readonly path: string;
}

/** The outlines of notes and signs, by the names that a picture of the library has for them. */
export declare const OUTLINES: Readonly<Record<string, OutlinePath>>;

/** Whose the outlines are, and under which licence. */
export declare const NOTICE: string;

/** The text of the licence of the outlines, the SIL Open Font License 1.1. */
export declare const LICENCE: string;
