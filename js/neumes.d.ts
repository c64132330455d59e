import type { OutlinePath } from "./outlines.js";

/** The outlines of NABC, by the names that a picture of the library has for them: `stgall-` or `laon-`, and the spelling with `B`, `N`, `E` and `T` for `>`, `-`, `!` and `~`. The ink begins at the origin. */
export declare const NEUMES: Readonly<Record<string, OutlinePath>>;

/** Whose the outlines are, and under which licence. Its text is `LICENCE` of `gregorio-chant/outlines`. */
export declare const NEUMES_NOTICE: string;
