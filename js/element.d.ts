import type { Report } from "./index.js";

/**
 * The element `<gabc-score>`: a score that is drawn where it stands in a page, as wide as the element is. It is drawn again once its text, its `src` or its width
 * has changed. The event `load` says that a score was read, `error` that none was.
 */
export declare class GabcScore extends HTMLElement {
  /** The address of the score, as the attribute says it. Without one the score is what the element holds. */
  src: string;
  /** The bytes of the score that was read last, to which `data-begin` and `data-end` of the syllables refer; `undefined` if it was not read. */
  readonly score: Uint8Array | undefined;
  /** What was found in it. */
  readonly report: Report | undefined;
}

declare global {
  interface HTMLElementTagNameMap {
    "gabc-score": GabcScore;
  }
}
