// The picture of a score, as the compiler draws it.

import { SVG_TYPE } from "../src/picture.js";
import { save } from "./files.js";
import { Rows, SYLLABLE } from "./rows.js";

export class Drawn {
  #rows;
  #svg = "";
  #here;

  /** Shows pictures in `place`. `onSyllable` gets the first byte of a syllable that is chosen. */
  constructor(place, onSyllable) {
    this.#rows = new Rows(place);
    place.addEventListener("click", ({ target }) => {
      const syllable = target.closest(SYLLABLE);
      if (syllable) onSyllable(Number(syllable.dataset.begin));
    });
  }

  /** Shows the picture with this text; none if there is no text. */
  show(svg = "") {
    this.#svg = svg;
    this.#rows.show(svg);
  }

  /** Marks the last syllable that begins at this byte or before it. */
  showAt(byte) {
    this.#here?.classList.remove("here");
    this.#here = this.#rows.syllableAt(byte);
    this.#here?.classList.add("here");
  }

  /** Saves the picture as a file, if there is one. */
  save(name) {
    if (this.#svg) save(name, this.#svg, SVG_TYPE);
  }
}
