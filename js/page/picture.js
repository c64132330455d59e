// The picture of a score, as the server draws it.

const SVG_TYPE = "image/svg+xml";
const PREFIX = "p1-";

/** Returns the syllable of a picture that is the last one up to a place. */
function syllableAt(picture, { line, column }) {
  const isUpTo = ({ dataset }) => Number(dataset.line) < line || (Number(dataset.line) === line && Number(dataset.column) <= column);
  return [...picture.querySelectorAll("g[data-line]")].findLast(isUpTo);
}

export class Picture {
  #place;

  /** Shows pictures in `place`. `onSyllable` gets the line and the column of a syllable that is chosen. */
  constructor(place, onSyllable) {
    this.#place = place;
    place.addEventListener("click", ({ target }) => {
      const syllable = target.closest("g[data-line]");
      if (syllable && !target.closest("a")) onSyllable({ line: Number(syllable.dataset.line), column: Number(syllable.dataset.column) });
    });
  }

  /** Shows the picture with this text; none if there is no text. */
  show(svg) {
    if (svg === "") {
      this.#place.replaceChildren();
      return;
    }
    const picture = new DOMParser().parseFromString(svg, SVG_TYPE).documentElement;
    this.#place.replaceChildren(document.importNode(picture, true));
  }

  /** Marks the syllable at a place. */
  showAt(place) {
    for (const it of this.#place.querySelectorAll(".here")) it.classList.remove("here");
    syllableAt(this.#place, place)?.classList.add("here");
  }

  /** Shows the mark of a message, by its number from 1. */
  showMessage(number) {
    document.getElementById(`${PREFIX}m${number}-at`)?.scrollIntoView({ block: "nearest" });
  }

  /** The picture as a file of its own, with the style that the page has for it; empty if there is none. */
  get file() {
    const picture = this.#place.firstElementChild?.cloneNode(true);
    if (!picture) return "";
    const rules = [...document.styleSheets].flatMap((sheet) => [...sheet.cssRules]).filter((rule) => /^\.chant( |$)/.test(rule.selectorText ?? ""));
    const style = document.createElementNS(picture.namespaceURI, "style");
    style.textContent = rules.map((rule) => rule.cssText).join("");
    picture.prepend(style);
    for (const it of picture.querySelectorAll(".here")) it.classList.remove("here");
    for (const it of picture.querySelectorAll("a")) it.replaceWith(...it.childNodes);
    return new XMLSerializer().serializeToString(picture);
  }
}
