// The element <gabc-score>: a score that is drawn where it stands in a page.

import { bytesOfScore } from "./bytes.js";
import { LEAST_WIDTH, MOST_DRAWN, MOST_WIDTH, elementOf } from "./picture.js";
import { scoreIn } from "./written.js";

const NAME = "gabc-score";
// The most messages that are listed.
const MOST_MESSAGES = 100;
const BLANK = 0x20;

const STYLE = `
:host { display: block; }
.chant {
  display: block; max-width: 100%; height: auto; fill: currentColor;
  color: var(--gabc-ink, inherit); background: var(--gabc-paper, transparent);
  font-family: var(--gabc-font, "Linux Libertine O", "Libertinus Serif", "Times New Roman", serif);
}
.staff { fill: var(--gabc-staff, #a43); }
.red { fill: var(--gabc-red, #b00); }
.curve { fill: none; stroke: currentColor; stroke-width: 90; }
.syllable { pointer-events: bounding-box; }
ol { margin: 0.5em 0 0; padding: 0; list-style: none; }
p { margin: 0; }
ol:empty, p:empty { display: none; }
`;
// By a selector, what a page names these parts of a picture.
const PARTS = { ".syllable": "syllable", ".staff": "staff", text: "text", ".red": "red" };

let calls;

/** Returns the calls of the package, which the first score of a page asks for. */
function loaded() {
  if (calls === undefined) {
    calls = import("./browser.js");
    calls.catch(() => (calls = undefined));
  }
  return calls;
}

/** Returns an element that a page names by `part`. */
function partOf(name, part, ...inside) {
  const made = document.createElement(name);
  made.part = part;
  made.append(...inside);
  return made;
}

/** Puts the style into the root of an element: as a sheet, which no policy refuses, if the browser has those. */
function putStyle(root) {
  if (!("adoptedStyleSheets" in root)) {
    root.append(Object.assign(document.createElement("style"), { textContent: STYLE }));
    return;
  }
  const sheet = new CSSStyleSheet();
  sheet.replaceSync(STYLE);
  root.adoptedStyleSheets = [sheet];
}

const lineOf = ({ line, column, kind, code, text }) =>
  partOf("li", `message ${kind}`, partOf("span", "place", `${line}:${column}`), " ", partOf("b", "code", code), " ", partOf("span", "words", text));

/** Returns the lines for messages. */
function linesOf(messages) {
  const lines = messages.slice(0, MOST_MESSAGES).map(lineOf);
  const left = messages.length - lines.length;
  return left > 0 ? [...lines, partOf("li", "message", `and ${left} more`)] : lines;
}

/** Returns the picture with this text as an element, with its parts named. */
function namedPicture(svg) {
  const picture = elementOf(svg);
  picture.part.add("score");
  for (const [selector, part] of Object.entries(PARTS)) {
    for (const it of picture.querySelectorAll(selector)) it.part.add(part);
  }
  return picture;
}

/** Returns the bytes of the file at `src`. Throws an `Error` if it was not read. */
async function bytesAt(src, base, signal) {
  const response = await fetch(new URL(src, base), { signal });
  if (!response.ok) throw new Error(`${response.status} ${response.statusText}`);
  return new Uint8Array(await response.arrayBuffer());
}

export class GabcScore extends HTMLElement {
  static observedAttributes = ["src", "messages"];

  // Is as wide as a picture may be, and never as high.
  #ruler = document.createElement("div");
  #place = partOf("div", "picture");
  #messages = partOf("ol", "messages");
  #failure = partOf("p", "failure");
  #sizes = new ResizeObserver(() => this.#resized());
  #texts = new MutationObserver(() => this.#edited());
  // What ends the reading that was begun last; `undefined` while the element is in no page.
  #reading;
  #calls;
  #score;
  #report;
  #width;

  constructor() {
    super();
    const root = this.attachShadow({ mode: "open" });
    root.append(this.#ruler, this.#place, this.#messages, this.#failure);
    putStyle(root);
  }

  get src() {
    return this.getAttribute("src") ?? "";
  }

  set src(src) {
    this.setAttribute("src", src);
  }

  get score() {
    return this.#score;
  }

  get report() {
    return this.#report;
  }

  connectedCallback() {
    this.#sizes.observe(this.#ruler);
    this.#texts.observe(this, { characterData: true, childList: true, subtree: true });
    this.#read();
  }

  disconnectedCallback() {
    this.#sizes.disconnect();
    this.#texts.disconnect();
    this.#reading?.abort();
    this.#reading = undefined;
  }

  attributeChangedCallback(name) {
    if (this.#reading === undefined) return;
    if (name === "src") this.#read();
    else this.#list();
  }

  #edited() {
    if (this.src === "") this.#read();
  }

  /** Draws the score for another width, before the next frame: an observer of sizes may change none. */
  #resized() {
    requestAnimationFrame(() => {
      if (this.#report && this.isConnected && this.#widthOf() !== this.#width) this.#draw();
    });
  }

  /** Reads the score, and shows it, unless another reading begins before. */
  async #read() {
    this.#reading?.abort();
    const { signal } = (this.#reading = new AbortController());
    try {
      const [calls, score] = await Promise.all([loaded(), this.#bytes(signal)]);
      if (!signal.aborted) this.#show(calls, score);
    } catch (error) {
      if (!signal.aborted) this.#fail(error.message);
    }
  }

  async #bytes(signal) {
    if (this.src === "") return bytesOfScore(scoreIn(this));
    try {
      return await bytesAt(this.src, this.baseURI, signal);
    } catch (error) {
      throw new Error(`${this.src} was not read: ${error.message}`, { cause: error });
    }
  }

  /** Shows a score. Throws a `RangeError` if it is too long. */
  #show(calls, score) {
    if (score.length > MOST_DRAWN) throw new RangeError(`a score of more than ${MOST_DRAWN.toLocaleString("en")} bytes is not drawn`);
    [this.#calls, this.#score] = [calls, score];
    this.#report = calls.check(score);
    this.#failure.textContent = "";
    this.#list();
    this.#draw();
    this.dispatchEvent(new Event("load"));
  }

  #fail(words) {
    this.#score = this.#report = undefined;
    this.#failure.textContent = words;
    this.#list();
    this.#place.replaceChildren();
    this.dispatchEvent(new ErrorEvent("error", { message: words }));
  }

  get #isEmpty() {
    return this.#score.every((it) => it <= BLANK);
  }

  #list() {
    const isListed = this.#report && this.hasAttribute("messages") && !this.#isEmpty;
    this.#messages.replaceChildren(...(isListed ? linesOf(this.#report.messages) : []));
  }

  /** Returns how wide a picture may be; 0 while the element is not shown. */
  #widthOf() {
    const width = this.#ruler.clientWidth;
    return width && Math.min(Math.max(width, LEAST_WIDTH), MOST_WIDTH);
  }

  #draw() {
    this.#width = this.#widthOf();
    const isDrawn = this.#width > 0 && !this.#isEmpty;
    this.#place.replaceChildren(...(isDrawn ? [namedPicture(this.#calls.draw(this.#score, { width: this.#width }))] : []));
  }
}

if (!customElements.get(NAME)) customElements.define(NAME, GabcScore);
