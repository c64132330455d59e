// The field in which the score is written. Under its text lies the same text once more, invisible but for the marks in it.

import { Places, editBetween, movedBy } from "./places.js";

// The most messages that are marked; the list has them all.
const MOST_MARKS = 2000;

/** Cuts a text of this length where a mark begins or ends: returns each part with the kinds of the marks over it. */
function partsOf(length, marks) {
  const cuts = [...new Set([0, length, ...marks.flatMap(({ begin, end }) => [begin, end])])].sort((a, b) => a - b);
  const waiting = [...marks].sort((a, b) => b.begin - a.begin);
  let open = [];
  return cuts.slice(0, -1).map((begin, i) => {
    open = open.filter((it) => it.end > begin);
    while (waiting.at(-1)?.begin <= begin) open.push(waiting.pop());
    return { begin, end: cuts[i + 1], kinds: open.filter((it) => it.end > begin).map((it) => it.kind) };
  });
}

export class Source {
  #field;
  #under;
  #box;
  #hint;
  #places;
  #marks = [];
  #chosen;
  #drawn;

  /** Takes the field within `box`, with what lies under its text, and the hint over it. `onEdit` is called once its text has changed, `onCursor` once its cursor has. */
  constructor(box, onEdit, onCursor) {
    this.#box = box;
    this.#field = box.querySelector("textarea");
    this.#under = box.querySelector(".under");
    this.#hint = box.querySelector(".hint");
    this.#places = new Places(this.text);
    this.#field.addEventListener("input", () => {
      this.#textChanged();
      onEdit();
    });
    document.addEventListener("selectionchange", () => {
      if (document.activeElement !== this.#field) return;
      this.#chosen = undefined;
      this.#draw();
      onCursor();
    });
    this.#field.addEventListener("blur", () => this.hint());
  }

  get text() {
    return this.#field.value;
  }

  /** Puts a text into the field, with the cursor at its beginning. */
  set text(text) {
    this.#field.value = text;
    this.#field.setSelectionRange(0, 0);
    this.#box.scrollTop = 0;
    this.#textChanged();
  }

  get places() {
    return this.#places;
  }

  get cursor() {
    return this.#field.selectionStart;
  }

  /** Marks these ranges of the text, each by the class that is its `kind`. */
  mark(marks) {
    this.#marks = marks.slice(0, MOST_MARKS);
    this.#draw();
  }

  /** Marks what is chosen elsewhere in the page, and shows it. */
  choose(range) {
    this.#chosen = { ...range, kind: "chosen" };
    this.#draw();
    this.#reveal();
  }

  /** Goes to a range of the text with the cursor, to write there. */
  goTo(range) {
    this.#field.focus({ preventScroll: true });
    this.#field.setSelectionRange(range.begin, range.end);
    this.choose(range);
    this.#box.scrollIntoView({ block: "nearest" });
  }

  /** Shows words below the mark that begins at this unit, while the field has the focus; without words none are shown. */
  hint(unit, words) {
    const mark = words && document.activeElement === this.#field && this.#under.querySelector(`[data-begin="${unit}"]`);
    this.#hint.hidden = !mark;
    if (!mark) return;
    this.#hint.textContent = words;
    const { left, bottom } = mark.getClientRects()[0];
    const box = this.#under.getBoundingClientRect();
    this.#hint.style.top = `${bottom - box.top}px`;
    this.#hint.style.left = `${Math.max(0, Math.min(left - box.left, box.width - this.#hint.offsetWidth))}px`;
  }

  #textChanged() {
    this.hint();
    const edit = editBetween(this.#under.textContent.slice(0, -1), this.text);
    this.#places = new Places(this.text);
    this.#marks = this.#marks.map((it) => movedBy(edit, it)).filter(Boolean);
    this.#chosen = undefined;
    this.#draw();
  }

  #draw() {
    const { text } = this;
    const marks = this.#chosen ? [...this.#marks, this.#chosen] : this.#marks;
    // To lay out a long text takes longer than all else here.
    const wanted = [text, ...marks.flatMap(({ begin, end, kind }) => [begin, end, kind])].join();
    if (wanted === this.#drawn) return;
    this.#drawn = wanted;
    const parts = partsOf(text.length, marks).map(({ begin, end, kinds }) => {
      if (kinds.length === 0) return text.slice(begin, end);
      const mark = document.createElement("mark");
      mark.className = kinds.join(" ");
      mark.dataset.begin = begin;
      mark.textContent = text.slice(begin, end);
      return mark;
    });
    // Behind a last LF the field has one line more, and so has this.
    this.#under.replaceChildren(...parts, "\u200b");
  }

  #reveal() {
    const mark = this.#under.querySelector(".chosen");
    if (mark === null) return;
    const [box, it] = [this.#box, mark.getBoundingClientRect()];
    const { top, bottom, height } = box.getBoundingClientRect();
    if (it.top < top || it.bottom > bottom) box.scrollTop += it.top - top - height / 3;
  }
}
