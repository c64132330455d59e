// A picture of a score in a page, with an element for each row. Of a picture that takes the place of another one the rows that are the same stay, and those that
// are not seen come later: to parse and to lay out a long picture takes far longer than to draw it.

import { elementOf } from "../src/picture.js";
import { editBetween } from "./places.js";

const NAMESPACE = "http://www.w3.org/2000/svg";
const XML = "http://www.w3.org/XML/1998/namespace";
const WIDTH = /viewBox="0 0 (\d+) /;
const OUTLINES = /<defs>[^]*<\/defs>/;
const BEFORE_ROW = /(?=<g class="row")/;
// How far a row stands to the right and below the top, in units of the picture.
const PLACE = /translate\((\d+),(\d+)\)/;
const BYTES = /(?<=<g class="syllable" )data-begin="(\d+)" data-end="(\d+)"/g;
// What belongs to no syllable, as what ends a score, is named by no bytes.
export const SYLLABLE = '.syllable:not([data-end="0"])';

// How far from what is seen a row counts as seen, in pixels.
const AROUND = 200;
// How many rows are put in at once, if fewer of those that are not there yet are seen.
const FEW = 4;

/** Returns a row of a picture: its text with neither its place nor its bytes, how far it is below the top, the bytes of each of its syllables, and the first byte. */
function rowOf(text) {
  const down = Number(PLACE.exec(text)[2]);
  const bytes = [];
  const markup = text.replace(PLACE, "translate($1,0)").replace(BYTES, (_, begin, end) => {
    bytes.push({ begin, end });
    return 'data-begin="" data-end=""';
  });
  return { markup, down, bytes, first: Number(bytes.find((it) => it.end !== "0")?.begin ?? Infinity) };
}

/** Returns what a picture has before its rows without its outlines, these, and its rows. */
function partsOf(svg) {
  const [head, ...rows] = svg.slice(0, svg.lastIndexOf("</svg>")).split(BEFORE_ROW);
  return { head: head.replace(OUTLINES, ""), outlines: OUTLINES.exec(head)?.[0] ?? "", rows: rows.map(rowOf) };
}

const standingAlone = (inside) => elementOf(`<svg xmlns="${NAMESPACE}">${inside}</svg>`);

/** Writes into the syllables of a row that is put in which bytes they are. */
function writeBytes({ box, bytes }) {
  for (const [i, it] of box.querySelectorAll(".syllable").entries()) Object.assign(it.dataset, bytes[i]);
}

const haveSameBytes = (one, other) => one.bytes.every(({ begin, end }, i) => begin === other.bytes[i].begin && end === other.bytes[i].end);

/** Returns an element of SVG with these attributes and this style. */
function svgOf(attributes, style) {
  const made = document.createElementNS(NAMESPACE, "svg");
  for (const [name, value] of Object.entries(attributes)) made.setAttribute(name, value);
  Object.assign(made.style, style);
  return made;
}

export class Rows {
  #place;
  // What all stands in: the head, then the outlines, then the rows.
  #sheet = document.createElement("div");
  #head;
  #outlines;
  #shown = {};
  #rows = [];
  // How wide the picture is, in its units.
  #width;
  #frame;

  /** Shows pictures in `place`. */
  constructor(place) {
    this.#place = place;
    this.#sheet.className = "chant";
  }

  /** Shows the picture with this text; none if there is no text. */
  show(svg) {
    cancelAnimationFrame(this.#frame);
    const width = Number(WIDTH.exec(svg)?.[1]);
    if (width !== this.#width) this.#begin(width);
    if (svg === "") return;
    const { head, outlines, rows } = partsOf(svg);
    this.#showOutlines(outlines);
    this.#showHead(head);
    this.#showRows(rows);
    this.#fill();
  }

  /** Returns the last syllable that begins at this byte or before it; `undefined` if there is none. Its row is put in if it was not there yet. */
  syllableAt(byte) {
    const row = this.#rows.findLast((it) => it.first <= byte);
    if (row === undefined) return undefined;
    if (!row.box.hasChildNodes()) this.#put([row]);
    return [...row.box.querySelectorAll(SYLLABLE)].findLast((it) => Number(it.dataset.begin) <= byte);
  }

  /** Begins with nothing, for pictures of this width; for none if it is no number. */
  #begin(width) {
    this.#width = width;
    this.#rows = [];
    this.#shown = {};
    this.#head = svgOf({});
    this.#outlines = svgOf({ width: 0, height: 0 }, { position: "absolute" });
    this.#sheet.replaceChildren(this.#head, this.#outlines);
    this.#place.replaceChildren(...(width ? [this.#sheet] : []));
  }

  /** Adds the outlines that are not there yet. Those that no row uses any more stay: to take one out would lay out all rows. */
  #showOutlines(outlines) {
    if (outlines === this.#shown.outlines) return;
    this.#shown.outlines = outlines;
    const there = new Set([...this.#outlines.children].map((it) => it.id));
    this.#outlines.append(...[...standingAlone(outlines).firstElementChild.children].filter((it) => !there.has(it.id)));
  }

  #showHead(head) {
    if (head === this.#shown.head) return;
    this.#shown.head = head;
    const made = elementOf(`${head}</svg>`);
    this.#sheet.style.cssText = `position: relative; max-width: 100%; width: ${made.getAttribute("width")}px`;
    Object.assign(made.style, { display: "block", width: "100%", height: "auto" });
    this.#head.replaceWith(made);
    this.#head = made;
  }

  /** Keeps the rows before and after those that differ, and makes room for these. */
  #showRows(rows) {
    const [before, after] = [this.#rows, rows].map((all) => all.map((it) => it.markup));
    const { begin, end, newEnd } = editBetween(before, after);
    for (const it of this.#rows.slice(begin, end)) it.box.remove();
    const kept = [...this.#rows.slice(0, begin), ...Array(newEnd - begin), ...this.#rows.slice(end)];
    for (const [i, row] of rows.entries()) this.#keep(row, kept[i]);
    const next = kept[newEnd]?.box ?? null;
    for (const { box } of rows.slice(begin, newEnd)) this.#sheet.insertBefore(box, next);
    this.#rows = rows;
  }

  /** Gives a row the element of one with the same text, or a new one that is empty, and moves it to its place. */
  #keep(row, old) {
    row.box = old?.box ?? this.#newBox();
    if (old?.box.hasChildNodes() && !haveSameBytes(row, old)) writeBytes(row);
    // Of the width, which does not change: so a row that stays is laid out no more.
    if (row.down !== old?.down) row.box.style.marginTop = `${(100 * row.down) / this.#width}%`;
  }

  #newBox() {
    const place = { position: "absolute", top: "0", left: "0", width: "100%", height: "auto" };
    const box = svgOf({ viewBox: `0 0 ${this.#width} 1000` }, { ...place, overflow: "visible", pointerEvents: "none", contain: "layout style" });
    // As the whole picture has it: its texts keep their blanks.
    box.setAttributeNS(XML, "xml:space", "preserve");
    return box;
  }

  /** Puts in the rows that are seen; those that are left follow, a few in each frame. */
  #fill() {
    const { top, width } = this.#sheet.getBoundingClientRect();
    const distanceOf = ({ down }) => {
      const at = top + (down * width) / this.#width;
      return Math.max(-AROUND - at, at - innerHeight - AROUND, 0);
    };
    const waiting = this.#rows.filter((it) => !it.box.hasChildNodes()).map((row) => ({ row, distance: distanceOf(row) }));
    const count = Math.max(waiting.filter((it) => it.distance === 0).length, FEW);
    waiting.sort((a, b) => a.distance - b.distance);
    this.#put(waiting.slice(0, count).map((it) => it.row));
    if (waiting.length > count) this.#frame = requestAnimationFrame(() => this.#fill());
  }

  #put(rows) {
    const made = [...standingAlone(rows.map((it) => it.markup).join("")).children];
    for (const [i, row] of rows.entries()) {
      row.box.append(made[i]);
      writeBytes(row);
    }
  }
}
