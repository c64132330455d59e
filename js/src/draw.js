// The picture of a score: what the library draws, with the outlines that it names.

import { bytesOfScore } from "./bytes.js";
import { withMemory } from "./library.js";
import { NEUMES, NEUMES_NOTICE } from "./neumes.js";
import { NOTICE, OUTLINES } from "./outlines.js";
import { LEAST_WIDTH, MOST_WIDTH } from "./picture.js";

// How wide a picture is in pixels, if nothing else is asked for.
const USUAL = 720;
// The units of the library in a pixel.
const UNITS = 100;

// How many bytes a picture has room for at first, for each byte of the score: more than most want, since a second call draws the score again.
const TIMES = 36;
const LEAST_ROOM = 8192;
const MOST_ROOM = 1 << 26;

const STYLE =
  ".chant{color:#000;fill:currentColor;font-family:'Linux Libertine O','Libertinus Serif','Times New Roman',serif}" +
  ".chant .paper{fill:#fff}.chant .staff{fill:#a43}.chant .red{fill:#b00}.chant .curve{fill:none;stroke:currentColor;stroke-width:90}" +
  ".chant .mark{fill:#c00;fill-opacity:.09;stroke:#c00;stroke-width:70}.chant .mark.w{fill:#960;stroke:#960;stroke-dasharray:300 200}";
const SIZES = /viewBox="0 0 (\d+) (\d+)"/;
const HEAD = /^<svg[^>]*>(<title>[^<]*<\/title>)?/;
// No text of a score can hold this: its marks are escaped.
const USE = /<use href="#([A-Za-z0-9-]+)"/g;
const MARKS = { "&": "&amp;", "<": "&lt;", ">": "&gt;", '"': "&quot;" };
// What begins the names of outlines of NABC.
const OF_NABC = /^(stgall|laon)-/;

// Which messages stand in a picture, by their numbers in the library.
const MESSAGES = ["none", "errors", "all"];
const KNOWN = ["width", "messages"];
// The version of the record of options.
const VERSION = 1;

/** Returns a width in units of the library. Throws a `TypeError` if it is no number, and a `RangeError` if it is out of range. */
function unitsOf(width) {
  if (typeof width !== "number") throw new TypeError(`a width is a number, not ${typeof width}`);
  if (!(LEAST_WIDTH <= width && width <= MOST_WIDTH)) throw new RangeError(`a width is from ${LEAST_WIDTH} to ${MOST_WIDTH} pixels, not ${width}`);
  return Math.round(UNITS * width);
}

/** Returns the options as the library is told them. Throws a `TypeError` for another option or a kind of messages that is not known, and as `unitsOf`. */
function recordOf(options = {}) {
  if (typeof options !== "object" || options === null) throw new TypeError(`options are an object, not ${typeof options}`);
  for (const name of Object.keys(options)) {
    if (!KNOWN.includes(name)) throw new TypeError(`there is no option ${name}`);
  }
  const { width = USUAL, messages = "none" } = options;
  if (!MESSAGES.includes(messages)) throw new TypeError(`messages are "none", "errors" or "all", not ${String(messages)}`);
  return new Uint8Array(new Uint32Array([VERSION, unitsOf(width), MESSAGES.indexOf(messages), 0]).buffer);
}

/** Returns an outline as a path. */
function pathOf(name) {
  const { path } = (OF_NABC.test(name) ? NEUMES : OUTLINES)[name];
  return `<path id="${name}" transform="scale(100)" fill-rule="evenodd" d="${path}"/>`;
}

/** Returns what a picture of these outlines has in it before its rows. */
function beginning(names) {
  const notice = names.some((it) => OF_NABC.test(it)) ? `${NOTICE} ${NEUMES_NOTICE}` : NOTICE;
  const parts = [`<metadata>${notice.replace(/[&<>"]/g, (it) => MARKS[it])}</metadata>`, `<style>${STYLE}</style>`];
  return [...parts, `<defs>${names.map(pathOf).join("")}</defs>`, '<rect class="paper" width="100%" height="100%"/>'].join("");
}

/** Returns a picture of the library with its size and the outlines that it uses. */
function standingAlone(svg) {
  const names = [...new Set(Array.from(svg.matchAll(USE), ([, name]) => name))].sort();
  const [head] = HEAD.exec(svg);
  const [, width, height] = SIZES.exec(head);
  const sized = head.replace(/^<svg/, `<svg width="${width / UNITS}" height="${height / UNITS}"`);
  return sized + beginning(names) + svg.slice(head.length);
}

/** Returns what the library draws of the bytes of a score, by this record of options. */
function drawn(library, score, record) {
  return library.within((rooms, calls) => {
    const key = library.newKey();
    const told = [...rooms.put(score), rooms.put(record)[0], 1n, rooms.put(key)[0], BigInt(key.length / 8)];
    const size = Math.min(TIMES * score.length + LEAST_ROOM, MOST_ROOM);
    const [, [picture]] = rooms.fit([size], ([span], count) => withMemory(calls.gregorio_draw(...told, ...span, count)));
    return rooms.text(...picture);
  });
}

/** Draws `score`, a text or bytes, as SVG. */
export function draw(library, score, options) {
  return standingAlone(drawn(library, bytesOfScore(score), recordOf(options)));
}
