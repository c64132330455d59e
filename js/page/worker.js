// What runs in the workers of the page: it compiles each score that it is sent, or draws it if it is told a width, and sends back what came of it.

import wasm from "gregorio-wasm";
import { bytesOfScore } from "../src/bytes.js";
import { draw } from "../src/draw.js";
import { Library } from "../src/library.js";
import { MOST_DRAWN } from "../src/picture.js";
import { recordsOf } from "../src/tree.js";
import { compile } from "../src/whole.js";

const library = new Library(new WebAssembly.Module(wasm), crypto);

/** Returns what the page shows of a score but its picture, the dump only if it is `seen`. */
function answerTo({ score, seen }) {
  const bytes = bytesOfScore(score).slice();
  const { status, messages, canonical } = compile(library, bytes);
  const dump = seen === "dump-part" ? compile(library, bytes, { format: "dump" }).dump : undefined;
  return { bytes, records: recordsOf(library, bytes), status, messages, canonical, dump };
}

/** Returns the picture of a score, of a width in pixels. */
function pictureOf({ score, width }) {
  const bytes = bytesOfScore(score);
  return bytes.length > MOST_DRAWN ? { isTooLong: true } : { picture: draw(library, bytes, { width, messages: "errors" }) };
}

onmessage = ({ data }) => {
  try {
    const answer = data.width === undefined ? answerTo(data) : pictureOf(data);
    postMessage(answer, answer.records ? [answer.bytes.buffer, answer.records.buffer] : []);
  } catch (error) {
    postMessage({ failure: error.message });
  }
};
