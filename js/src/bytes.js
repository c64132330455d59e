// Scores as bytes.

const encoder = new TextEncoder();
// Of a text that is read by its characters, only the halves of pairs that stand alone are surrogates.
const LONE = /(\p{Surrogate})/u;

/** Returns the three bytes that UTF-8 would have for half of a pair, if it allowed it. The compiler tells of them as of any bytes that are no UTF-8. */
function bytesOfHalf(half) {
  const unit = half.charCodeAt(0);
  return Uint8Array.of(0xe0 | (unit >> 12), 0x80 | ((unit >> 6) & 0x3f), 0x80 | (unit & 0x3f));
}

function joined(parts) {
  const whole = new Uint8Array(parts.reduce((length, part) => length + part.length, 0));
  let at = 0;
  for (const part of parts) {
    whole.set(part, at);
    at += part.length;
  }
  return whole;
}

/** Returns the UTF-8 of `text`. */
function utf8(text) {
  if (!LONE.test(text)) return encoder.encode(text);
  return joined(text.split(LONE).map((part, i) => (i % 2 ? bytesOfHalf(part) : encoder.encode(part))));
}

const isBuffer = (it) => /^\[object (Shared)?ArrayBuffer\]$/.test(Object.prototype.toString.call(it));

/** Returns the bytes of `it`, with no copy. Throws a `TypeError` for anything but bytes, and for bytes that were moved elsewhere. */
export function bytesOf(it, what) {
  if (ArrayBuffer.isView(it)) return new Uint8Array(it.buffer, it.byteOffset, it.byteLength);
  if (isBuffer(it)) return new Uint8Array(it);
  throw new TypeError(`${what}, not ${it === null ? "null" : typeof it}`);
}

/** Returns the bytes of `score`, of a text its UTF-8. */
export const bytesOfScore = (score) => (typeof score === "string" ? utf8(score) : bytesOf(score, "a score is a text or bytes"));
