// What a score is compiled to, and by which limits.

const FORMATS = { gabc: 0, dump: 1 };
const KNOWN = ["format", "allWarnings", "limits"];
const LIMITS = { header: 65_536, syllable: 16_384, input: 4_294_967_295 };

// How many bytes an output has room for at first, for each byte of the score: more than most want, since a second call reads the score again.
const TIMES = { gabc: 2, dump: 16 };
const LEAST = 4096;
const MOST = 1 << 26;

const roomFor = (length) => Math.min(length + LEAST, MOST);

/** Returns the numbers of `limits`, with the usual ones for those that it lacks. */
function numbersOf(limits) {
  const all = { ...LIMITS, ...limits };
  for (const [name, it] of Object.entries(all)) {
    if (!(name in LIMITS)) throw new TypeError(`there is no limit ${name}`);
    if (typeof it !== "number") throw new TypeError(`the limit ${name} is a number, not ${typeof it}`);
    if (!Number.isInteger(it) || it < 0 || it > LIMITS.input) throw new RangeError(`the limit ${name} is out of range: ${it}`);
  }
  return [all.header, all.syllable, all.input];
}

/** What a call is told. */
export class Options {
  /** Throws a `TypeError` for a format or a kind of option that is not known, and a `RangeError` for a limit that is no number of 32 bits. */
  constructor(options = {}, known = KNOWN) {
    if (typeof options !== "object" || options === null) throw new TypeError(`options are an object, not ${typeof options}`);
    for (const name of Object.keys(options)) {
      if (!known.includes(name)) throw new TypeError(`there is no option ${name}`);
    }
    const { format = "gabc", allWarnings = true, limits = {} } = options;
    if (typeof format !== "string" || !Object.hasOwn(FORMATS, format)) throw new TypeError(`a format is "gabc" or "dump", not ${String(format)}`);
    if (typeof allWarnings !== "boolean") throw new TypeError(`allWarnings is true or false, not ${typeof allWarnings}`);
    this.format = format;
    this.numbers = [FORMATS[format], Number(allWarnings)];
    this.limits = numbersOf(limits);
  }

  /** Returns the bytes that a step of a run is told, with this key. */
  bytes(key) {
    const bytes = new Uint8Array(32);
    const view = new DataView(bytes.buffer);
    this.limits.forEach((it, i) => view.setUint32(4 * i, it, true));
    bytes.set(key, 16);
    return bytes;
  }

  /** Returns how much room for output and messages a score of `length` bytes has at first. */
  rooms(length) {
    return [roomFor(TIMES[this.format] * length), roomFor(length)];
  }
}
