// Calls the library, in its own memory. What it answers is proved; everything else in this package is only tested.

// Once its memory is larger than this, a library begins again with a new one.
const MOST_KEPT = 1 << 26;

const NO_MEMORY = 5;
const decoder = new TextDecoder("utf-8", { fatal: true, ignoreBOM: true });

/** Throws a `RangeError` if `answer` says that there was no memory, and returns it otherwise. */
export function withMemory(answer) {
  if (answer === NO_MEMORY) throw new RangeError("not enough memory to compile the score");
  return answer;
}

/** Rooms in the memory of the library, for one call. */
class Rooms {
  #calls;
  #taken = new Set();

  constructor(calls) {
    this.#calls = calls;
  }

  /** Returns the address of a new room of `size` bytes, and its size. Throws a `RangeError` if there is no memory. */
  take(size) {
    const at = this.#calls.take(BigInt(size));
    if (at === 0n) throw new RangeError(`not enough memory for ${size} bytes`);
    this.#taken.add(at);
    return [at, BigInt(size)];
  }

  /** Returns the address of a copy of `bytes`, and its size. */
  put(bytes) {
    const span = this.take(bytes.length);
    this.view(span[0], bytes.length).set(bytes);
    return span;
  }

  /** Returns the bytes at this address, until the next room is taken. */
  view(at, length) {
    return new Uint8Array(this.#calls.memory.buffer, Number(at), length);
  }

  /** Returns the text at this address. Throws a `RangeError` if it is longer than a text can be. */
  text(at, length) {
    const bytes = this.view(at, length);
    try {
      return decoder.decode(bytes);
    } catch (error) {
      throw new RangeError(`an output of ${length} bytes is longer than a text can be`, { cause: error });
    }
  }

  /**
   * Makes a call that writes into rooms of these sizes, and then their lengths; if one is too small for what it wants to write, again with rooms of
   * these lengths. For a size `undefined` there is no room, and nothing is written. The call counts in parts of `part` bytes. Returns the call's answer,
   * and each address with its length.
   */
  fit(sizes, call, part = 1) {
    for (;;) {
      const spans = sizes.map((size) => (size === undefined ? [0n, 0n] : this.take(size)));
      const [lengths] = this.put(new Uint8Array(8 * sizes.length));
      const answer = call(spans, lengths);
      const wanted = this.#numbers(lengths, sizes.length).map((it) => part * it);
      if (sizes.every((size, i) => size === undefined || wanted[i] <= size)) return [answer, spans.map(([at], i) => [at, wanted[i]])];
      for (const [at] of spans) this.#give(at);
      sizes = sizes.map((size, i) => size && Math.max(size, wanted[i]));
    }
  }

  giveAll() {
    for (const at of this.#taken) this.#calls.give(at);
  }

  #give(at) {
    if (this.#taken.delete(at)) this.#calls.give(at);
  }

  #numbers(at, count) {
    const view = new DataView(this.#calls.memory.buffer, Number(at), 8 * count);
    return Array.from({ length: count }, (_, i) => Number(view.getBigUint64(8 * i, true)));
  }
}

export class Library {
  #module;
  #random;
  #calls;

  /** Makes a library of a module of WebAssembly. `random` draws the keys, as `crypto` of the host does; without it there are none. */
  constructor(module, random) {
    this.#module = module;
    this.#random = random;
    this.version = this.within((_, calls) => {
      const bytes = new Uint8Array(calls.memory.buffer, Number(calls.gregorio_version.value));
      return decoder.decode(bytes.subarray(0, bytes.indexOf(0)));
    });
  }

  /** Returns the bytes of a new key for the names of headers, so that nobody can choose names that are slow to read. */
  newKey() {
    return this.#random ? this.#random.getRandomValues(new Uint8Array(16)) : new Uint8Array(0);
  }

  /** Returns what `work` returns of rooms and the calls of the library, and gives the rooms back. */
  within(work) {
    const calls = this.#calls ?? new WebAssembly.Instance(this.#module, {}).exports;
    const rooms = new Rooms(calls);
    // What throws may have been cut off anywhere, as at the end of the stack: its memory is not used again.
    this.#calls = undefined;
    const result = work(rooms, calls);
    rooms.giveAll();
    if (calls.memory.buffer.byteLength <= MOST_KEPT) this.#calls = calls;
    return result;
  }
}
