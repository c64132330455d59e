// Runs: scores that come in pieces, whose state between two pieces is bytes.

import { bytesOf } from "./bytes.js";
import { withMemory } from "./library.js";
import { Options } from "./options.js";
import { RunOverError, STATUSES, StateError, Step } from "./results.js";

const [RUNS, NO_STATE, OTHER_STATE] = [6, 8, 9];

/** Returns a step by what the library answered, with its texts. Throws a `StateError` for a state that was refused. */
function stepOf(answer, output, messages) {
  if (answer === NO_STATE) throw new StateError("these bytes are no state of a run");
  if (answer === OTHER_STATE) throw new StateError("this state is one of a run with another format, other warnings or other limits");
  return new Step(answer === RUNS ? undefined : STATUSES[answer], messages, output);
}

/** A score that comes in pieces. */
export class Run {
  #library;
  #options;
  #bound;
  #state;
  #status;

  /** Begins a run, or goes on from `state`. */
  constructor(library, options, state) {
    this.#library = library;
    this.#options = new Options(options);
    const begun = this.#begin();
    if (begun === undefined) throw new RangeError(`limits out of range: ${this.#options.limits}`);
    this.#state = begun;
    if (state === undefined) return;
    this.#state = bytesOf(state, "a state is bytes").slice();
    this.feed(new Uint8Array(0));
  }

  get state() {
    this.#throwIfOver();
    return this.#state.slice();
  }

  get status() {
    return this.#status;
  }

  feed(given) {
    this.#throwIfOver();
    const piece = bytesOf(given, "a piece is bytes");
    const [step, state] = this.#feed(piece, this.#state);
    this.#state = state;
    this.#status = step.status;
    return step;
  }

  end() {
    return this.#finish("gregorio_end");
  }

  broken() {
    return this.#finish("gregorio_broken");
  }

  async *steps(pieces) {
    for await (const piece of pieces) {
      const step = this.feed(piece);
      yield step;
      if (step.status !== undefined) return;
    }
    yield this.end();
  }

  /** Returns what each step is told: format, flags, limits and a new key. */
  #told(rooms) {
    return [...this.#options.numbers, rooms.put(this.#options.bytes(this.#library.newKey()))[0], 1n];
  }

  /** Returns the first state, and keeps how many bytes a state has at most. Returns nothing if a limit is out of range. */
  #begin() {
    return this.#library.within((rooms, calls) => {
      const told = this.#told(rooms);
      this.#bound = Number(calls.gregorio_state_bound(...told.slice(2)));
      if (this.#bound === 0) return undefined;
      const [, [state]] = rooms.fit([this.#bound, 0, 0], (spans, lengths) => withMemory(calls.gregorio_begin(...told, ...spans[0], lengths)));
      return rooms.view(...state).slice();
    });
  }

  /** Returns the step that the library makes of `piece` from the state `before`, and the state after it. */
  #feed(piece, before) {
    const [answer, output, messages, state] = this.#library.within((rooms, calls) => {
      const [told, read] = [this.#told(rooms), rooms.put(piece)];
      const sizes = [Math.max(this.#bound, before.length), ...this.#options.rooms(piece.length)];
      const [answer, [state, output, messages]] = rooms.fit(sizes, ([state, ...texts], lengths) => {
        rooms.view(state[0], before.length).set(before);
        return withMemory(calls.gregorio_feed(...told, ...state, BigInt(before.length), ...read, ...texts.flat(), lengths));
      });
      return [answer, rooms.text(...output), rooms.text(...messages), rooms.view(...state).slice()];
    });
    return [stepOf(answer, output, messages), state];
  }

  /** Ends the run by this call. */
  #finish(call) {
    this.#throwIfOver();
    const texts = this.#library.within((rooms, calls) => {
      const [told, state] = [this.#told(rooms), rooms.put(this.#state)];
      const [answer, [output, messages]] = rooms.fit(this.#options.rooms(0), (spans, lengths) =>
        withMemory(calls[call](...told, ...state, ...spans.flat(), lengths)),
      );
      return [answer, rooms.text(...output), rooms.text(...messages)];
    });
    const step = stepOf(...texts);
    this.#status = step.status;
    return step;
  }

  #throwIfOver() {
    if (this.#status !== undefined) throw new RunOverError("the run is over");
  }
}
