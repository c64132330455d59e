// Makes the calls of this package of the bytes of gregorio.wasm.

import { draw } from "./draw.js";
import { Library } from "./library.js";
import { Run } from "./run.js";
import { tree } from "./tree.js";
import { check, compile } from "./whole.js";

export { RunOverError, StateError } from "./results.js";

/** Makes the calls of a module of WebAssembly. */
export function callsOf(module, random) {
  const library = new Library(module, random);
  return {
    version: library.version,
    compile: (score, options) => compile(library, score, options),
    check: (score, options) => check(library, score, options),
    tree: (score) => tree(library, score),
    draw: (score, options) => draw(library, score, options),
    Run: class extends Run {
      constructor(options, state) {
        super(library, options, state);
      }

      static restore(state, options) {
        return new this(options, state ?? null);
      }
    },
  };
}

/** Makes the calls of the bytes of gregorio.wasm, or of its module. */
export async function load(source) {
  const module = source instanceof WebAssembly.Module ? source : await WebAssembly.compile(source);
  return callsOf(module, globalThis.crypto);
}
