import type { Calls } from "./index.js";

export { RunOverError, StateError } from "./index.js";

/** Makes the calls of this package of the bytes of `gregorio.wasm`, or of its module: for pages that hold the bytes themselves. */
export function load(source: BufferSource | WebAssembly.Module): Promise<Calls>;
