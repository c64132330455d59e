// The package in node.

import { webcrypto } from "node:crypto";
import { readFile } from "node:fs/promises";
import { callsOf } from "./load.js";

export { RunOverError, StateError } from "./results.js";

const module = await WebAssembly.compile(await readFile(new URL("../gregorio.wasm", import.meta.url)));
export const { compile, check, tree, draw, Run, version } = callsOf(module, webcrypto);
