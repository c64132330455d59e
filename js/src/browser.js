// The package in a page or a worker of a browser.

import { load } from "./load.js";

export { RunOverError, StateError } from "./results.js";

const response = await fetch(new URL("../gregorio.wasm", import.meta.url));
if (!response.ok) throw new Error(`${response.url} was not read: ${response.status} ${response.statusText}`);
export const { compile, check, tree, draw, Run, version } = await load(await response.arrayBuffer());
