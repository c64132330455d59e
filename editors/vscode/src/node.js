// The extension on a computer, where it may have Python's server beside it.

import { begin } from "./extension.js";
import { Server } from "./server.js";

let running;

export async function activate(context) {
  running = await begin(context, { schemes: ["file", "untitled"], Server });
}

export const deactivate = () => running?.stop();
