// The extension in a browser's VS Code, which runs nothing but the package.

import { begin } from "./extension.js";

// Those of files in a browser: of a repository, of a folder of this computer, of a trial.
const SCHEMES = ["file", "untitled", "vscode-vfs", "vscode-local", "vscode-test-web", "memfs"];

export async function activate(context) {
  await begin(context, { schemes: SCHEMES });
}

export function deactivate() {}
