// Stands in for VS Code: what the extension calls of it, and what a trial sees of the extension. It runs in node and in a worker of a browser.

class Position {
  constructor(line, character) {
    Object.assign(this, { line, character });
  }
}

class Range {
  constructor(line, character, endLine, endCharacter) {
    this.start = new Position(line, character);
    this.end = new Position(endLine, endCharacter);
  }

  isEqual(other) {
    return JSON.stringify(this) === JSON.stringify(other);
  }
}

class Kind {
  constructor(value) {
    this.value = value;
  }

  append(word) {
    return new Kind(this.value ? `${this.value}.${word}` : word);
  }
}

/** Returns a class whose objects keep what they are made of under these names. */
const keeping = (...names) =>
  class {
    constructor(...values) {
      names.forEach((name, i) => (this[name] = values[i]));
    }
  };

class WorkspaceEdit {
  set(uri, edits) {
    this.edits = edits;
  }
}

/** Returns an event that can be listened to, with `fire` to have it happen. */
function event() {
  const listeners = new Set();
  const listen = (listener) => {
    listeners.add(listener);
    return { dispose: () => listeners.delete(listener) };
  };
  return Object.assign(listen, { fire: (it) => Promise.all([...listeners].map((listener) => listener(it))) });
}

/** A document as VS Code has it. */
export class Document {
  version = 1;
  isClosed = false;

  constructor(text, { languageId = "gabc", scheme = "file", path = "/a b.gabc" } = {}) {
    Object.assign(this, { text, languageId });
    this.uri = { scheme, path, toString: () => `${scheme}://${encodeURI(path)}` };
  }

  getText() {
    return this.text;
  }

  #lines() {
    return [0, ...Array.from(this.text.matchAll(/\n/g), ({ index }) => index + 1)];
  }

  positionAt(offset) {
    const lines = this.#lines();
    const line = lines.findLastIndex((it) => it <= offset);
    const end = this.text.slice(lines[line]).search(/\r?\n|$/);
    return new Position(line, Math.min(offset - lines[line], end));
  }

  offsetAt({ line, character }) {
    return this.#lines()[line] + character;
  }

  /** Returns the text after these edits, which do not meet. */
  edited(edits) {
    const spans = edits.map(({ range, newText }) => [this.offsetAt(range.start), this.offsetAt(range.end), newText]).sort(([a], [b]) => b - a);
    return spans.reduce((text, [begin, end, newText]) => text.slice(0, begin) + newText + text.slice(end), this.text);
  }
}

export class Host {
  /** The messages of each score by its address; the lines of the output; what was told in a box; what the extension registered. */
  shown = new Map();
  lines = [];
  told = [];
  providers = {};
  commands = {};
  panel;
  went;
  #events = { opened: event(), changed: event(), closed: event(), active: event(), selected: event(), set: event() };

  /** `files` returns the bytes of a file of the extension. `command` is the setting for the server. */
  constructor(files, command) {
    this.context = { extensionUri: "", subscriptions: [] };
    this.command = command;
    this.vscode = { ...this.#types(), ...this.#calls(files) };
  }

  #types() {
    return {
      ...{ Position, Range, WorkspaceEdit },
      CodeActionKind: { Empty: new Kind("") },
      DiagnosticSeverity: { Error: 0, Warning: 1, Information: 2 },
      SymbolKind: { Namespace: 2, Property: 6, String: 14 },
      ViewColumn: { Beside: -2 },
      Diagnostic: keeping("range", "message", "severity"),
      TextEdit: keeping("range", "newText"),
      CodeAction: keeping("title", "kind"),
      CompletionItem: keeping("label", "kind"),
      DocumentSymbol: keeping("name", "detail", "kind", "range", "selectionRange"),
      FoldingRange: keeping("start", "end"),
      Hover: keeping("contents"),
      MarkdownString: keeping("value"),
      SemanticTokens: keeping("data"),
      SemanticTokensLegend: keeping("types"),
      Uri: { parse: (text) => ({ toString: () => text }), joinPath: (_, name) => name },
    };
  }

  #calls(files) {
    const { opened, changed, closed, active, selected, set } = this.#events;
    const registering = (name) => (selector, provider) => {
      this.providers[name] = provider;
      return { dispose: () => delete this.providers[name] };
    };
    return {
      commands: { registerCommand: (name, run) => ((this.commands[name] = run), { dispose() {} }) },
      languages: {
        createDiagnosticCollection: () => this.#collection(),
        match: (selector, { languageId, uri }) => Number(selector.some((it) => it.language === languageId && it.scheme === uri.scheme)),
        registerCodeActionsProvider: registering("act"),
        registerCompletionItemProvider: registering("complete"),
        registerDocumentFormattingEditProvider: registering("format"),
        registerDocumentRangeFormattingEditProvider: registering("formatLines"),
        registerDocumentSemanticTokensProvider: registering("colour"),
        registerDocumentSymbolProvider: registering("outline"),
        registerFoldingRangeProvider: registering("fold"),
        registerHoverProvider: registering("hover"),
      },
      window: {
        createOutputChannel: () => ({ appendLine: (line) => this.lines.push(line), dispose() {} }),
        createWebviewPanel: () => this.#openPanel(),
        onDidChangeActiveTextEditor: active,
        onDidChangeTextEditorSelection: selected,
        showErrorMessage: (it) => this.told.push(it),
        showTextDocument: async (document, given) => (this.went = given.selection.start),
        showWarningMessage: (it) => this.told.push(it),
      },
      workspace: {
        fs: { readFile: async (name) => files(name) },
        getConfiguration: () => ({ get: () => this.command }),
        onDidChangeConfiguration: set,
        onDidChangeTextDocument: changed,
        onDidCloseTextDocument: closed,
        onDidOpenTextDocument: opened,
        textDocuments: [],
      },
    };
  }

  #collection() {
    return {
      set: (uri, them) => this.shown.set(uri.toString(), them),
      delete: (uri) => this.shown.delete(uri.toString()),
      clear: () => this.shown.clear(),
      dispose() {},
    };
  }

  #openPanel() {
    const [received, disposed] = [event(), event()];
    const webview = { sent: [], onDidReceiveMessage: received, postMessage: async (it) => webview.sent.push(it) };
    this.panel = { webview, say: received.fire, onDidDispose: disposed, reveal() {}, dispose: () => disposed.fire() };
    return this.panel;
  }

  // ---- what somebody does in VS Code

  open(document) {
    this.vscode.workspace.textDocuments.push(document);
    return this.#events.opened.fire(document);
  }

  /** Sets the command of the server. */
  set(command) {
    this.command = command;
    return this.#events.set.fire({ affectsConfiguration: (name) => name === "gregorio-chant" });
  }

  /** Replaces a range of a document. */
  type(document, range, text) {
    document.text = document.edited([{ range, newText: text }]);
    document.version += 1;
    return this.#events.changed.fire({ document, contentChanges: [{ range, text }] });
  }

  /** Fires a change that changes nothing, as VS Code does once a document was saved. */
  touch(document) {
    return this.#events.changed.fire({ document, contentChanges: [] });
  }

  close(document) {
    const open = this.vscode.workspace.textDocuments;
    open.splice(open.indexOf(document), 1);
    document.isClosed = true;
    return this.#events.closed.fire(document);
  }

  /** Puts the cursor of the editor with a document at a position. */
  goTo(document, line, character) {
    const textEditor = { document, selection: { active: new Position(line, character) }, viewColumn: 1 };
    const isActive = this.vscode.window.activeTextEditor?.document === document;
    this.vscode.window.activeTextEditor = textEditor;
    return isActive ? this.#events.selected.fire({ textEditor }) : this.#events.active.fire(textEditor);
  }

  messagesOf(document) {
    return this.shown.get(document.uri.toString());
  }
}

/** Returns what `ask` returns, once that is something. */
export async function awaited(ask, milliseconds = 240_000) {
  const begin = Date.now();
  for (;;) {
    const found = await ask();
    if (found) return found;
    if (Date.now() - begin > milliseconds) throw new Error(`never: ${ask}`);
    await new Promise((resolve) => setTimeout(resolve, 10));
  }
}

/** Runs the script of an extension, which asks for `vscode`, and returns what it exports. `others` returns its other modules. */
export function exportsOf(script, vscode, others = () => undefined) {
  const module = { exports: {} };
  const required = (name) => (name === "vscode" ? vscode : others(name));
  new Function("module", "exports", "require", script)(module, module.exports, required);
  return module.exports;
}
