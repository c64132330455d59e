// Tries the extension for VS Code over a stand-in of VS Code: by itself in node and in a worker of both browsers, with Python's server in node, and its panel in both browsers.

import assert from "node:assert/strict";
import { spawnSync } from "node:child_process";
import { mkdtempSync, readFileSync, readdirSync, writeFileSync } from "node:fs";
import { createRequire } from "node:module";
import { join } from "node:path";
import { afterEach, describe, test } from "node:test";

import { check, draw } from "gregorio-chant";
import { BROWSERS, Browser } from "./browsers.mjs";
import { DATA } from "./cases.mjs";
import { serve } from "./server.mjs";
import { Document, Host, awaited, exportsOf } from "./vscode_host.mjs";

const EXTENSION = process.env.GREGORIO_EXTENSION;
// The command of Python's server, as JSON.
const SERVER = JSON.parse(process.env.GREGORIO_SERVER || "null");
const NAMES = readdirSync(DATA).filter((name) => name.endsWith(".gabc"));
const NONE = ["no-such-server"];
const lacks = !EXTENSION && "the extension is not here";

const fileOf = (name) => readFileSync(`${EXTENSION}/${name}`);
const scoreOf = (name) => readFileSync(`${DATA}/${name}`, "utf8");
const rangeOf = (...places) => new (class { start = { line: places[0], character: places[1] }; end = { line: places[2], character: places[3] }; })();
const codesOf = (messages) => messages?.map((it) => it.code);

// The hosts of a test, whose servers are to end with it.
const hosts = [];
afterEach(() => Promise.all(hosts.splice(0).map((it) => it.extension.deactivate())));

/** Returns a host in which the extension has begun over these documents. */
async function begun(command, ...documents) {
  const host = new Host(fileOf, command);
  host.vscode.workspace.textDocuments.push(...documents);
  host.extension = exportsOf(fileOf("dist/node.js").toString(), host.vscode, createRequire(import.meta.url));
  hosts.push(host);
  await host.extension.activate(host.context);
  return host;
}

describe("the extension without a server", { skip: lacks, timeout: 600_000 }, () => {
  test("messages with their help, of scores alone", async () => {
    const score = new Document("name:a;\n%%\n(c4) <i>Ky(f)ri</i>(g5)\n");
    const others = [new Document(score.text, { languageId: "plaintext" }), new Document(score.text, { scheme: "git" })];
    const host = await begun(NONE, score, ...others);
    assert.deepEqual(codesOf(host.messagesOf(score)), ["W3", "W3", "E1"]);
    const { range, severity, message, source } = host.messagesOf(score)[2];
    assert.deepEqual([range.start, range.end].map(({ line, character }) => [line, character]), [[2, 21], [2, 22]]);
    assert.deepEqual([severity, message, source], [0, "character left out of the notes\n'5' is no sign of the note before it: remove it", "gregorio-chant"]);
    assert.equal(host.messagesOf(score)[0].severity, 1);
    assert.deepEqual([...host.shown.keys()], [score.uri.toString()]);
    assert.ok(host.context.subscriptions.length > 10 && host.context.subscriptions.every((it) => typeof it.dispose === "function"));
  });

  test("a score that changes, and one that is closed", async () => {
    const score = new Document("name: a;\n%%\n(c4) a(f)\n");
    const host = await begun(NONE, score);
    assert.deepEqual(host.messagesOf(score), []);
    await host.type(score, rangeOf(2, 8, 2, 8), "g5");
    await host.touch(score);
    await awaited(() => codesOf(host.messagesOf(score))?.[0] === "E1");
    const late = new Document("%%\n(c4) a(f)", { scheme: "untitled", path: "Untitled-1" });
    await host.open(late);
    assert.deepEqual(codesOf(host.messagesOf(late)), ["W1"]);
    await host.type(late, rangeOf(1, 0, 1, 0), "x");
    await host.close(late);
    await new Promise((resolve) => setTimeout(resolve, 300));
    assert.equal(host.messagesOf(late), undefined);
  });

  test("all example scores: as many messages as the package tells", async () => {
    for (const name of NAMES) {
      const score = new Document(scoreOf(name));
      const host = await begun(NONE, score);
      assert.deepEqual(codesOf(host.messagesOf(score)), codesOf(check(score.text).messages), name);
    }
  });

  test("formatting writes the canonical form, if that loses nothing", async () => {
    const kept = [];
    for (const name of NAMES) {
      const score = new Document(scoreOf(name));
      const host = await begun(NONE, score);
      const edits = await host.providers.format.provideDocumentFormattingEdits(score, {});
      if (host.told.length > 0) kept.push(host.told[0]);
      else assert.equal(score.edited(edits), scoreOf(name.replace("gabc", "canonical")), name);
    }
    assert.ok(kept.length > 0 && kept.length < NAMES.length, String(kept));
    const cases = [["name: a;\n%%\n(c4) a(g5)", "line 3 has E1, character left out of the notes"], ["name: a;\n%%\n(c4) a(g) % b", "line 3 has a comment, which the canonical form has not"]];
    for (const [text, why] of cases) {
      const score = new Document(text);
      const host = await begun(NONE, score);
      assert.deepEqual([await host.providers.format.provideDocumentFormattingEdits(score, {}), host.told], [[], [`The score stays as it is: ${why}`]]);
    }
  });

  test("the outline and the folding", async () => {
    const score = new Document("name: A;\nmode: 1;\n%%\n(c4) Ky(f)ri\n(g)e(h) <i>e</i>(f) (::)\n <sp>V/</sp> $(b(f)\n(::)\n");
    const host = await begun(NONE, score);
    const symbols = host.providers.outline.provideDocumentSymbols(score);
    assert.deepEqual(symbols.map((it) => [it.name, it.kind, it.children.map((child) => child.name)]), [
      ["name: A", 6, []],
      ["mode: 1", 6, []],
      ["1. Kyri e e", 2, ["Kyri e", "e"]],
      ["2. V/ (b", 2, ["V/ (b"]],
    ]);
    const folds = host.providers.fold.provideFoldingRanges(score);
    assert.deepEqual(folds.map((it) => [it.start, it.end]).slice(0, 2), [[0, 1], [2, 4]]);
  });

  test("the picture follows the text and the cursor, and leads to a place", async () => {
    const [score, other] = [new Document("%%\n(c4) é(f) b(g)"), new Document("x", { languageId: "plaintext" })];
    const host = await begun(NONE, score, other);
    await host.commands["gregorio-chant.show"]();
    await host.goTo(other, 0, 0);
    await host.commands["gregorio-chant.show"]();
    assert.equal(host.panel, undefined);
    await host.goTo(score, 1, 6);
    await host.commands["gregorio-chant.show"]();
    assert.match(host.panel.webview.html, /Content-Security-Policy" content="default-src 'none'; script-src 'sha256-/);
    await host.panel.say({ width: 500.7 });
    const { sent } = host.panel.webview;
    assert.deepEqual(sent.at(-1), { svg: draw(score.text, { width: 500 }), words: "", byte: 10 });
    assert.equal(host.panel.title, "a b.gabc");
    await host.goTo(score, 1, 10);
    assert.deepEqual(sent.at(-1), { byte: 14 });
    await host.type(score, rangeOf(1, 0, 1, 0), "x");
    await awaited(() => sent.at(-1).svg === draw(score.text, { width: 500 }));
    await host.panel.say({ byte: 9 });
    assert.deepEqual({ ...host.went }, { line: 1, character: 6 });
    await host.type(score, rangeOf(1, 0, 1, 0), "a".repeat(50_000));
    await awaited(() => sent.at(-1).words === "A score of more than 50,000 bytes is not drawn here.");
    host.panel.dispose();
    await host.goTo(score, 1, 0);
    await host.panel.say({ width: 300 });
    assert.deepEqual(sent.at(-1).words, "A score of more than 50,000 bytes is not drawn here.");
  });

  test("a score that is too long, and one that is hostile", async () => {
    const long = new Document(`%%\n${"a(f) ".repeat(250_000)}`);
    const hostile = new Document("\u0000\ufeff\ud834(\r\n%%\r\n<(((\u2028{[%", { path: "/b.gabc" });
    const host = await begun(NONE, long, hostile);
    assert.deepEqual(host.messagesOf(long).map((it) => it.message), ["a score of more than 1,000,000 bytes is not read here"]);
    assert.deepEqual(host.providers.outline.provideDocumentSymbols(long), []);
    assert.ok(host.messagesOf(hostile).length > 0);
    host.providers.outline.provideDocumentSymbols(hostile);
    host.providers.fold.provideFoldingRanges(hostile);
  });

  test("a server that is missing", async () => {
    const host = await begun(NONE, new Document("%%\n"));
    await awaited(() => host.told.length > 0);
    assert.deepEqual(host.told, ["no-such-server has ended: spawn no-such-server ENOENT. Scores are checked without it."]);
    const [none, usual] = [await begun([]), await begun(undefined)];
    await new Promise((resolve) => setTimeout(resolve, 200));
    assert.deepEqual([none.told, usual.told, none.lines], [[], [], []]);
    await none.set(NONE);
    await awaited(() => none.told.length > 0);
  });
});

// ---- with Python's server

/** Keeps what the extension and the server say, in order, and hands it on. */
const TEE = `import { spawn } from "node:child_process";
import { appendFileSync } from "node:fs";
const [file, ...command] = process.argv.slice(2);
const server = spawn(command[0], command.slice(1), { stdio: ["pipe", "pipe", "inherit"] });
const keep = (from) => (data) => appendFileSync(file, JSON.stringify({ from, data: data.toString("base64") }) + "\\n");
process.stdin.on("data", keep("client")).pipe(server.stdin);
server.stdout.on("data", keep("server")).pipe(process.stdout);
server.on("exit", (status) => process.exit(status));
process.on("SIGTERM", () => server.kill());
`;

/** Returns the messages in these bytes, and the bytes after them. */
function messagesIn(bytes) {
  const messages = [];
  let rest = bytes;
  for (let found; (found = /^Content-Length: (\d+)\r\n\r\n/.exec(rest.toString("latin1", 0, 60))); ) {
    const end = found[0].length + Number(found[1]);
    if (rest.length < end) break;
    messages.push(JSON.parse(rest.subarray(found[0].length, end)));
    rest = rest.subarray(end);
  }
  return { messages, rest };
}

/** Returns what was said, in order: each message with who said it. */
function saidIn(file) {
  const open = { client: Buffer.alloc(0), server: Buffer.alloc(0) };
  const said = [];
  for (const line of readFileSync(file, "utf8").trim().split("\n")) {
    const { from, data } = JSON.parse(line);
    const { messages, rest } = messagesIn(Buffer.concat([open[from], Buffer.from(data, "base64")]));
    open[from] = rest;
    said.push(...messages.map((it) => ({ from, ...it })));
  }
  return said;
}

// What the protocol wants in the parameters of a message, besides the document.
const WANTED = {
  "textDocument/codeAction": ["range", "context"],
  "textDocument/formatting": ["options"],
  "textDocument/rangeFormatting": ["range", "options"],
  "textDocument/hover": ["position"],
  "textDocument/completion": ["position"],
  "textDocument/semanticTokens/full": [],
  "textDocument/didOpen": [],
  "textDocument/didClose": [],
  "textDocument/didChange": ["contentChanges"],
};
const TOKEN = { onCancellationRequested: () => ({ dispose() {} }) };
const CANCELLED = { onCancellationRequested: (listener) => (setImmediate(listener), { dispose() {} }) };

// The extension names special characters as they are written, and the server as they look.
const written = (name) => name.replaceAll("℣", "V/").replaceAll("℟", "R/");
const namesOf = (symbols) => symbols.map((it) => [written(it.name), it.children.map((child) => written(child.name))]);

/** Returns the outlines that the server has of these documents. */
function symbolsOfServer(documents) {
  const opened = documents.map(({ uri, text }) => ({ method: "textDocument/didOpen", params: { textDocument: { uri: String(uri), languageId: "gabc", version: 1, text } } }));
  const asked = documents.map(({ uri }, i) => ({ id: i + 2, method: "textDocument/documentSymbol", params: { textDocument: { uri: String(uri) } } }));
  const all = [{ id: 1, method: "initialize", params: { capabilities: {} } }, { method: "initialized", params: {} }, ...opened, ...asked, { id: 0, method: "shutdown" }, { method: "exit" }];
  const frames = all.map((it) => Buffer.from(JSON.stringify({ jsonrpc: "2.0", ...it }))).flatMap((it) => [Buffer.from(`Content-Length: ${it.length}\r\n\r\n`), it]);
  const { stdout } = spawnSync(SERVER[0], SERVER.slice(1), { input: Buffer.concat(frames) });
  const answers = messagesIn(stdout).messages;
  return documents.map((_, i) => answers.find(({ id }) => id === i + 2).result);
}

/** Checks the form of all that the extension said in one run of the server. */
function assertProtocol(run) {
  const said = run.filter(({ from, method }) => from === "client" && method);
  const methods = said.map((it) => it.method);
  assert.deepEqual([...methods.slice(0, 3), ...methods.slice(-2)], ["initialize", "initialized", "textDocument/didOpen", "shutdown", "exit"]);
  const isAnswer = ({ from, id, result }) => from === "server" && id === 1 && result?.capabilities;
  assert.ok(run.findIndex(isAnswer) < run.findIndex(({ method }) => method === "initialized"));
  const ids = said.filter((it) => "id" in it).map((it) => it.id);
  assert.deepEqual(ids, ids.map((_, i) => i + 1));
  for (const it of said.filter(({ method }) => method.startsWith("textDocument/"))) {
    assert.deepEqual(Object.keys(it.params).sort(), ["textDocument", ...WANTED[it.method]].sort());
    assert.equal(it.params.textDocument.uri, "file:///a%20b.gabc");
    assert.equal("id" in it, !it.method.includes("/did"));
  }
}

describe("the extension with Python's server", { skip: lacks || (!SERVER && "the server is not here"), timeout: 600_000 }, () => {
  const room = mkdtempSync(join(process.cwd(), "server-"));
  writeFileSync(`${room}/tee.mjs`, TEE);
  const command = (file) => [process.execPath, `${room}/tee.mjs`, `${room}/${file}`, ...SERVER];

  test("messages, repairs, and all that it does, by its protocol", async () => {
    const score = new Document("name:a;\n%%\n(c4) <i>Ky(f)ri</i>(g)\n");
    const host = await begun(command("said"), new Document("", { languageId: "plaintext" }), score);
    await awaited(() => host.providers.act && host.messagesOf(score)?.length > 0);
    const [message] = host.messagesOf(score);
    assert.deepEqual([message.code, message.severity, message.source], ["W3", 1, "gregorio-chant"]);
    const line = rangeOf(2, 0, 2, 24);
    const [repair] = await host.providers.act.provideCodeActions(score, line, { diagnostics: host.messagesOf(score) }, TOKEN);
    assert.deepEqual([repair.kind.value, repair.isPreferred, repair.edit.edits.length, repair.diagnostics], ["quickfix", true, 2, [message]]);
    const all = await host.providers.act.provideCodeActions(score, line, { diagnostics: [], only: { value: "source.fixAll" } }, TOKEN);
    assert.deepEqual(all.map((it) => it.kind.value), ["source.fixAll.gregorio-chant"]);
    const [formatted] = await host.providers.format.provideDocumentFormattingEdits(score, { tabSize: 2 }, TOKEN);
    assert.equal(formatted.newText, "name: a;\n%%\n(c4) <i>Ky(f)ri</i>(g)\n");
    const lines = await host.providers.formatLines.provideDocumentRangeFormattingEdits(score, rangeOf(0, 0, 0, 1), {}, TOKEN);
    assert.deepEqual(lines.map((it) => it.newText), ["name: a;\n"]);
    await host.providers.hover.provideHover(score, { line: 2, character: 6 }, CANCELLED);
    assert.equal((await host.providers.hover.provideHover(score, { line: 2, character: 6 }, TOKEN)).contents.value, "`<i>`: italic\n");
    assert.deepEqual([...(await host.providers.colour.provideDocumentSemanticTokens(score, TOKEN)).data].slice(0, 5), [0, 0, 4, 0, 0]);
    await host.type(score, rangeOf(2, 5, 2, 24), "\u{1d11e}<sp>");
    await host.touch(score);
    await awaited(() => codesOf(host.messagesOf(score))?.[0] === "F6");
    const offered = await host.providers.complete.provideCompletionItems(score, { line: 2, character: 11 }, TOKEN);
    assert.deepEqual([offered[0].label, offered[0].insertText], ["ae", "ae</sp>"]);
    assert.deepEqual(await host.providers.format.provideDocumentFormattingEdits(score, {}, TOKEN), []);
    assert.deepEqual(host.told.map((it) => it.split("\n")[0]), ["The score stays as it is: it is not whole"]);
    await host.commands["gregorio-chant.restart"]();
    await awaited(() => codesOf(host.messagesOf(score))?.[0] === "F6");
    await host.close(score);
    await host.extension.deactivate();
    const exits = (said) => said.filter(({ method }) => method === "exit").length;
    await awaited(() => exits(saidIn(`${room}/said`)) === 2);
    const said = saidIn(`${room}/said`);
    const second = said.findIndex(({ method }, i) => method === "initialize" && i > 0);
    for (const run of [said.slice(0, second), said.slice(second)]) assertProtocol(run);
    const methods = new Set(said.map((it) => it.method));
    assert.deepEqual(Object.keys(WANTED).filter((it) => !methods.has(it)), []);
    assert.ok(methods.has("$/cancelRequest"));
    const change = said.find(({ method }) => method === "textDocument/didChange").params;
    assert.deepEqual([change.textDocument.version, change.contentChanges], [2, [{ range: { start: { line: 2, character: 5 }, end: { line: 2, character: 24 } }, text: "\u{1d11e}<sp>" }]]);
  });

  test("the same outline as the server's", async () => {
    const scores = NAMES.map((name) => new Document(scoreOf(name), { path: `/${name}` }));
    const host = await begun(NONE, ...scores);
    for (const [i, it] of symbolsOfServer(scores).entries()) {
      const own = host.providers.outline.provideDocumentSymbols(scores[i]);
      assert.deepEqual(namesOf(own), namesOf(it), NAMES[i]);
      const lines = (symbols) => symbols.map(({ range }) => range.end.line);
      assert.deepEqual(lines(own), lines(it), NAMES[i]);
    }
  });

  test("a server that dies is started again, and not without end", async () => {
    const score = new Document("%%\n(c4) a(f)\n");
    const dying = `${room}/dying.mjs`;
    writeFileSync(dying, `import { spawn } from "node:child_process";
      const server = spawn(process.argv[2], process.argv.slice(3), { stdio: ["pipe", "inherit", "inherit"] });
      const die = () => { server.kill("SIGKILL"); process.exit(7); };
      process.stdin.on("data", (it) => String(it).includes("didOpen") && setTimeout(die, 100)).pipe(server.stdin);`);
    const host = await begun([process.execPath, dying, ...SERVER], score);
    await awaited(() => host.told.length > 0, 120_000);
    assert.match(host.told[0], /ends again and again \(status 7\): scores are checked without it/);
    assert.deepEqual(host.lines.filter((it) => it.endsWith("is running")).length, 4);
    assert.deepEqual(codesOf(host.messagesOf(score)), ["W1"]);
    assert.deepEqual(Object.keys(host.providers).sort(), ["fold", "format", "outline"]);
  });
});

// ---- in browsers

/** What a worker of a page runs: the extension, as the host of extensions of a browser's VS Code does. */
const WORKER = `import { Document, Host, exportsOf } from "/vscode_host.mjs";
const files = async (name) => new Uint8Array(await (await fetch("/extension/" + name)).arrayBuffer());
onmessage = async ({ data }) => {
  const host = new Host(files);
  const score = new Document(data, { scheme: "vscode-vfs" });
  host.vscode.workspace.textDocuments.push(score);
  const { activate, deactivate } = exportsOf(await (await fetch("/extension/dist/browser.js")).text(), host.vscode);
  await activate(host.context);
  const [edit] = await host.providers.format.provideDocumentFormattingEdits(score, {});
  const outline = host.providers.outline.provideDocumentSymbols(score);
  const messages = host.messagesOf(score).map((it) => it.code + " " + it.message);
  await deactivate();
  postMessage({ messages, formatted: edit.newText, outline: outline.map((it) => it.name), providers: Object.keys(host.providers).sort() });
};`;
const TYPES = { js: "text/javascript", mjs: "text/javascript", html: "text/html", wasm: "application/wasm" };

function contentOf(path) {
  if (path === "/") return ["text/html", '<!DOCTYPE html><meta charset="utf-8"><link rel="icon" href="data:,">'];
  if (path === "/worker.mjs") return ["text/javascript", WORKER];
  if (path === "/vscode_host.mjs") return ["text/javascript", readFileSync(new URL("vscode_host.mjs", import.meta.url))];
  const [, name] = /^\/extension\/([a-z./]+)$/.exec(path) ?? [];
  return name && !name.includes("..") ? [TYPES[name.split(".").at(-1)], fileOf(name)] : undefined;
}

/** Has the extension run in a worker over a score, and returns what came of it. */
function inWorker(score) {
  const worker = new Worker("/worker.mjs", { type: "module" });
  return new Promise((resolve, reject) => {
    worker.onmessage = ({ data }) => resolve(data);
    worker.onerror = (it) => reject(it.message);
    worker.postMessage(score);
  });
}

/** Stands in for the panel's VS Code. */
function prepare() {
  globalThis.said = [];
  globalThis.refused = [];
  globalThis.acquireVsCodeApi = () => ({ postMessage: (it) => globalThis.said.push(it) });
  addEventListener("securitypolicyviolation", (it) => globalThis.refused.push(`${it.violatedDirective} ${it.blockedURI}`));
}

for (const kind of BROWSERS) {
  describe(`the extension in ${kind.name}`, { skip: lacks || kind.lacks, timeout: 600_000 }, () => {
    /** Returns what `work` returns of a page of the extension. */
    async function inPage(path, work) {
      const server = await serve(contentOf);
      const browser = await Browser.start(kind, process.cwd());
      try {
        await browser.ask("script.addPreloadScript", { functionDeclaration: String(prepare) });
        await browser.open(`${server.address}${path}`);
        return await work(browser);
      } finally {
        await browser.end();
        server.end();
      }
    }

    test("in a worker, as in a browser's VS Code", async () => {
      const found = await inPage("/", (browser) => browser.run(inWorker, "name:a;\n%%\n(c4) a(f)\nb(g)(::)"));
      assert.deepEqual(found, {
        messages: [],
        formatted: "name: a;\n%%\n(c4)\na(f)\nb(g)(::)\n",
        outline: ["name: a", "1. a b"],
        providers: ["fold", "format", "outline"],
      });
    });

    test("the panel shows a picture, marks a syllable and tells which is chosen", async () => {
      const svg = draw("name: a;\n%%\n(c4) Ky(f)ri(g)", { width: 400 });
      const [marked, told, width, refused] = await inPage("/extension/picture.html", (browser) =>
        browser.run(async (svg) => {
          const here = () => [...document.querySelectorAll(".here")].map((it) => it.dataset.begin);
          postMessage({ svg, words: "", byte: 20 }, "*");
          while (here().length === 0) await new Promise((resolve) => setTimeout(resolve, 10));
          const marked = here();
          document.querySelector(".syllable[data-begin='17'] use, .syllable[data-begin='16'] use").dispatchEvent(new Event("click", { bubbles: true }));
          return [marked, said.filter((it) => "byte" in it), said[0].width > 0, refused.filter((it) => !it.includes("favicon"))];
        }, svg),
      );
      assert.deepEqual([marked, told, width, refused], [["16"], [{ byte: 16 }], true, []]);
    });
  });
}
