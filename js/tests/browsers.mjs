// Drives Chromium and Firefox without a window, by WebDriver BiDi, the protocol that both have.

import { spawn, spawnSync } from "node:child_process";
import { mkdirSync, mkdtempSync, writeFileSync } from "node:fs";
import { createServer } from "node:net";
import { join } from "node:path";

// How long an answer may take, and a browser until it can be asked, in milliseconds: long enough for a machine that others load.
const MOST_TIME = 240_000;
const isThere = (command) => spawnSync(command, ["--version"]).status === 0;
const PREFERENCES = { "browser.download.folderList": 2, "browser.download.useDownloadDir": true, "datareporting.policy.dataSubmissionEnabled": false };

/** Returns a port that is free. It is none of those that the system gives to whoever asks for any: another browser could take one of these before it is used. */
function freePort() {
  return new Promise((resolve) => {
    const port = 20_000 + Math.floor(Math.random() * 10_000);
    const server = createServer().listen(port, "127.0.0.1", () => server.close(() => resolve(port)));
    server.on("error", () => resolve(freePort()));
  });
}

/** Returns what `ask` returns, once it does not throw. */
async function awaited(ask) {
  const end = Date.now() + MOST_TIME;
  for (;;) {
    try {
      return await ask();
    } catch (error) {
      if (Date.now() > end) throw error;
      await new Promise((resolve) => setTimeout(resolve, 100));
    }
  }
}

/** Starts Chromium by its driver, and returns the process with the address of a session. */
async function startChromium(folder) {
  const port = await freePort();
  const process = spawn("chromedriver", [`--port=${port}`], { stdio: "ignore", detached: true, env: { ...globalThis.process.env, TMPDIR: folder } });
  const args = ["--headless=new", "--no-sandbox", "--disable-gpu", "--disable-dev-shm-usage", "--no-first-run", `--user-data-dir=${join(folder, "profile")}`];
  const options = { binary: spawnSync("which", ["chromium"]).stdout.toString().trim(), args, prefs: { "download.default_directory": folder } };
  const capabilities = { alwaysMatch: { webSocketUrl: true, "goog:chromeOptions": options } };
  const answer = await awaited(() => fetch(`http://127.0.0.1:${port}/session`, { method: "POST", body: JSON.stringify({ capabilities }) }));
  const { value } = await answer.json();
  if (!value.capabilities) throw new Error(value.message);
  return { process, address: value.capabilities.webSocketUrl, hasSession: true };
}

/** Starts Firefox, and returns the process with the address at which a session begins. */
async function startFirefox(folder) {
  const port = await freePort();
  const profile = join(folder, "profile");
  mkdirSync(profile);
  const lines = Object.entries({ ...PREFERENCES, "browser.download.dir": folder }).map(([name, value]) => `user_pref("${name}", ${JSON.stringify(value)});\n`);
  writeFileSync(join(profile, "user.js"), lines.join(""));
  const words = ["--headless", "--no-remote", "--profile", profile, "--remote-debugging-port", String(port), "about:blank"];
  const process = spawn("firefox-esr", words, { stdio: "ignore", detached: true, env: { ...globalThis.process.env, HOME: folder, TMPDIR: folder } });
  return { process, address: `ws://127.0.0.1:${port}/session`, hasSession: false };
}

/** The browsers, each with what starts it, and why it cannot be tried, if it cannot. */
export const BROWSERS = [
  { name: "Chromium", start: startChromium, lacks: !(isThere("chromium") && isThere("chromedriver")) && "there is no Chromium, or no driver of it" },
  { name: "Firefox", start: startFirefox, lacks: !isThere("firefox-esr") && "there is no firefox-esr" },
].map((it) => (globalThis.WebSocket ? it : { ...it, lacks: "this node has no WebSocket" }));

function connected(address) {
  return new Promise((resolve, reject) => {
    const socket = new WebSocket(address);
    socket.onopen = () => resolve(socket);
    socket.onerror = () => reject(new Error(`no connection to ${address}`));
  });
}

/** A browser with one page. */
export class Browser {
  #process;
  #socket;
  #asked = new Map();
  #context;
  /** What its console said, and the addresses that it asked for. */
  console = [];
  addresses = [];

  /** Starts a browser, which saves files into a folder below `room`. */
  static async start({ start }, room) {
    const it = new Browser();
    it.folder = mkdtempSync(join(room, "browser-"));
    const { process, address, hasSession } = await start(it.folder);
    it.#process = process;
    it.#socket = await awaited(() => connected(address));
    it.#socket.onmessage = ({ data }) => it.#take(JSON.parse(data));
    if (!hasSession) await it.ask("session.new", { capabilities: {} });
    await it.ask("session.subscribe", { events: ["log.entryAdded", "network.beforeRequestSent"] });
    it.#context = (await it.ask("browsingContext.getTree", {})).contexts[0].context;
    return it;
  }

  /** Asks the browser for something, and returns its answer. */
  async ask(method, params) {
    const id = this.#asked.size + 1;
    const answer = new Promise((resolve, reject) => this.#asked.set(id, { resolve, reject }));
    this.#socket.send(JSON.stringify({ id, method, params }));
    const timer = setTimeout(() => this.#asked.get(id).reject(new Error(`no answer to ${method}`)), MOST_TIME);
    try {
      return await answer;
    } finally {
      clearTimeout(timer);
    }
  }

  /** The same, of its page. */
  askPage(method, params) {
    return this.ask(method, { context: this.#context, ...params });
  }

  open(address) {
    return this.askPage("browsingContext.navigate", { url: address, wait: "complete" });
  }

  /** Has a function run in the page, with arguments that JSON can say, and returns what it returns. */
  async run(work, ...given) {
    const functionDeclaration = `async () => JSON.stringify(await (${work})(...${JSON.stringify(given)}))`;
    const { result, exceptionDetails } = await this.ask("script.callFunction", { functionDeclaration, awaitPromise: true, target: { context: this.#context } });
    if (exceptionDetails) throw new Error(exceptionDetails.text);
    return result.value === undefined ? undefined : JSON.parse(result.value);
  }

  /** Presses keys in the page, one after another. `held` is held meanwhile. */
  press(keys, held) {
    const pressed = [...keys].flatMap((value) => ["keyDown", "keyUp"].map((type) => ({ type, value })));
    const actions = held ? [{ type: "keyDown", value: held }, ...pressed, { type: "keyUp", value: held }] : pressed;
    return this.askPage("input.performActions", { actions: [{ type: "key", id: "keys", actions }] });
  }

  /** Chooses files in the field for files that `selector` finds. */
  async choose(selector, ...files) {
    const { nodes } = await this.askPage("browsingContext.locateNodes", { locator: { type: "css", value: selector } });
    await this.askPage("input.setFiles", { element: { sharedId: nodes[0].sharedId }, files });
  }

  /** Returns a picture of the page, as PNG. */
  async picture() {
    return Buffer.from((await this.askPage("browsingContext.captureScreenshot", {})).data, "base64");
  }

  /** Ends the browser with all of its processes. */
  async end() {
    const ended = new Promise((resolve) => this.#process.once("exit", resolve));
    await this.ask("browser.close", {}).catch(() => {});
    this.#socket.close();
    process.kill(-this.#process.pid, "SIGKILL");
    await ended;
  }

  #take({ id, method, params, result, error, message }) {
    if (method === "log.entryAdded") this.console.push(params.text);
    if (method === "network.beforeRequestSent") this.addresses.push(params.request.url);
    const asked = this.#asked.get(id);
    if (error) asked?.reject(new Error(`${error}: ${message}`));
    else asked?.resolve(result);
  }
}
