// A language server as a process: requests are promises, and what it tells or asks goes to its client.

import { spawn } from "node:child_process";

// Answers that say no more than that a request was given up.
const GIVEN_UP = new Set([-32800, -32801]);
const HEAD_END = "\r\n\r\n";

export class Connection {
  #process;
  #client;
  #waiting = new Map();
  #number = 0;
  #pieces = [];
  #wanted = 0;
  #isOver = false;

  /** Starts `command`. `client` has `told` for what the server tells or asks, `ended` for why it ended, and `log` for lines. */
  constructor(command, client) {
    this.#client = client;
    this.#process = spawn(command[0], command.slice(1), { stdio: "pipe", windowsHide: true });
    this.#process.stdout.on("data", (piece) => this.#read(piece));
    this.#process.stderr.on("data", (piece) => client.log(piece.toString().trimEnd()));
    this.#process.stdin.on("error", () => {});
    this.#process.on("error", (error) => this.#end(error.message));
    this.#process.on("exit", (status, signal) => this.#end(signal ?? `status ${status}`));
  }

  notify(method, params) {
    this.#send({ method, params });
  }

  /** Returns the result; nothing if the server refuses or has ended, which is logged. */
  async request(method, params, token) {
    if (this.#isOver) return undefined;
    const id = ++this.#number;
    const answer = new Promise((resolve, reject) => this.#waiting.set(id, { resolve, reject }));
    this.#send({ id, method, params });
    const cancelling = token?.onCancellationRequested(() => this.notify("$/cancelRequest", { id }));
    try {
      return (await answer) ?? undefined;
    } catch (error) {
      if (!GIVEN_UP.has(error.code)) this.#client.log(`${method}: ${error.message}`);
      return undefined;
    } finally {
      cancelling?.dispose();
    }
  }

  /** Ends the server as the protocol wants it: it is asked to shut down, and then to go. */
  async close() {
    await this.request("shutdown");
    this.notify("exit");
    this.#isOver = true;
    this.#process.stdin.end();
  }

  #end(why) {
    if (this.#isOver) return;
    this.#isOver = true;
    for (const { reject } of this.#waiting.values()) reject(new Error(why));
    this.#waiting.clear();
    this.#client.ended(why);
  }

  #send(message) {
    if (this.#isOver) return;
    const body = Buffer.from(JSON.stringify({ jsonrpc: "2.0", ...message }), "utf8");
    this.#process.stdin.write(`Content-Length: ${body.length}${HEAD_END}`);
    this.#process.stdin.write(body);
  }

  /** Gathers pieces until a message may be whole: a long one comes in many. */
  #read(piece) {
    this.#pieces.push(piece);
    this.#wanted -= piece.length;
    if (this.#wanted > 0) return;
    let received = Buffer.concat(this.#pieces);
    for (let next; (next = endOfFirst(received)) <= received.length; received = received.subarray(next)) {
      this.#take(received.toString("utf8", received.indexOf(HEAD_END) + HEAD_END.length, next));
    }
    this.#pieces = [received];
    const end = endOfFirst(received);
    this.#wanted = Number.isFinite(end) ? end - received.length : 0;
  }

  #take(body) {
    let message;
    try {
      message = JSON.parse(body);
    } catch {
      this.#client.log(`the server sent no JSON: ${body.slice(0, 80)}`);
      return;
    }
    if (message.method === undefined) this.#answered(message);
    else this.#answer(message);
  }

  #answered({ id, error, result }) {
    const waiting = this.#waiting.get(id);
    this.#waiting.delete(id);
    if (error) waiting?.reject(Object.assign(new Error(error.message), { code: error.code }));
    else waiting?.resolve(result);
  }

  async #answer({ id, method, params }) {
    const result = await this.#client.told(method, params);
    if (id !== undefined) this.#send({ id, result: result ?? null });
  }
}

/** Returns where the first message ends in these bytes, also if they lack its end; without the end of its head, nowhere. */
function endOfFirst(bytes) {
  const end = bytes.indexOf(HEAD_END);
  if (end < 0) return Infinity;
  const length = /content-length: *(\d+)/i.exec(bytes.toString("latin1", 0, end))?.[1] ?? 0;
  return end + HEAD_END.length + Number(length);
}
