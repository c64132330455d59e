// Has scores compiled, judged and drawn by the server of `gregorio-chant page`.

import { bytesOfScore } from "../src/bytes.js";
import { Tree } from "../src/tree.js";

// How long nothing has to be typed before a score is sent, in milliseconds.
const PAUSE = 120;
const TAB = crypto.randomUUID();

/** Returns what the server answers to bytes. Throws an `Error` with a sentence if it does not. */
export async function fromServer(path, body, signal) {
  let answer;
  try {
    answer = await fetch(path, { method: "POST", body, headers: { "Content-Type": "application/octet-stream", Tab: TAB }, signal });
  } catch {
    throw new Error("The server has ended: start gregorio-chant page again.");
  }
  if (!answer.ok) throw new Error(await answer.text());
  return answer.json();
}

/** Returns an answer of the server with the tree of the score. */
function withTree({ records, ...answer }, bytes) {
  return { ...answer, tree: new Tree(bytes, Uint8Array.from(atob(records), (it) => it.charCodeAt(0))) };
}

export class ServerReader {
  onAnswer;
  #asking = new AbortController();
  #timer;
  #isBusy = false;
  #widthOf;

  /** `widthOf` returns how wide a picture may be, in pixels. */
  constructor(widthOf) {
    this.#widthOf = widthOf;
  }

  get isBusy() {
    return this.#isBusy;
  }

  /** Has a score compiled, a text or bytes. What was asked before is given up. */
  read(score) {
    this.giveUp();
    this.#isBusy = true;
    this.#timer = setTimeout(() => this.#ask(bytesOfScore(score)), PAUSE);
  }

  giveUp() {
    clearTimeout(this.#timer);
    this.#asking.abort();
    this.#isBusy = false;
  }

  async #ask(bytes) {
    const { signal } = (this.#asking = new AbortController());
    const answer = await fromServer(`/score?width=${this.#widthOf()}`, bytes, signal)
      .then((it) => withTree(it, bytes))
      .catch((error) => ({ failure: error.message }));
    if (signal.aborted) return;
    this.#isBusy = false;
    this.onAnswer(answer);
  }
}
