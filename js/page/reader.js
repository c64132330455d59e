// Has scores compiled by a worker and drawn by another one, so that typing never waits for them, and no message for a picture.

import { Tree } from "../src/tree.js";
import code from "worker-code";

/** Makes a worker. Its code lies in the page, so nothing is asked for. */
function newWorker() {
  const address = URL.createObjectURL(new Blob([code], { type: "text/javascript" }));
  const worker = new Worker(address);
  URL.revokeObjectURL(address);
  return worker;
}

/** A worker that is sent one thing at a time. Of what comes meanwhile only the last is sent, and what came of the others is told to nobody. */
class Line {
  #onDone;
  #worker;
  #isBusy = false;
  #isGivenUp = false;
  #next;

  /** `onDone` gets what the worker sends back: at least its `failure`, a sentence, if it did not do what it was sent. */
  constructor(onDone) {
    this.#onDone = onDone;
  }

  /** Has something done. The first time this starts the worker. */
  send(it) {
    this.#next = it;
    this.#begin();
  }

  /** Has nothing told any more of what was sent. */
  giveUp() {
    this.#next = undefined;
    this.#isGivenUp = this.#isBusy;
  }

  /** Whether something is still to come. */
  get isBusy() {
    return this.#isBusy && !(this.#isGivenUp && this.#next === undefined);
  }

  #start() {
    const worker = newWorker();
    worker.onmessage = ({ data }) => this.#take(data);
    worker.onerror = (event) => {
      event.preventDefault();
      this.#take({ failure: `The compiler did not start: ${event.message}` });
    };
    return worker;
  }

  #begin() {
    if (this.#isBusy || this.#next === undefined) return;
    this.#isBusy = true;
    this.#worker ??= this.#start();
    this.#worker.postMessage(this.#next);
    this.#next = undefined;
  }

  #take(data) {
    const isWanted = this.#next === undefined && !this.#isGivenUp;
    this.#isBusy = this.#isGivenUp = false;
    this.#begin();
    if (isWanted) this.#onDone(data);
  }
}

export class Reader {
  #answers = new Line((it) => this.#answer(it));
  #pictures = new Line((it) => (it.failure ? this.onAnswer(it) : this.onPicture(it)));
  #widthOf;
  #isDrawn;
  /** Gets each answer: what the worker sends, with its `tree`, and whether the score `isDrawn` too; or only its `failure`, a sentence. */
  onAnswer;
  /** Gets each picture: its text, or that the score `isTooLong` for one. */
  onPicture;

  /** `widthOf` returns how wide a picture may be, in pixels. */
  constructor(widthOf) {
    this.#widthOf = widthOf;
  }

  /** Has a score compiled, a text or bytes, for the part of the page that is seen, and drawn if that is its picture. */
  read(score, seen) {
    this.#isDrawn = seen === "picture";
    this.#answers.send({ score, seen });
    if (this.#isDrawn) this.#pictures.send({ score, width: this.#widthOf() });
    else this.#pictures.giveUp();
  }

  /** Has nothing shown any more of what was sent. */
  giveUp() {
    this.#answers.giveUp();
    this.#pictures.giveUp();
  }

  /** Whether an answer or a picture is still to come. */
  get isBusy() {
    return this.#answers.isBusy || this.#pictures.isBusy;
  }

  #answer(data) {
    this.onAnswer(data.failure ? data : { ...data, isDrawn: this.#isDrawn, tree: new Tree(data.bytes, data.records) });
  }
}
