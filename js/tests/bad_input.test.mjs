// Scores and options of other kinds, scores that are long, and calls in a row: what is refused says so, and memory is given back.

import assert from "node:assert/strict";
import { test } from "node:test";
import { setTimeout } from "node:timers/promises";
import { Worker } from "node:worker_threads";

import { Run, RunOverError, StateError, check, compile, version } from "gregorio-chant";

const encoder = new TextEncoder();
const bytes = (text) => encoder.encode(text);

test("a score of no bytes", () => {
  for (const none of ["", new Uint8Array(0), new ArrayBuffer(0)]) {
    assert.equal(compile(none).status, "fatal");
    assert.deepEqual(check(none).messages.map((it) => it.code), ["F2"]);
  }
});

test("a score that is not UTF-8", () => {
  const { status, messages } = check(Uint8Array.of(0x25, 0x25, 0x0a, 0xff));
  assert.deepEqual([status, messages.at(-1)], ["fatal", { line: 2, column: 1, kind: "fatal", code: "F1", text: "not UTF-8" }]);
});

test("a text with half of a surrogate pair", () => {
  for (const half of ["\ud834", "\udd1e", "\ud834\ud834"]) {
    const { code, line, column } = check(`%%\nA𝄞${half}(f)`).messages.at(-1);
    assert.deepEqual([code, line, column], ["F1", 2, 3]);
  }
  assert.equal(compile("%%\n\ud834\udd1e(f)").canonical, "%%\n𝄞(f)\n");
});

test("bytes of every kind", () => {
  const of = bytes("%%\nA(f)");
  const shared = new Uint8Array(new SharedArrayBuffer(of.length));
  shared.set(of);
  const wide = new Uint8Array(of.length + 9);
  wide.set(of, 5);
  const kinds = [of, of.buffer, Buffer.from(of), new DataView(of.buffer), shared, shared.buffer, wide.subarray(5, 5 + of.length), new Uint8ClampedArray(of)];
  for (const it of kinds) assert.equal(compile(it).canonical, "%%\nA(f)\n");
});

test("scores of another kind", () => {
  for (const it of [undefined, null, 7, 7n, true, [37, 37], {}, () => "", Symbol("score"), new String("%%")]) {
    assert.throws(() => compile(it), TypeError);
    assert.throws(() => check(it), TypeError);
    assert.throws(() => new Run().feed(it), TypeError);
    assert.throws(() => Run.restore(it), TypeError);
  }
  assert.throws(() => new Run().feed("%%"), TypeError);
});

test("bytes that were moved elsewhere", () => {
  const moved = bytes("%%\nA(f)");
  structuredClone(moved.buffer, { transfer: [moved.buffer] });
  assert.throws(() => compile(moved), TypeError);
  assert.throws(() => compile(moved.buffer), TypeError);
  assert.throws(() => new Run().feed(moved), TypeError);
});

test("options of another kind", () => {
  for (const it of [{ format: "pdf" }, { format: undefined, allwarnings: true }, { allWarnings: 1 }, { format: "toString" }, { format: ["gabc"] }, null, "gabc"]) {
    assert.throws(() => compile("%%", it), TypeError);
  }
  assert.throws(() => check("%%", { format: "dump" }), TypeError);
  assert.throws(() => compile("%%", { limits: {} }), TypeError);
  assert.throws(() => new Run({ limits: { headers: 64 } }), TypeError);
  assert.throws(() => new Run({ limits: { header: "64" } }), TypeError);
  for (const limits of [{ header: 63 }, { syllable: 2 ** 24 + 1 }, { input: 2 ** 32 }, { input: -1 }, { header: 64.5 }, { header: NaN }]) {
    assert.throws(() => new Run({ limits }), RangeError);
  }
});

test("states", () => {
  const run = new Run();
  run.feed(bytes("%%\nA(f)B(g"));
  const { state } = run;
  assert.throws(() => Run.restore(new Uint8Array(9)), StateError);
  assert.throws(() => Run.restore(state.subarray(1)), StateError);
  assert.throws(() => Run.restore(state, { format: "dump" }), StateError);
  assert.throws(() => Run.restore(state, { limits: { header: 64 } }), StateError);
  state.fill(0);
  const outputs = [Run.restore(run.state), Run.restore(run.state.buffer)].map((it) => it.feed(bytes(")")).output + it.end().output);
  assert.deepEqual(outputs, ["\nA(f)B(g)\n", "\nA(f)B(g)\n"]);
  assert.equal(run.broken().status, "broken");
  assert.equal(run.status, "broken");
  for (const call of [() => run.state, () => run.feed(bytes("")), () => run.end(), () => run.broken()]) assert.throws(call, RunOverError);
});

test("a run of a stream", async () => {
  const stream = new Blob(["%%\nKy(f)", "ri(g)"]).stream();
  const steps = [];
  for await (const step of new Run().steps(stream)) steps.push(step);
  assert.equal(steps.map((it) => it.output).join(""), "%%\nKy(f)ri(g)\n");
  assert.equal(steps.at(-1).status, "whole");
});

test("a run of a stream that fails", async () => {
  const run = new Run();
  async function* failing() {
    yield bytes("%%\nA(f)");
    throw new Error("the source");
  }
  await assert.rejects(async () => {
    for await (const _ of run.steps(failing()));
  }, /the source/);
  assert.equal(run.broken().status, "broken");
});

test("10,000 calls in a row take no more memory", () => {
  const score = `name: x;\n%%\n${"Ky(fgh)ri(g/h~) ".repeat(20)}`;
  const call = () => compile(score, { format: "dump" });
  for (let i = 0; i < 1000; i++) call();
  const before = process.memoryUsage().rss;
  for (let i = 0; i < 9000; i++) call();
  assert.ok(process.memoryUsage().rss - before < 50e6);
});

test("64 MB are read, and their memory is let go", async () => {
  const score = new Uint8Array(64e6).fill(10);
  score.set(bytes("%%\n"));
  const copies = bytes("Ky(fgh)ri(g/h~) ".repeat(4000));
  for (let at = 3; at + copies.length <= score.length; at += copies.length) score.set(copies, at);
  const before = process.memoryUsage().external;
  const result = compile(score, { allWarnings: false });
  assert.equal(result.status, "whole");
  assert.ok(result.output.length > 60e6);
  const isLetGo = () => process.memoryUsage().external - before < 20e6;
  // What is let go is freed some turns later.
  for (let i = 0; i < 400 && !isLetGo(); i++) {
    globalThis.gc();
    await setTimeout(50);
  }
  assert.ok(isLetGo());
  assert.equal(compile("%%\nA(f)").canonical, "%%\nA(f)\n");
});

test("want of memory is a RangeError, and a later call succeeds", () => {
  assert.throws(() => compile(new Uint8Array(2 ** 32 - 1)), RangeError);
  assert.equal(compile("%%\nA(f)").canonical, "%%\nA(f)\n");
});

test("an output that is longer than a text can be is a RangeError, and a later call succeeds", () => {
  const long = bytes(`%%\n${"(f)".repeat(7.6e6)}`);
  assert.throws(() => compile(long, { format: "dump" }), /RangeError: an output of \d+ bytes/);
  assert.equal(compile("%%\nA(f)").canonical, "%%\nA(f)\n");
});

test("the end of the stack, and a later call succeeds", () => {
  const deeper = () => {
    compile("%%\nA(f)");
    deeper();
  };
  assert.throws(deeper, RangeError);
  assert.equal(compile("%%\nA(f)").canonical, "%%\nA(f)\n");
});

test("a worker that is ended in the middle", async () => {
  const code = `const { parentPort } = require("node:worker_threads");
    import("gregorio-chant").then(({ compile }) => { parentPort.postMessage("ready"); for (;;) compile("%%\\n" + "Ky(fgh)ri(g/h~) ".repeat(20000)); });`;
  const worker = new Worker(code, { eval: true });
  await new Promise((resolve, reject) => worker.once("message", resolve).once("error", reject));
  await worker.terminate();
  assert.equal(compile("%%\nA(f)").canonical, "%%\nA(f)\n");
});

test("the version", () => assert.match(version, /^\d+\.\d+\.\d+$/));
