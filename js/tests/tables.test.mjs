// Compiles each case of the tables whole and in pieces, and compares what came of it, byte for byte.

import assert from "node:assert/strict";
import { readFileSync, readdirSync } from "node:fs";
import { test } from "node:test";

import { Run, check, compile } from "gregorio-chant";
import { DATA, inPieces, runsOf, wantedOf } from "./cases.mjs";

const TABLES = ["rows", "canonical", "canonical_w12", "nabc_lines", "dump", "dump2", "sources", "sinks"];

// A table that the library for C wrote.
if (process.env.GREGORIO_TABLE) TABLES.push(process.env.GREGORIO_TABLE);

for (const table of TABLES) {
  const runs = runsOf(table);

  test(`${table} has runs`, () => assert.ok(runs.length > 0));

  test(`${table}, whole`, () => {
    for (const it of runs.filter((run) => run.hasUsualLimits && !run.isBroken)) {
      const { output, messagesText, status } = compile(it.input, it.options);
      assert.deepEqual({ output, messages: messagesText, status }, wantedOf(it), it.place);
      const report = check(it.input, { allWarnings: it.options.allWarnings });
      assert.deepEqual([report.messagesText, report.status], [it.messages, it.status], it.place);
      assert.equal(report.messages.length, it.messages.split("\n").length - 1, it.place);
    }
  });

  test(`${table}, in pieces`, () => {
    for (const [i, it] of runs.entries()) {
      assert.deepEqual(inPieces(Run, it, i % 10 ? 7 : 1, false), wantedOf(it), it.place);
      assert.deepEqual(inPieces(Run, it, 61, true), wantedOf(it), it.place);
      assert.deepEqual(inPieces(Run, it, 65536, false), wantedOf(it), it.place);
    }
  });
}

test("the example scores, in both formats", () => {
  const names = readdirSync(DATA).filter((name) => name.endsWith(".gabc"));
  assert.ok(names.length > 5);
  for (const name of names) {
    const [score, canonical, dump] = ["gabc", "canonical", "dump"].map((end) => readFileSync(`${DATA}/${name.replace(/gabc$/, end)}`));
    assert.equal(compile(score).canonical, canonical.toString(), name);
    assert.equal(compile(score.toString(), { format: "dump" }).dump, dump.toString(), name);
  }
});
