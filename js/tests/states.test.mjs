// Compares the states of runs with those of tables, and goes on from them; states that were damaged are refused, or read as the tables say.

import assert from "node:assert/strict";
import { test } from "node:test";

import { Run, StateError } from "gregorio-chant";
import { ended, savedRunsOf, statesOf, wantedOf } from "./cases.mjs";

test("the states of runs", () => {
  const runs = savedRunsOf("states");
  assert.ok(runs.length > 100);
  for (const it of runs) {
    const told = { ...it.options, limits: it.limits };
    const run = new Run(told);
    const first = run.feed(it.input.subarray(0, it.cut));
    assert.equal(Buffer.from(run.state).toString("hex"), it.state, it.place);
    const later = Run.restore(Buffer.from(it.state, "hex"), told);
    assert.deepEqual(ended(later, [first], { ...it, input: it.input.subarray(it.cut) }), wantedOf(it), it.place);
  }
});

for (const table of ["bent", "damaged"]) {
  test(`states, ${table}`, () => {
    const states = statesOf(table);
    assert.ok(states.length > 100);
    for (const it of states) {
      const restore = () => Run.restore(it.state, { ...it.options, limits: it.limits });
      if (it.isRefused) assert.throws(restore, StateError, it.place);
      else assert.deepEqual(ended(restore(), [], it), wantedOf(it), it.place);
    }
  });
}
