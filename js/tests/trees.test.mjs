// Looks at the trees of all cases of the tables: their form, and what was left out. Compares those of a table with what the library for C answers.

import assert from "node:assert/strict";
import { readFileSync, readdirSync } from "node:fs";
import { test } from "node:test";

import { tree } from "gregorio-chant";
import { DATA, numbersOf, runsOf } from "./cases.mjs";

const TABLES = ["rows", "canonical", "canonical_w12", "nabc_lines", "dump2"];

/** Looks at the nodes in `node`, and returns how many of the bytes of all of them are own ones. */
function ownBytes(node) {
  let at = node.begin;
  let own = 0;
  for (const child of node.children()) {
    assert.ok(at <= child.begin && child.begin <= child.end && child.end <= node.end);
    own += child.begin - at + ownBytes(child);
    at = child.end;
  }
  return own + node.end - at;
}

const ofKind = (made, kind) => [...made].filter((it) => it.kind === kind);

function looksAt(score, place) {
  const made = tree(score);
  assert.equal(ownBytes(made.root), score.length, place);
  assert.deepEqual([made.root.kind, made.root.inner], ["file", made.length - 1], place);
  assert.ok(
    [...made].every((it) => it.kind),
    place,
  );
}

/** Returns the tree of a run of a table as `numbersOf` says it. */
async function namedTree({ tree: numbers }) {
  const { KINDS } = await import(new URL("../node_modules/gregorio-chant/src/kinds.js", import.meta.url));
  const nodes = numbers.split(",").map((it) => it.split(" "));
  return nodes.map(([begin, end, inner, kind, ...values]) => [begin, end, inner, KINDS[kind], ...values].join(" ")).join("\n");
}

test("the trees of the library for C", { skip: !process.env.GREGORIO_TABLE && "there is no table of it" }, async () => {
  const runs = runsOf(process.env.GREGORIO_TABLE).filter((it) => it.tree);
  assert.ok(runs.length > 1000);
  for (const it of runs) assert.equal(numbersOf(tree(it.input)), await namedTree(it), it.place);
});

for (const table of TABLES) {
  test(`trees of ${table}`, () => {
    for (const { input, place } of runsOf(table)) looksAt(input, place);
  });
}

test("trees of the example scores", () => {
  const names = readdirSync(DATA).filter((name) => name.endsWith(".gabc"));
  for (const name of names) looksAt(readFileSync(`${DATA}/${name}`), name);
});

test("what is left out is a node", () => {
  const made = tree("name: a;\n%%\n(c4) Ky(h5g)é(h) % end");
  assert.deepEqual(
    ofKind(made, "note").map((it) => it.text),
    ["h", "g", "h"],
  );
  const [leftOut] = ofKind(made, "leftOut");
  assert.deepEqual([leftOut.text, leftOut.values[0], leftOut.begin], ["5", 101, 21]);
  assert.deepEqual(
    ofKind(made, "comment").map((it) => it.text),
    ["% end"],
  );
});

test("a score is copied, and a node that is not there is undefined", () => {
  const score = new TextEncoder().encode("%%\n(f)");
  const made = tree(score);
  score.fill(0);
  assert.equal(made.root.text, "%%\n(f)");
  assert.deepEqual([made.node(made.length), made.node(-1), made.node(0.5)], [undefined, undefined, undefined]);
  assert.throws(() => tree(7), TypeError);
});

test("want of memory is a RangeError, and a later call succeeds", () => {
  assert.throws(() => tree(new Uint8Array(2 ** 32 - 1)), RangeError);
  assert.equal(ofKind(tree("%%\n(f)"), "note").length, 1);
});

test("a score of many nodes has them all", () => {
  const made = tree("%%\n" + "(f)".repeat(200_000));
  assert.equal(ofKind(made, "note").length, 200_000);
});
