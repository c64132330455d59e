// Cases of a table: a line each, its columns parted by tabs: words, limits, how the source ended, input, output, messages, status.

import { readFileSync } from "node:fs";

/** The folder of the tables and of the example scores. */
export const DATA = process.env.GREGORIO_DATA ?? new URL("../../crates/vectors/data", import.meta.url).pathname;

const STATUSES = ["whole", "errors", "fatal", undefined, "broken"];
const ESCAPES = { n: "\n", t: "\t", r: "\r" };

/** Returns the bytes of a column. */
function bytesOf(column) {
  const parts = column.split(/(\\x[0-9A-Fa-f]{2}|\\.)/s).map((part) => {
    if (part.startsWith("\\x")) return Buffer.from(part.slice(2), "hex");
    return Buffer.from(part.startsWith("\\") ? (ESCAPES[part[1]] ?? part[1]) : part);
  });
  return Buffer.concat(parts);
}

/** Returns the columns of each line of a table, which may be one of `DATA` or a path, and where it stands. */
function linesOf(table) {
  const path = table.includes("/") ? table : `${DATA}/${table}.tsv`;
  return readFileSync(path, "utf8")
    .split("\n")
    .map((line, i) => ({ columns: line.split("\t"), place: `${path}:${i + 1}` }))
    .filter(({ columns }) => columns.length >= 7 && !columns[0].startsWith("#"));
}

/** Returns what the first two columns say. */
function optionsOf(words, numbers) {
  const [header, syllable, input] = numbers.split(",").map(Number);
  return {
    options: { format: words.includes("dump") ? "dump" : "gabc", allWarnings: words.includes("-W") },
    limits: { header, syllable, input },
    hasUsualLimits: numbers === "65536,16384,4294967295",
  };
}

const answerOf = (output, messages, status) => ({
  output: bytesOf(output).toString(),
  messages: bytesOf(messages).toString(),
  status: STATUSES[status],
});

/** Returns the runs of a table. `tree` and `picture` are there if the table has the records of the score's tree, and the length and the sum of its picture. */
export function runsOf(table) {
  return linesOf(table).map(({ columns: [words, numbers, ending, input, output, messages, status, tree, picture], place }) => ({
    place,
    ...optionsOf(words, numbers),
    isBroken: ending === "broken",
    input: bytesOf(input),
    ...answerOf(output, messages, status),
    tree,
    picture,
  }));
}

/** Returns all that a tree says, as a text: a line for each node. */
export const numbersOf = (tree) => [...tree].map(({ begin, end, inner, kind, values }) => [begin, end, inner, kind, ...values].join(" ")).join("\n");

/** Returns the runs of a table that were saved once, with the state that they had then. */
export function savedRunsOf(table) {
  return linesOf(table).map(({ columns: [words, numbers, ending, input, , cut, state, , , ...answer], place }) => ({
    place,
    ...optionsOf(words, numbers),
    isBroken: ending === "broken",
    input: bytesOf(input),
    cut: Number(cut),
    state,
    ...answerOf(...answer),
  }));
}

/** Returns the states of a table, with whether each is refused, and what comes of it. */
export function statesOf(table) {
  return linesOf(table).map(({ columns: [words, numbers, state, answer, ending, rest, ...answers], place }) => ({
    place,
    ...optionsOf(words, numbers),
    state: Buffer.from(state, "hex"),
    isRefused: answer !== "accepted",
    isBroken: ending === "broken",
    input: bytesOf(rest),
    ...answerOf(...answers),
  }));
}

/** Returns what the steps of a run wrote, and how it ended. */
function joined(steps, run) {
  return { output: steps.map((it) => it.output).join(""), messages: steps.map((it) => it.messagesText).join(""), status: run.status };
}

/** Feeds all of `input` to a run, ends it as its source did, and returns what came of it, after the steps `before`. */
export function ended(run, before, { input, isBroken }) {
  const steps = [...before, run.feed(input)];
  if (run.status === undefined) steps.push(isBroken ? run.broken() : run.end());
  return joined(steps, run);
}

/** Returns what comes of a run that is fed in pieces of `size` bytes, and saved and restored after each if `isRestored`. */
export function inPieces(Run, { options, limits, isBroken, input }, size, isRestored) {
  const told = { ...options, limits };
  let run = new Run(told);
  const steps = [];
  for (let at = 0; at < input.length && run.status === undefined; at += size) {
    steps.push(run.feed(input.subarray(at, at + size)));
    if (isRestored && run.status === undefined) run = Run.restore(run.state, told);
  }
  if (run.status === undefined) steps.push(isBroken ? run.broken() : run.end());
  return joined(steps, run);
}

/** Returns what has to come of a run. */
export const wantedOf = ({ output, messages, status }) => ({ output, messages, status });
