// What is said of a message beside its text: a row of the table of helps, of which the Python package has all facts, and JavaScript those that a tree and a text say.

import { FACTS } from "./facts.js";
import { innermostAt } from "./nodes.js";

const HOLE = /\{\{|\}\}|\{(\w+)\}/g;
const CLASSES = { digit: /^\p{Nd}/u, letter: /^\p{L}/u };
const isAny = (wanted, it) => wanted === undefined || wanted.some(it);

const holesOf = (sentence) => [...sentence.matchAll(HOLE)].map(([, name]) => name).filter(Boolean);
const filled = (sentence, values) => sentence.replace(HOLE, (found, name) => (name ? values[name] : found[0]));

/** Returns whether what a row asks for stands at the place of a message. */
function applies(row, { text, at, kind, kindBefore }) {
  return (
    isAny(row.at, (it) => text.startsWith(it, at)) &&
    isAny(row.before, (it) => text.endsWith(it, at)) &&
    isAny(row.node, (it) => it === kind) &&
    isAny(row.after, (it) => it === kindBefore) &&
    (row.is === undefined || CLASSES[row.is].test(text.slice(at)))
  );
}

/** Returns the sentence of a row for this place, if it applies and each of its facts has a value. */
function sentenceOf(row, subject) {
  if (!applies(row, subject)) return undefined;
  const names = [...(row.if ?? []), ...holesOf(row.help)];
  const values = Object.fromEntries(names.map((name) => [name, FACTS[name]?.(subject)]));
  return names.every((name) => values[name]) ? filled(row.help, values) : undefined;
}

/** Returns the help for a message about this place, and whether it is told but once. */
function helpFor({ code }, subject, rows) {
  for (const row of rows) {
    const help = row.codes.includes(code) ? sentenceOf(row, subject) : undefined;
    if (help !== undefined) return { help, isOnce: row.once ?? false };
  }
  return { help: undefined, isOnce: false };
}

/** Returns the helps for messages of a text by the table of helps: `undefined` for one that has none. What is told but once refers to the first message with the same help. */
export function helpsFor(messages, tree, text, places, { helps: rows, again }) {
  const first = new Map();
  return messages.map((message) => {
    const at = places.unitOf(message);
    const [node, before] = [at, at - 1].map((unit) => innermostAt(tree, places.byteAt(Math.max(unit, 0))));
    const { help, isOnce } = helpFor(message, { text, at, places, tree, node, kind: node.kind, kindBefore: before.kind }, rows);
    if (isOnce && first.has(help) && message.kind !== "fatal") return filled(again, { first: first.get(help) });
    if (help && !first.has(help)) first.set(help, `${message.line}:${message.column}`);
    return help;
  });
}
