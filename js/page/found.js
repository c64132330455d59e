// What was found in a score: each message with what it is about, and its help.

import { helpsFor } from "./helps.js";
import { nodesBeginningAt } from "./nodes.js";
import { numberOf } from "./words.js";

// The most messages that are listed, each with its help.
export const MOST = 500;
// Kinds of nodes that say a code.
const CODED = new Set(["header", "headerLeftOut", "leftOut", "unread"]);

/** Returns the node that a message is about: the one that says its code, else one that begins at its place; `undefined` if neither is there. */
function nodeOf(tree, byte, code) {
  const nodes = nodesBeginningAt(tree, byte);
  return nodes.find((it) => CODED.has(it.kind) && it.values[0] === code) ?? nodes[0];
}

/** Returns the range of the character at this unit, or of the last one if the text ends there. */
function characterAt(text, unit) {
  const begin = Math.max(Math.min(unit, text.length - 1), 0);
  return { begin, end: Math.min(begin + String.fromCodePoint(text.codePointAt(begin) ?? 0).length, text.length) };
}

/** Returns the messages of an answer, each with its range in the text, and its help if it has one: by this table, unless the answer has helps. */
export function findingsOf({ messages, tree }, text, places, table) {
  // A server that has tried rules tells their messages, and all helps.
  const helps = messages.some((it) => "help" in it) ? messages.map((it) => it.help) : helpsFor(messages.slice(0, MOST), tree, text, places, table);
  return messages.map((message, i) => {
    const unit = places.unitOf(message);
    const node = nodeOf(tree, places.byteAt(unit), numberOf(message.code));
    const range = node ? { begin: unit, end: places.unitAt(node.end) } : characterAt(text, unit);
    return { ...message, ...range, help: helps[i] };
  });
}
