// Facts of the place of a message, for the sentences of helps: those that a text and its tree say. A fact that has no value is `undefined` or empty.

import { nodesAround } from "./nodes.js";

const LONGEST = 40;
// So much of the text before a place is looked at.
const BEFORE = 200;
const UNSEEN = /^[\p{C}\p{Z}\p{M}]$/u;
const PART = /^<(v|sp|alt)>|^[^]/;
const CLOSERS = { "(": ")", "[": "]", "<": ">" };
const encoder = new TextEncoder();

/** Returns a part of a score as a help names it: between quotes, or by its number if it is a character that cannot be seen. */
function named(text) {
  if (UNSEEN.test(text)) return `the character U+${text.codePointAt(0).toString(16).toUpperCase().padStart(4, "0")}`;
  const characters = [...text.replace(/[\p{C}\p{Z}]/gu, " ")];
  return `'${characters.slice(0, LONGEST).join("")}${characters.length > LONGEST ? "'.." : "'"}`;
}

// ---- what stands there

const restOf = ({ text, at }) => text.slice(at, at + BEFORE);
const characterAt = (subject) => [...restOf(subject)][0];
const lineAt = ({ text, at }) => text.slice(text.lastIndexOf("\n", at - 1) + 1).split("\n", 1)[0];
const partAt = (subject) => PART.exec(restOf(subject));

// ---- headers

const childOf = (header, kind) => [...header.children()].find((it) => it.kind === kind)?.text.trim();
const headerAt = ({ tree, node }) => nodesAround(tree, node).find((it) => it.kind === "header");

/** Returns the parts of a header that is left out: what stands before its colon, and after it. */
const leftOut = ({ node }) => (node.kind === "headerLeftOut" ? node.text.split("\n", 1)[0].split(/:(.*)/s).map((it) => it.trim()) : []);

function earlierLine({ tree, node, places }) {
  const [header, name] = [headerAt({ tree, node }), FACTS.name({ tree, node })];
  let same;
  for (const it of tree.root.children()) {
    if (header === undefined || it.begin >= header.begin) break;
    if (it.kind === "header" && named(childOf(it, "headerName")) === name) same = it;
  }
  return same && String(places.placeOf(places.unitAt(same.begin)).line);
}

// ---- tags

/** Returns the tag of a style at the place, if it is one that closes, or one that opens. */
const styleTag = ({ node: { kind, text, values } }, isClosing) => (kind === "styleTag" && (values[2] === 1) === isClosing ? text : undefined);
const longTag = ({ node }) => (node.kind === "tag" && /[(\n]/.test(node.text) ? node.text : undefined);

/** By the names that the table of helps gives them. */
export const FACTS = {
  char: (subject) => characterAt(subject) && named(characterAt(subject)),
  node: ({ node }) => named(node.text),
  withoutColon: (subject) => leftOut(subject).length === 1 && named(leftOut(subject)[0]),
  nameLength: (subject) => leftOut(subject).length > 1 && leftOut(subject)[0] && String(encoder.encode(leftOut(subject)[0]).length),
  value: (subject) => leftOut(subject).length > 1 && named(leftOut(subject)[1].split(";", 1)[0].trim()),
  end: ({ text, at }) => named(/[^\s(|]*$/.exec(text.slice(Math.max(at - BEFORE, 0), at))[0]),
  name: (subject) => headerAt(subject) && named(childOf(headerAt(subject), "headerName")),
  earlierLine,
  tag: (subject) => styleTag(subject, true) ?? styleTag(subject, false),
  tagClosing: (subject) => styleTag(subject, false)?.replace("<", "</"),
  tagOpening: (subject) => styleTag(subject, true)?.replace("</", "<"),
  longTag,
  longTagWord: (subject) => /^<\/?([A-Za-z]+)/.exec(longTag(subject) ?? "")?.[1],
  pair: ({ text, at }) => named(text.slice(Math.max(at - 1, 0), at + 1)),
  macro: ({ text, at }) => `def-m${text.slice(at + 3, at + 4)}`,
  lastText: ({ tree }) => named([...tree.root.children()].findLast((it) => it.kind === "syllable")?.text.trim() ?? ""),
  line: ({ places, at }) => String(places.placeOf(at).line),
  notes: (subject) => /\([^()]*\)/.exec(lineAt(subject))?.[0],
  lineMeant: (subject) => named(`${lineAt(subject).split("%", 1)[0].trimEnd()};`),
  part: (subject) => partAt(subject)?.[0],
  partPlace: ({ places, at }) => Object.values(places.placeOf(at)).join(":"),
  partEnd: (subject) => (partAt(subject)?.[1] ? `</${partAt(subject)[1]}>` : (CLOSERS[partAt(subject)?.[0]] ?? "its end")),
};
