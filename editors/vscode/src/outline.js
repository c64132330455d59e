// The outline of a score: its headers, and its verses, which end with a double bar, with their words.

import * as vscode from "vscode";

const LONGEST = 40;
const FINALIS = 5;
// The positions in its word of a syllable that begins one.
const [ALONE, FIRST] = [0, 1];
// The raw parts that are special characters.
const SPECIAL = 1;
const HEADERS = new Set(["header", "headerLeftOut"]);
// By kind, what a part of a text reads as; others read as nothing.
const READ = {
  characters: kept,
  textBlank: () => " ",
  escape: (node) => kept(node).slice(1),
  raw: (node) => (node.values[1] === SPECIAL ? kept(node).replace(/<[^>]*>/g, "") : ""),
};
const decoder = new TextDecoder();

/** Returns the text of a node without what lies in it, which was left out. */
function kept(node) {
  const inside = [...node.children()];
  const begins = [node.begin, ...inside.map((it) => it.end)];
  const ends = [...inside.map((it) => it.begin), node.end];
  return begins.map((begin, i) => decoder.decode(node.bytes.subarray(begin - node.begin, ends[i] - node.begin))).join("");
}

const joined = (text) => text.trim().replace(/\s+/g, " ");
const textOf = (syllable) => Array.from(syllable.children(), (it) => READ[it.kind]?.(it) ?? "").join("");
const top = (score) => (score.isTooLong ? [] : [...score.tree.root.children()]);

/** Returns whether a bar that ends a verse stands in a syllable. */
function endsVerse(tree, { number, inner }) {
  for (let at = number + 1; at <= number + inner; at++) {
    const { kind, values } = tree.node(at);
    if (kind === "bar" && values[0] === FINALIS) return true;
  }
  return false;
}

/** Returns the words of a score. What has notes and no text is a word with none. */
function wordsOf(score) {
  const words = [];
  for (const it of top(score).filter(({ kind }) => kind === "syllable")) {
    const before = words.at(-1);
    const isLast = endsVerse(score.tree, it);
    if (before === undefined || before.isLast || it.values[0] === ALONE || it.values[0] === FIRST) {
      words.push({ text: textOf(it), begin: it.begin, end: it.end, isLast });
    } else Object.assign(before, { text: before.text + textOf(it), end: it.end, isLast });
  }
  return words.map((it) => ({ ...it, text: joined(it.text) }));
}

/** Returns the verses of a score, each as its words. */
function versesOf(score) {
  const verses = [];
  let verse = [];
  for (const word of wordsOf(score)) {
    verse.push(word);
    if (word.isLast) verse = verses[verses.push(verse) - 1] && [];
  }
  return verse.length > 0 ? [...verses, verse] : verses;
}

function symbolOf(score, name, kind, { begin, end }, children = []) {
  const range = score.rangeOf(begin, end);
  return Object.assign(new vscode.DocumentSymbol(name, "", kind, range, range), { children });
}

function headerOf(score, node) {
  const parts = [...node.children()];
  const [name, value] = ["headerName", "headerValue"].map((kind) => parts.find((it) => it.kind === kind)?.text);
  const words = joined(name === undefined ? node.text.replace(/[\s;]+$/, "") : `${name}: ${value ?? ""}`);
  return symbolOf(score, words.slice(0, LONGEST) || "header", vscode.SymbolKind.Property, node);
}

function verseOf(score, words, i) {
  const read = words.filter(({ text }) => text !== "");
  const children = read.map((it) => symbolOf(score, it.text, vscode.SymbolKind.String, it));
  const name = `${i + 1}. ${read.map(({ text }) => text).join(" ").slice(0, LONGEST)}`.trim();
  return symbolOf(score, name, vscode.SymbolKind.Namespace, { begin: words[0].begin, end: words.at(-1).end }, children);
}

/** Returns the headers of a score, and each verse by its first words, with its words. */
export function symbolsOf(score) {
  const headers = top(score).filter(({ kind }) => HEADERS.has(kind));
  return [...headers.map((it) => headerOf(score, it)), ...versesOf(score).map((it, i) => verseOf(score, it, i))];
}

/** Returns the lines of the headers, and of each verse, if they are more than one. */
export function foldingsOf(score) {
  const headers = top(score).filter(({ kind }) => HEADERS.has(kind));
  const parts = [headers, ...versesOf(score)].filter((it) => it.length > 0);
  const ranges = parts.map((it) => score.rangeOf(it[0].begin, it.at(-1).end));
  return ranges.filter(({ start, end }) => start.line < end.line).map(({ start, end }) => new vscode.FoldingRange(start.line, end.line));
}
