// The page: what is written is compiled, and what came of it is shown.

import { Tree } from "../src/tree.js";
import { EXAMPLES, HELPS } from "./data.js";
import { MOST_BYTES, nameFrom, opened, save } from "./files.js";
import { Findings } from "./findings.js";
import { findingsOf } from "./found.js";
import { forget, keep, keptScore } from "./kept.js";
import { Outline } from "./outline.js";
import { Source } from "./source.js";
import { Tabs } from "./tabs.js";

// Some lines, at most 50.
const PIECE = /(?:[^\n]*\n){1,50}|[^\n]+$/g;

const at = (id) => document.getElementById(id);

// What the field was filled from: the name of a file, how its lines ended, and its bytes if they are no UTF-8, as long as nothing is edited.
let file = {};
// The text that another one has taken the place of.
let before;
let answer;
// What has scores compiled, and what else is to be done with its answers.
let reader;
let hooks = {};
// What is shown of a score that is not compiled.
const NOTHING = { canonical: "", messages: [], picture: "", name: "", tree: new Tree(new Uint8Array(0), new Uint8Array(20)) };

const source = new Source(at("source"), edited, showCursor);
const findings = new Findings(at("messages"), at("totals"), goToMessage);
const outline = new Outline(at("tree"), goToNode);
const tabs = new Tabs(at("tabs"), read);

function say(text) {
  at("state").textContent = text;
}

// ---- compiling

function edited() {
  file = { ...file, bytes: undefined };
  say(keep(source.text) ? "" : "The browser does not keep this score: save it.");
  read();
}

/** Has the score compiled. */
function read() {
  if (source.text.length > MOST_BYTES) {
    say(`A score of more than ${MOST_BYTES.toLocaleString("en")} bytes is too long for this page.`);
    reader.giveUp();
    show(NOTHING);
    return;
  }
  at("read").setAttribute("aria-busy", "true");
  reader.read(file.bytes ?? source.text, tabs.chosen);
}

/** Returns a text in pieces of some lines, of which the browser lays out those that are seen. */
function piecesOf(text) {
  const pieces = text.match(PIECE) ?? [];
  return pieces.map((it) => Object.assign(document.createElement("div"), { textContent: it }));
}

/** Shows what came of a score but its picture, which a hook shows. */
function show(it) {
  if (it.failure) {
    say(it.failure);
    at("read").setAttribute("aria-busy", "false");
    return;
  }
  answer = it;
  // An empty field is no score that is wrong.
  const wasRead = it !== NOTHING && source.text !== "";
  const found = wasRead ? findingsOf(it, source.text, source.places, HELPS) : [];
  source.mark(found);
  findings.show(found, wasRead);
  at("canonical").replaceChildren(...piecesOf(it.canonical));
  at("dump").replaceChildren(...piecesOf(it.dump ?? ""));
  hooks.onAnswer?.(it);
  showCursor();
  if (tabs.chosen === "tree-part") outline.show(it.tree, source.places.byteAt(source.cursor));
  at("read").setAttribute("aria-busy", String(reader.isBusy));
}

/** Shows the picture of a score, by a hook, if it comes after what else is shown. */
function showPicture(it) {
  hooks.onPicture(it);
  pointAtPlace(source.places.placeOf(source.cursor));
  at("read").setAttribute("aria-busy", String(reader.isBusy));
}

// ---- choosing

/** Has the picture show a place of the score. */
function pointAtPlace(place) {
  hooks.onCursor?.(place, source.places.byteAt(source.cursor));
}

/** Shows what is at the cursor. */
function showCursor() {
  const place = source.places.placeOf(source.cursor);
  at("place").textContent = `Line ${place.line}, column ${place.column}`;
  pointAtPlace(place);
  const it = findings.showAt(source.cursor);
  source.hint(it?.begin, it && `${it.code} ${it.text}${it.help ? `: ${it.help}` : ""}`);
  if (tabs.chosen === "tree-part" && !reader.isBusy) outline.showAt(source.places.byteAt(source.cursor));
}

/** Goes to a message, to mend what it is about. */
function goToMessage({ begin }, number) {
  source.goTo({ begin, end: begin });
  showCursor();
  hooks.onMessage?.(number);
}

/** Goes to a unit of the score. */
function goToUnit(unit) {
  source.goTo({ begin: unit, end: unit });
  showCursor();
}

/** Goes to a line and a column of the score. */
export const goToPlace = (place) => goToUnit(source.places.unitOf(place));

/** Goes to a byte of the score. */
export const goToByte = (byte) => goToUnit(source.places.unitAt(byte));

/** Shows in the field where a node stands, and puts the cursor there if `isToGo`. */
function goToNode({ begin, end }, isToGo) {
  const range = { begin: source.places.unitAt(begin), end: source.places.unitAt(end) };
  if (isToGo) source.goTo(range);
  else source.choose(range);
}

// ---- filling the field

/** Puts another score into the field. The one before can be brought back. */
function fill(text, from = {}) {
  if (source.text !== "" && source.text !== text) before = { text: source.text, from: file };
  at("back").hidden = before === undefined;
  source.text = text;
  edited();
  file = from;
  if (file.bytes) read();
}

async function take(chosen) {
  if (chosen === undefined) return;
  try {
    const { text, ...from } = await opened(chosen);
    fill(text, from);
    if (from.bytes) say(`${from.name} is not UTF-8: the compiler says where. What it has there is shown as U+FFFD.`);
  } catch (error) {
    say(error.message);
  }
}

function clear() {
  fill("");
  forget();
  say("The browser keeps nothing of the score any more.");
}

function bringBack() {
  const { text, from } = before;
  fill(text, from);
}

// ---- the buttons

/** Returns the beginning of the name of a file to save. */
export const fileName = () => (file.name ?? `${nameFrom(answer?.tree)}.gabc`).replace(/\.gabc$/i, "");
const BUTTONS = {
  open: () => at("file").click(),
  save: () => save(`${fileName()}.gabc`, source.text.replaceAll("\n", file.lineEnd ?? "\n")),
  "save-canonical": () => answer && save(`${fileName()}.canonical.gabc`, answer.canonical),
  clear,
  back: bringBack,
};
const KEYS = { o: "open", s: "save" };

for (const [id, press] of Object.entries(BUTTONS)) at(id).addEventListener("click", press);
at("file").addEventListener("change", ({ target }) => {
  take(target.files[0]);
  target.value = "";
});
at("examples").append(...Object.keys(EXAMPLES).map((name) => new Option(name, name)));
at("examples").addEventListener("change", ({ target }) => {
  fill(EXAMPLES[target.value]);
  target.selectedIndex = 0;
});
addEventListener("keydown", (event) => {
  const id = (event.ctrlKey || event.metaKey) && !event.altKey && !event.shiftKey && KEYS[event.key];
  if (id) {
    event.preventDefault();
    at(id).click();
  } else if (event.key === "Escape") source.hint();
});
addEventListener("dragover", (event) => {
  if (event.dataTransfer.types.includes("Files")) event.preventDefault();
});
addEventListener("drop", (event) => {
  if (event.dataTransfer.files.length === 0) return;
  event.preventDefault();
  take(event.dataTransfer.files[0]);
});

export const chooseTab = (id) => tabs.show(id);
export const scoreText = () => source.text;

/** Begins with the score that is kept. `it` has scores compiled; the hooks, if they are given, get each answer, each picture that comes later, each place of the
 * cursor with its byte, and the number of each message that is chosen. Returns what has the score compiled again. */
export function begin(it, given = {}) {
  [reader, hooks] = [it, given];
  reader.onAnswer = show;
  reader.onPicture = showPicture;
  source.text = keptScore();
  read();
  return { read };
}
