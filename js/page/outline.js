// The tree of a score as an outline: a row for each node, of which those below are made when it is opened.

import { pathTo } from "./nodes.js";
import { nameOf, numbersOf } from "./words.js";

// The most nodes that are listed one after the other in a node: of more, each part has this many.
const PART = 50;
// The most characters of a node's text that are shown.
const LONGEST = 60;
// Blanks and ends of lines as they are shown.
const SEEN = { "\n": "↵", "\r": "↵", "\t": "→", "\ufeff": "U+FEFF" };
const decoder = new TextDecoder("utf-8", { ignoreBOM: true });

const put = (element, attributes) => Object.entries(attributes).forEach(([name, value]) => element.setAttribute(name, String(value)));
const isOpened = (item) => item.getAttribute("aria-expanded") === "true";
const elementOf = (name, kind, text = "") => Object.assign(document.createElement(name), { className: kind, textContent: text });

/** Returns what is in a row: the nodes of `it`, or parts of them if they are many. */
function rowsIn({ node, nodes }) {
  const all = nodes ?? [...node.children()];
  if (nodes || all.length <= PART) return all.map((child) => ({ node: child }));
  return Array.from({ length: Math.ceil(all.length / PART) }, (_, i) => ({ nodes: all.slice(PART * i, PART * (i + 1)), from: PART * i + 1 }));
}

const seen = (text) => text.replace(/[\n\r\t\ufeff]|^ +$/g, (it) => SEEN[it] ?? "␣".repeat(it.length));

/** Returns the text of a node, in which its own bytes are marked, cut if it is long. */
function textOf(node) {
  const shown = elementOf("code", "own");
  let at = node.begin;
  const put = (name, end) => {
    const part = seen(decoder.decode(node.bytes.subarray(at - node.begin, Math.min(end - node.begin, LONGEST))));
    if (part !== "") shown.append(elementOf(name, "", part));
    at = end;
  };
  for (const child of node.children()) {
    if (at >= node.begin + LONGEST) break;
    put("b", child.begin);
    put("span", child.end);
  }
  put("b", node.end);
  if (node.end - node.begin > LONGEST) shown.append("…");
  return shown;
}

/** Returns the words of a row. */
function wordsOf({ node, nodes, from }) {
  const row = elementOf("div", "row");
  if (nodes) row.append(elementOf("span", "kind", `${from} to ${from + nodes.length - 1}`));
  else row.append(elementOf("span", "kind", nameOf(node.kind)), " ", node.number ? textOf(node) : "", " ", elementOf("span", "numbers", numbersOf(node)));
  return row;
}

export class Outline {
  #place;
  #onChoice;
  #tree;
  #rows = new WeakMap();
  #chosen;

  /** Makes an outline in `place`. `onChoice` gets a node that is chosen, and whether to go to it. */
  constructor(place, onChoice) {
    this.#place = place;
    this.#onChoice = onChoice;
    place.addEventListener("click", ({ target }) => this.#clicked(target));
    place.addEventListener("keydown", (event) => this.#pressed(event));
  }

  /** Shows a tree, opened where this byte is. */
  show(tree, byte) {
    this.#tree = tree;
    const top = this.#place.scrollTop;
    this.#place.replaceChildren(this.#itemOf({ node: tree.root }, 1));
    this.#place.scrollTop = top;
    this.showAt(byte);
  }

  /** Opens the outline down to the node that holds this byte, and marks that node. */
  showAt(byte) {
    if (this.#tree === undefined) return;
    let item = this.#place.firstElementChild;
    for (const node of pathTo(this.#tree, byte).slice(1)) item = this.#within(item, node);
    this.#mark(item);
  }

  /** Returns the item of a node in that of the node around it, which is opened. */
  #within(item, node) {
    this.#open(item, true);
    const found = [...item.lastElementChild.children].find((it) => {
      const row = this.#rows.get(it);
      return row.node?.number === node.number || row.nodes?.some((other) => other.number === node.number);
    });
    return this.#rows.get(found).nodes ? this.#within(found, node) : found;
  }

  #itemOf(row, level) {
    const item = elementOf("li", "");
    put(item, { role: "treeitem", "aria-level": level, "aria-selected": false, tabindex: -1 });
    if (row.nodes || row.node.inner > 0) put(item, { "aria-expanded": false });
    item.append(wordsOf(row));
    this.#rows.set(item, row);
    return item;
  }

  #open(item, isOpen) {
    if (!item.hasAttribute("aria-expanded") || isOpened(item) === isOpen) return;
    put(item, { "aria-expanded": isOpen });
    if (!isOpen) {
      item.lastElementChild.remove();
      return;
    }
    const group = elementOf("ul", "");
    put(group, { role: "group" });
    group.append(...rowsIn(this.#rows.get(item)).map((row) => this.#itemOf(row, Number(item.getAttribute("aria-level")) + 1)));
    item.append(group);
  }

  /** Marks an item as the one that is chosen, and shows it. */
  #mark(item) {
    if (this.#chosen) put(this.#chosen, { "aria-selected": false, tabindex: -1 });
    this.#chosen = item;
    put(item, { "aria-selected": true, tabindex: 0 });
    const [row, box] = [item.firstElementChild.getBoundingClientRect(), this.#place.getBoundingClientRect()];
    if (row.top < box.top || row.bottom > box.bottom) this.#place.scrollTop += row.top - box.top - box.height / 3;
  }

  #choose(item, isToGo) {
    this.#mark(item);
    item.focus({ preventScroll: true });
    const { node, nodes } = this.#rows.get(item);
    this.#onChoice(node ?? { begin: nodes[0].begin, end: nodes.at(-1).end }, isToGo);
  }

  #clicked(target) {
    const item = target.closest(".row")?.parentElement;
    if (item === undefined) return;
    this.#open(item, !isOpened(item));
    this.#choose(item, false);
  }

  #pressed(event) {
    const item = event.target.closest("[role=treeitem]");
    if (item === null || event.ctrlKey || event.altKey || event.metaKey) return;
    const items = [...this.#place.querySelectorAll("[role=treeitem]")];
    const at = items.indexOf(item);
    const isOpen = isOpened(item);
    const ways = {
      ArrowDown: () => items[at + 1],
      ArrowUp: () => items[at - 1],
      Home: () => items[0],
      End: () => items.at(-1),
      ArrowRight: () => (isOpen ? items[at + 1] : this.#open(item, true)),
      ArrowLeft: () => (isOpen ? this.#open(item, false) : item.parentElement.closest("[role=treeitem]")),
    };
    if (event.key === "Enter") this.#choose(item, true);
    else if (event.key in ways) {
      const next = ways[event.key]();
      if (next) this.#choose(next, false);
    } else return;
    event.preventDefault();
  }
}
