// The score that is written in an element of a page.

const SCRIPT = ':scope > script[type="text/gabc"]';

/** Returns what stands in a node, with the tags of its elements. */
const writtenIn = (node) => Array.from(node.childNodes, written).join("");

function written(node) {
  if (node.nodeType === Node.TEXT_NODE) return node.data;
  return node.nodeType === Node.ELEMENT_NODE ? `<${node.localName}>${writtenIn(node)}</${node.localName}>` : "";
}

/** Returns a text without the blanks that all its lines begin with, and without a blank line at its beginning. */
function outdented(text) {
  const lines = text.replace(/^[ \t]*\n/, "").replace(/[ \t]+$/, "").split("\n");
  const indents = lines.filter((it) => it.trim() !== "").map((it) => it.search(/[^ \t]/));
  const least = indents.reduce((one, other) => Math.min(one, other), Infinity);
  return lines.map((it) => it.slice(least)).join("\n");
}

/** Returns the score in `element`: the text of a script of the type `text/gabc` in it, or else all that it holds. The indentation is left out. */
export function scoreIn(element) {
  const script = element.querySelector(SCRIPT);
  return outdented(script === null ? writtenIn(element) : script.textContent);
}
