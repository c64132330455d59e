// The messages: as marks in the source, and as a list below it.

import { MOST } from "./found.js";

const TOTALS = [["fatal", "fatal fault"], ["error", "error"], ["warning", "warning"]];

/** Returns how many messages of each kind there are, in words. */
function totalsOf(messages) {
  const totals = TOTALS.map(([kind, words]) => [messages.filter((it) => it.kind === kind).length, words]).filter(([count]) => count > 0);
  return totals.map(([count, words]) => `${count} ${words}${count > 1 ? "s" : ""}`).join(", ") || "Nothing was found";
}

const elementOf = (name, text, kind) => Object.assign(document.createElement(name), { textContent: text, className: kind });

/** Returns the line of a message. */
function lineOf({ line, column, kind, code, text, help }, i) {
  const button = document.createElement("button");
  button.type = "button";
  const words = elementOf("span", "", "words");
  words.append(elementOf("b", code, kind), " ", elementOf("span", text, "text"), ...(help ? [" ", elementOf("span", help, "help")] : []));
  button.append(elementOf("span", `${line}:${column}`, "place"), " ", words);
  // A picture of the score leads here by this name.
  const item = Object.assign(document.createElement("li"), { id: `p1-m${i + 1}` });
  item.append(button);
  return item;
}

export class Findings {
  #list;
  #totals;
  #shown = [];

  /** Lists messages in `list`, and their totals in `totals`. `onChoice` gets a message that is chosen, and its number from 1. */
  constructor(list, totals, onChoice) {
    this.#list = list;
    this.#totals = totals;
    list.addEventListener("click", ({ target }) => {
      const item = target.closest("li");
      const number = [...list.children].indexOf(item);
      if (item?.querySelector("button")) onChoice(this.#shown[number], number + 1);
    });
  }

  /** Shows messages; without any, that nothing was found, or nothing at all if nothing `wasRead`. */
  show(findings, wasRead) {
    this.#shown = findings;
    this.#list.replaceChildren(...findings.slice(0, MOST).map(lineOf));
    if (findings.length > MOST) this.#list.append(elementOf("li", `and ${findings.length - MOST} more`, "more"));
    this.#totals.textContent = wasRead ? totalsOf(findings) : "";
  }

  /** Shows which message is at the cursor, and returns it; `undefined` if none is. */
  showAt(cursor) {
    const at = this.#shown.findIndex(({ begin, end }) => begin <= cursor && cursor <= end);
    this.#list.querySelector("[aria-current]")?.removeAttribute("aria-current");
    const item = this.#list.children[at];
    if (item) {
      item.setAttribute("aria-current", "true");
      this.#list.scrollTop = item.offsetTop - this.#list.clientHeight / 3;
    }
    return this.#shown[at];
  }
}
