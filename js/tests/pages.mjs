// The page of one file in a browser, as a reader of it writes and sees.

import assert from "node:assert/strict";
import { mkdtempSync, readFileSync, readdirSync, writeFileSync } from "node:fs";
import { join } from "node:path";
import { setTimeout } from "node:timers/promises";

import { Browser } from "./browsers.mjs";

// ---- what runs in the page

const settled = `async () => {
  const isBusy = () => document.getElementById("read").getAttribute("aria-busy") !== "false";
  while (isBusy()) await new Promise((resolve) => setTimeout(resolve, 2));
}`;

/** Returns what the page shows. */
function seen() {
  const at = (selector) => document.querySelector(selector);
  return {
    text: at("#score").value,
    messages: [...document.querySelectorAll("#messages button")].map((it) => [".place", "b", ".text"].map((part) => it.querySelector(part).textContent)),
    helps: [...document.querySelectorAll("#messages .help")].map((it) => it.textContent),
    canonical: at("#canonical").textContent,
    dump: at("#dump").textContent,
    state: at("#state").textContent,
  };
}

/** Puts a text into the field as a paste does. */
function write(text) {
  const field = document.querySelector("#score");
  field.value = text;
  field.dispatchEvent(new Event("input"));
}

/** Makes edits in the field, and returns what is shown after each. */
const editing = `async (edits) => {
  const field = document.querySelector("#score");
  const shown = [];
  for (const { at, end, text } of edits) {
    field.setRangeText(text, at, end, "end");
    field.dispatchEvent(new Event("input"));
    await (${settled})();
    shown.push((${seen})());
  }
  return shown;
}`;

/** Writes into the field, in the middle of a score, and returns how long each key took, in milliseconds, in order: until the messages and the canonical form
 * were shown, and until all that is seen was. */
const timing = `async (at, count) => {
  const field = document.querySelector("#score");
  const canonical = document.querySelector("#canonical");
  const times = { answers: [], all: [] };
  for (let i = 0; i < count; i++) {
    const begin = performance.now();
    const answered = new MutationObserver(() => {
      times.answers.push(Math.round(performance.now() - begin));
      answered.disconnect();
    });
    answered.observe(canonical, { childList: true });
    field.setRangeText("f", at, at, "end");
    field.dispatchEvent(new Event("input"));
    await (${settled})();
    await new Promise((resolve) => requestAnimationFrame(() => setTimeout(resolve)));
    times.all.push(Math.round(performance.now() - begin));
  }
  for (const it of Object.values(times)) it.sort((a, b) => a - b);
  return times;
}`;

/** Returns the rows of a picture in the page, and those of the picture `svg`, each with how far it is below the top, once there are as many of these as of those. */
async function rowsBeside(svg) {
  const wanted = [...new DOMParser().parseFromString(svg, "image/svg+xml").querySelectorAll(".row")];
  const found = () => [...document.querySelectorAll("#own-picture .row")];
  for (let left = 6_000; left > 0 && found().length !== wanted.length; left -= 1) await new Promise((resolve) => setTimeout(resolve, 10));
  const written = (row, down) => {
    const it = row.cloneNode(true);
    for (const marked of it.querySelectorAll(".here")) marked.classList.remove("here");
    const right = /\((\d+),/.exec(it.getAttribute("transform"))[1];
    it.setAttribute("transform", `${right} ${down}`);
    return new XMLSerializer().serializeToString(it);
  };
  const width = Number(/viewBox="0 0 (\d+)/.exec(svg)[1]);
  const downIn = (row) => Math.round((parseFloat(row.parentElement.style.marginTop) * width) / 100);
  const downOf = (row) => Number(/,(\d+)/.exec(row.getAttribute("transform"))[1]);
  return [found().map((it) => written(it, downIn(it))), wanted.map((it) => written(it, downOf(it)))];
}

/** Keeps what the policy of a page refuses. */
function watchPolicy() {
  globalThis.refused = [];
  addEventListener("securitypolicyviolation", (it) => globalThis.refused.push(`${it.violatedDirective} ${it.blockedURI}`));
}

/** Returns the text of an element, once it is there. */
async function awaitText(selector) {
  for (let left = 3_000; left > 0 && !document.querySelector(selector); left -= 1) await new Promise((resolve) => setTimeout(resolve, 20));
  return document.querySelector(selector)?.textContent ?? null;
}

export class Page {
  #room;
  #address;

  /** Starts a browser for the page at `address`. */
  static async start(kind, address) {
    const it = new Page();
    it.#room = mkdtempSync(join(process.cwd(), "page-"));
    it.#address = address;
    it.browser = await Browser.start(kind, it.#room);
    await it.browser.ask("script.addPreloadScript", { functionDeclaration: String(watchPolicy) });
    return it;
  }

  run(work, ...given) {
    return this.browser.run(work, ...given);
  }

  /** Opens the page, and waits until it has read what it keeps. */
  async open() {
    await this.browser.open(this.#address);
    await this.run(settled);
  }

  /** Opens the page with nothing kept of what was before. */
  async begin() {
    await this.open();
    await this.click("#clear");
    await this.open();
    this.browser.console.length = 0;
  }

  /** Returns what the page shows. */
  async seen() {
    await this.run(settled);
    return this.run(seen);
  }

  async written(text) {
    await this.run(write, text);
    return this.seen();
  }

  /** Makes edits, and returns what the page shows after each. */
  edited(edits) {
    return this.run(editing, edits);
  }

  /** Returns how many milliseconds each of `count` keys took at this unit of the score: until the messages were shown, and until all was, both in order. */
  times(at, count) {
    return this.run(timing, at, count);
  }

  /** The page shows the rows of the picture `svg`. */
  async assertRows(svg) {
    // The policy of the page refuses a style, even of what is only parsed.
    const [shown, wanted] = await this.run(rowsBeside, svg.replace(/<style>[^<]*<\/style>/, ""));
    assert.deepEqual(shown, wanted);
  }

  async press(keys, held) {
    await this.browser.press(keys, held);
    await this.run(settled);
  }

  /** Clicks on an element, and waits until what this began is shown. */
  async click(selector) {
    await this.run((it) => document.querySelector(it).click(), selector);
    await this.run(settled);
  }

  focus(selector) {
    return this.run((it) => document.querySelector(it).focus(), selector);
  }

  /** Returns the text of an element at this moment; `null` if there is none. */
  textOf(selector) {
    return this.run((it) => document.querySelector(it)?.textContent ?? null, selector);
  }

  /** Returns the text of an element, once it is there: a cursor that moves is told some time later. */
  text(selector) {
    return this.run(awaitText, selector);
  }

  /** Opens all of the tree, and returns its text. */
  async wholeTree() {
    await this.run(settled);
    return this.run(() => {
      for (let it; (it = document.querySelector("#tree [aria-expanded=false] > .row")); ) it.click();
      return document.querySelector("#tree").textContent;
    });
  }

  /** Returns the part of the score that is marked as chosen. */
  chosen() {
    return this.run(() => [...document.querySelectorAll("#source .chosen")].map((it) => it.textContent).join(""));
  }

  /** Opens a file of this name and content by the button for it, and returns what the page shows once its field or its line has changed. */
  async opened(name, content) {
    const path = join(this.#room, name);
    writeFileSync(path, content);
    const before = await this.seen();
    await this.browser.choose("#file", path);
    for (let left = 1_200; left > 0; left -= 1) {
      const shown = await this.seen();
      // The field has it, and the answer may still be under way.
      if (shown.text !== before.text || shown.state !== before.state) return this.seen();
      await setTimeout(50);
    }
    throw new Error(`${name} was not opened`);
  }

  /** Returns a file that was saved, once it has `length` bytes. */
  async saved(name, length) {
    const path = join(this.browser.folder, name);
    for (let left = 1_200; left > 0; left -= 1) {
      if (readdirSync(this.browser.folder).includes(name) && readFileSync(path).length >= length) break;
      await setTimeout(50);
    }
    return readFileSync(path, "utf8");
  }

  /** The console said nothing, the policy refused nothing, and nothing was asked for but the page and what it has in itself. */
  async assertQuiet() {
    assert.deepEqual(this.browser.console, []);
    assert.deepEqual(await this.run(() => globalThis.refused), []);
    assert.deepEqual(
      this.browser.addresses.filter((it) => it !== this.#address && !/^(data|blob|about):/.test(it)),
      [],
    );
  }
}
