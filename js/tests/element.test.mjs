// Tries <gabc-score> in Chromium and in Firefox: what it draws, when it draws it again, and what it does with scores, files and pages that are not as they should be.

import assert from "node:assert/strict";
import { existsSync, readFileSync, readdirSync } from "node:fs";
import { after, before, describe, test } from "node:test";

import { check, tree } from "gregorio-chant";
import { BROWSERS, Browser } from "./browsers.mjs";
import { DATA } from "./cases.mjs";
import { PACKAGE, POLICY, pageOf, serve } from "./server.mjs";

const NAMES = readdirSync(DATA).filter((name) => name.endsWith(".gabc"));
const SCRIPT = `<script type="module" src="${PACKAGE}src/element.js"></script>`;
// The lines of the README, if the trial has put them here.
const OF_README = "element.html";
const KYRIE = "name: Kyrie;\n%%\n(c4) KY(f)ri(gfg)e(e.) (::)";

const syllablesOf = (score) => [...tree(score)].filter((it) => it.kind === "syllable").map(({ begin, end }) => `${begin} ${end}`);

// A line for each score, and one before them.
const EXAMPLES = [
  `<title>All scores</title>${SCRIPT}`,
  ...NAMES.map((name) => `<gabc-score src="/scores/${name}"></gabc-score>`),
];

// What is asked for below /slow/ is answered only once /go was asked for; /asked is answered once something there was.
const gate = () => {
  const it = {};
  it.opened = new Promise((resolve) => (it.open = resolve));
  return it;
};
let [asked, go] = [gate(), gate()];

/** Returns what a page of this trial asks for, some of it only later. */
async function contentOf(path) {
  if (path === "/examples") return pageOf(...EXAMPLES);
  if (path === "/strict") return [...pageOf(SCRIPT, `<gabc-score>${KYRIE}</gabc-score>`), `${POLICY}; img-src data:`];
  if (path === "/of-readme") return pageOf("<body>", readFileSync(OF_README));
  if (path === "/") return pageOf("<body>", SCRIPT);
  if (path === "/begin") [asked, go] = [gate(), gate()];
  if (path === "/asked") await asked.opened;
  if (path === "/go") go.open();
  if (["/begin", "/asked", "/go"].includes(path)) return ["text/plain", ""];
  if (path.startsWith("/slow/")) {
    asked.open();
    await go.opened;
  }
  const name = path.split("/").at(-1);
  return NAMES.includes(name) ? ["text/plain", readFileSync(`${DATA}/${name}`)] : undefined;
}

// ---- what runs in the page

/** Keeps what goes wrong in a page, and makes what its trials call. */
function prepare() {
  globalThis.wrong = [];
  addEventListener("securitypolicyviolation", (it) => globalThis.wrong.push(`${it.violatedDirective} ${it.blockedURI}`));
  addEventListener("error", (it) => it.target === globalThis && globalThis.wrong.push(it.message));
  addEventListener("unhandledrejection", (it) => globalThis.wrong.push(String(it.reason)));

  globalThis.settled = (it, change = () => {}) =>
    new Promise((resolve) => {
      const done = () => {
        it.removeEventListener("load", done);
        it.removeEventListener("error", done);
        resolve(it);
      };
      it.addEventListener("load", done);
      it.addEventListener("error", done);
      change();
    });

  globalThis.added = (text, attributes = {}, place = document.body) => {
    const it = document.createElement("gabc-score");
    for (const [name, value] of Object.entries(attributes)) it.setAttribute(name, value);
    it.textContent = text;
    return settled(it, () => place.append(it));
  };

  globalThis.shown = (it) => {
    const all = (selector) => [...it.shadowRoot.querySelectorAll(selector)];
    const syllables = all(".syllable").map((one) => `${one.dataset.begin} ${one.dataset.end}`);
    return {
      syllables: [...new Set(syllables)].filter((one) => one !== "0 0"),
      width: Number(it.shadowRoot.querySelector("svg")?.getAttribute("width") ?? 0),
      messages: all("li").map((one) => one.textContent),
      failure: all("p").map((one) => one.textContent).join(""),
    };
  };
}

/** Returns what each score of the page shows, once all are read. */
async function allShown() {
  const all = [...document.querySelectorAll("gabc-score")];
  while (!all.every((it) => it.report)) await new Promise((resolve) => setTimeout(resolve, 20));
  return all.map((it) => shown(it));
}

for (const kind of BROWSERS) {
  describe(`the element in ${kind.name}`, { skip: kind.lacks, timeout: 600_000 }, () => {
    let server;
    let browser;

    before(async () => {
      server = await serve(contentOf);
      browser = await Browser.start(kind, process.cwd());
      await browser.ask("script.addPreloadScript", { functionDeclaration: String(prepare) });
      await browser.open(`${server.address}/`);
    });
    after(async () => {
      await browser.end();
      server.end();
    });

    const run = (work, ...given) => browser.run(work, ...given);
    const assertQuiet = async () => assert.deepEqual([await run(() => globalThis.wrong), browser.console], [[], []]);

    test("all example scores, from a line for each", async () => {
      browser.addresses.length = 0;
      await browser.open(`${server.address}/examples`);
      const shown = await run(allShown);
      assert.ok(NAMES.length > 5);
      for (const [i, name] of NAMES.entries()) {
        assert.deepEqual([name, shown[i].failure, shown[i].syllables], [name, "", syllablesOf(readFileSync(`${DATA}/${name}`))]);
      }
      const asked = browser.addresses.filter((it) => !/^(data|about):/.test(it)).map((it) => it.replace(server.address, ""));
      const [files, others] = [asked.filter((it) => it.startsWith(PACKAGE)), asked.filter((it) => !it.startsWith(PACKAGE)).sort()];
      assert.deepEqual(others, ["/examples", ...NAMES.map((name) => `/scores/${name}`)].sort());
      assert.equal(new Set(files).size, files.length);
      await assertQuiet();
    });

    test("a strict policy refuses nothing, and the style is there", async () => {
      await browser.open(`${server.address}/strict`);
      const [{ syllables }] = await run(allShown);
      assert.deepEqual(syllables, syllablesOf(KYRIE));
      const fill = await run(() => getComputedStyle(document.querySelector("gabc-score").shadowRoot.querySelector(".staff")).fill);
      assert.equal(fill, "rgb(170, 68, 51)");
      await assertQuiet();
      await browser.open(`${server.address}/`);
    });

    test("a page styles it by parts and variables", async () => {
      const styled = await run(async (text) => {
        const style = document.createElement("style");
        style.textContent = "gabc-score { --gabc-staff: #010203; --gabc-ink: #040506 } gabc-score::part(syllable) { opacity: 0.5 } gabc-score::part(code) { color: #070809 }";
        document.head.append(style);
        const { shadowRoot } = await added(text, { messages: "" });
        const of = (selector) => getComputedStyle(shadowRoot.querySelector(selector));
        const found = [of(".staff").fill, of("use").fill, of(".syllable").opacity, of("b").color];
        style.remove();
        return found;
      }, "%%\n(c4) Ky(g5)");
      assert.deepEqual(styled, ["rgb(1, 2, 3)", "rgb(4, 5, 6)", "0.5", "rgb(7, 8, 9)"]);
    });

    test("its text, indented and with tags", async () => {
      const html = `<gabc-score>\n    name: A;\n    %%\n    (c4) <i>Ky</i>(f)ri(g) &amp;e(h)\n  </gabc-score>`;
      const text = await run(async (html) => {
        const place = document.createElement("div");
        place.innerHTML = html;
        const it = await settled(place.firstChild, () => document.body.append(place));
        return new TextDecoder().decode(it.score);
      }, html);
      assert.equal(text, "name: A;\n%%\n(c4) <i>Ky</i>(f)ri(g) &e(h)\n");
      const ofScript = await run(async (html) => {
        const place = document.createElement("div");
        place.innerHTML = html;
        const it = await settled(place.firstChild, () => document.body.append(place));
        return new TextDecoder().decode(it.score);
      }, `<gabc-score>not this<script type="text/gabc">%%\n(c4) <sp>V/</sp> &amp;a(f)</script></gabc-score>`);
      assert.equal(ofScript, "%%\n(c4) <sp>V/</sp> &amp;a(f)");
    });

    test("a new text, a new file and a new width are drawn", async () => {
      const found = await run(async (text, name) => {
        const place = document.createElement("div");
        place.style.width = "600px";
        document.body.append(place);
        const it = await added(text, {}, place);
        const all = [shown(it)];
        await settled(it, () => (it.firstChild.data = "%%\n(c4) a(f)"));
        all.push(shown(it));
        await settled(it, () => (it.src = `/scores/${name}`));
        all.push(shown(it));
        place.style.width = "300px";
        while (shown(it).width > 300) await new Promise((resolve) => setTimeout(resolve, 20));
        all.push(shown(it));
        await settled(it, () => it.removeAttribute("src"));
        all.push(shown(it));
        return all;
      }, KYRIE, "kyrie.gabc");
      const kyrie = syllablesOf(readFileSync(`${DATA}/kyrie.gabc`));
      const wanted = [syllablesOf(KYRIE), syllablesOf("%%\n(c4) a(f)"), kyrie, kyrie, syllablesOf("%%\n(c4) a(f)")];
      assert.deepEqual(found.map((it) => it.syllables), wanted);
      assert.ok(found[2].width > 300 && found[3].width <= 300, JSON.stringify(found.map((it) => it.width)));
      await assertQuiet();
    });

    test("messages, if they are asked for", async () => {
      const score = "%%\n(c4) a(g5) b(g)";
      const [without, within, no] = await run(async (score) => {
        const it = await added(score);
        const all = [shown(it).messages];
        it.toggleAttribute("messages");
        all.push(shown(it).messages);
        it.toggleAttribute("messages");
        return [...all, shown(it).messages];
      }, score);
      const wanted = check(score).messages.map((it) => `${it.line}:${it.column} ${it.code} ${it.text}`);
      assert.ok(wanted.length > 0);
      assert.deepEqual([without, within, no], [[], wanted, []]);
      const many = await run(async (score) => shown(await added(score, { messages: "" })).messages, `%%\n(c4) ${"a(g5) ".repeat(500)}`);
      assert.deepEqual([many.length, many.at(-1)], [101, `and ${check(`%%\n(c4) ${"a(g5) ".repeat(500)}`).messages.length - 100} more`]);
    });

    test("an empty score shows nothing, and says nothing", async () => {
      const found = await run(async () => {
        const all = [];
        for (const text of ["", " \n\t\n"]) all.push(shown(await added(text, { messages: "" })));
        return all;
      });
      assert.deepEqual(found, Array(2).fill({ syllables: [], width: 0, messages: [], failure: "" }));
    });

    test("a file that is not there, and one that is", async () => {
      const found = await run(async () => {
        const it = await added("", { src: "/none.gabc", messages: "" });
        const all = [shown(it)];
        await settled(it, () => (it.src = "http://["));
        all.push(shown(it));
        await settled(it, () => (it.src = "/scores/kyrie.gabc"));
        return [...all, shown(it)];
      });
      assert.deepEqual(found.slice(0, 2).map((it) => [it.syllables, it.messages]), [[[], []], [[], []]]);
      assert.equal(found[0].failure, "/none.gabc was not read: 404 Not Found");
      assert.match(found[1].failure, /^http:\/\/\[ was not read: /);
      assert.deepEqual([found[2].failure, found[2].syllables.length > 0], ["", true]);
    });

    test("a score that is too long", async () => {
      const found = await run(async (score) => shown(await added(score)), `%%\n(c4) ${"a(f) ".repeat(10_000)}`);
      assert.deepEqual(found, { syllables: [], width: 0, messages: [], failure: "a score of more than 50,000 bytes is not drawn" });
    });

    test("hostile text stays text", async () => {
      const hostile = `</title></text><script>document.title='ran'</script><img src=x onerror="document.title='ran'">&amp;]]>'"`;
      const score = `name: ${hostile};\n%%\n(c4) ${hostile}(g[alt:${hostile}]) <alt>${hostile}</alt>a(h)`;
      const found = await run(async (score) => {
        const it = await added(score, { messages: "" });
        await new Promise((resolve) => setTimeout(resolve, 100));
        return [document.title, [...new Set(Array.from(it.shadowRoot.querySelectorAll("*"), (one) => one.localName))].sort()];
      }, score);
      assert.deepEqual(found[0], "");
      assert.deepEqual(found[1].filter((it) => ["script", "img", "a", "style", "foreignObject"].includes(it)), []);
      await assertQuiet();
    });

    test("one that is removed while it loads, and comes back", async () => {
      const found = await run(async () => {
        const told = [];
        const it = document.createElement("gabc-score");
        for (const name of ["load", "error"]) it.addEventListener(name, () => told.push(name));
        it.src = "/slow/kyrie.gabc";
        await fetch("/begin", { method: "POST" });
        document.body.append(it);
        await fetch("/asked", { method: "POST" });
        it.remove();
        await fetch("/go", { method: "POST" });
        await new Promise((resolve) => setTimeout(resolve, 400));
        const before = [...told, shown(it).syllables.length];
        await settled(it, () => document.body.append(it));
        return [before, told, shown(it).syllables.length > 0];
      });
      assert.deepEqual(found, [[0], ["load"], true]);
    });

    test("of two files in a row the last one is shown", async () => {
      const found = await run(async () => {
        const it = document.createElement("gabc-score");
        it.src = "/slow/introit.gabc";
        await fetch("/begin", { method: "POST" });
        document.body.append(it);
        await fetch("/asked", { method: "POST" });
        await settled(it, () => (it.src = "/scores/kyrie.gabc"));
        const first = shown(it).syllables;
        await fetch("/go", { method: "POST" });
        await new Promise((resolve) => setTimeout(resolve, 400));
        return [first, shown(it).syllables];
      });
      const kyrie = syllablesOf(readFileSync(`${DATA}/kyrie.gabc`));
      assert.deepEqual(found, [kyrie, kyrie]);
    });

    test("one that is not shown is drawn once it is", async () => {
      const found = await run(async (text) => {
        const place = document.createElement("div");
        place.hidden = true;
        document.body.append(place);
        const it = await added(text, {}, place);
        const before = shown(it).width;
        place.hidden = false;
        while (shown(it).width === 0) await new Promise((resolve) => setTimeout(resolve, 20));
        return [before, shown(it).syllables];
      }, KYRIE);
      assert.deepEqual(found, [0, syllablesOf(KYRIE)]);
    });

    test("two hundred in a page", async () => {
      const [count, widest] = await run(async (text) => {
        const place = document.createElement("div");
        const all = await Promise.all(Array.from({ length: 200 }, () => added(text, {}, place.isConnected ? place : document.body.appendChild(place))));
        const found = all.filter((it) => shown(it).syllables.length === 5).length;
        const widest = Math.max(...all.map((it) => it.scrollWidth - it.clientWidth));
        place.remove();
        return [found, widest];
      }, KYRIE);
      assert.deepEqual([count, widest], [200, 0]);
      await assertQuiet();
    });

    test("the lines of the README", { skip: !existsSync(OF_README) && "they are not here" }, async () => {
      await browser.open(`${server.address}/of-readme`);
      const found = await run(allShown);
      assert.deepEqual(found.map((it) => it.syllables), [syllablesOf(KYRIE), syllablesOf(readFileSync(`${DATA}/kyrie.gabc`))]);
      assert.deepEqual(found.map((it) => it.messages), [[], []]);
      await assertQuiet();
    });

    test("the page of examples of the package", async () => {
      await browser.open(`${server.address}${PACKAGE}examples/index.html`);
      const found = await run(allShown);
      assert.ok(found.length > 4);
      assert.deepEqual(found.map((it) => [it.failure, it.syllables.length > 0]), found.map(() => ["", true]));
      const chosen = await run(() => {
        const score = document.querySelector(".marked");
        score.shadowRoot.querySelector("[data-begin]:not([data-end='0']) use").dispatchEvent(new Event("click", { bubbles: true, composed: true }));
        return document.querySelector("#chosen").textContent;
      });
      assert.match(chosen, /^Bytes \d+ to \d+: \(c4\)$/);
      await assertQuiet();
    });
  });
}
