// Tries the page of one file in Chromium and in Firefox, from a disk: it is written in, files are opened and saved, and nothing is asked for.

import assert from "node:assert/strict";
import { readFileSync, readdirSync } from "node:fs";
import { join } from "node:path";
import { after, before, beforeEach, describe, test } from "node:test";
import { pathToFileURL } from "node:url";

import { compile, draw } from "gregorio-chant";
import { BROWSERS } from "./browsers.mjs";
import { DATA } from "./cases.mjs";
import { editsOf } from "./edits.mjs";
import { Page } from "./pages.mjs";

// The file of the page.
const PATH = process.env.GREGORIO_PAGE;
const SCORE = "name: Kyrie;\n%%\n(c4) Ky(f)ri(gfg)e(e.) (::)";
const KEYS = { Control: "\ue009", Enter: "\ue007", Down: "\ue015", Right: "\ue014", Left: "\ue012", End: "\ue010", Home: "\ue011" };
const HOSTILE = [
  'name: </script><script>document.title="ran"</script><img src=x onerror=document.title="ran">;',
  '<b onclick=1>: &lt;i&gt;"\'`;',
  "%%",
  '(c4) <script>document.title="ran"</script>(f) <img src=x onerror=document.title="ran">(g[<b>&amp;</b>]) a<svg/onload=1>[<i>t</i>](h"&) % </textarea><iframe>',
  "</style></title>(g|<b>vi) \u202e\u0000{}(g",
].join("\n");

// ---- what has to be shown

const lineOf = ({ line, column, code, text }) => [`${line}:${column}`, code, text];
const wanted = (text) => {
  const { canonical, messages } = compile(text);
  return { text, canonical, messages: text === "" ? [] : messages.map(lineOf) };
};
const ofSeen = ({ text, canonical, messages }) => ({ text, canonical, messages });

for (const kind of BROWSERS) {
  const lacks = kind.lacks || (!PATH && "there is no page");

  describe(`the page in ${kind.name}`, { skip: lacks, timeout: 900_000 }, () => {
    let page;

    before(async () => {
      page = await Page.start(kind, pathToFileURL(PATH).href);
    });
    after(async () => page?.browser.end());
    beforeEach(async () => page.begin());

    test("a score that is typed", async () => {
      assert.equal(await page.textOf("#totals"), "");
      await page.focus("#score");
      await page.press(`%%${KEYS.Enter}(c4) Ky(f&g)`);
      assert.deepEqual(ofSeen(await page.seen()), wanted("%%\n(c4) Ky(f&g)"));
      assert.equal(await page.textOf("#totals"), "1 error, 1 warning");
      assert.equal(await page.textOf("#place"), "Line 2, column 13");
      await page.press(KEYS.Left.repeat(3));
      assert.equal(await page.text("#hint:not([hidden])"), "E1 character left out of the notes: '&' is no note and no sign: remove it");
      await page.assertQuiet();
    });

    test("each example", async () => {
      const names = await page.run(() => [...document.querySelectorAll("#examples option")].map((it) => it.value).filter(Boolean));
      assert.ok(names.length > 5);
      await page.click("#dump-tab");
      for (const name of names) {
        await page.run((it) => {
          const field = document.querySelector("#examples");
          field.value = it;
          field.dispatchEvent(new Event("change"));
        }, name);
        const shown = await page.seen();
        assert.deepEqual(ofSeen(shown), wanted(shown.text), name);
        assert.equal(shown.dump, compile(shown.text, { format: "dump" }).dump, name);
        await page.click("#tree-tab");
        assert.doesNotMatch(await page.wholeTree(), /undefined|null|NaN/, name);
        await page.click("#dump-tab");
        assert.ok(readdirSync(DATA).some((it) => it.endsWith(".gabc") && readFileSync(join(DATA, it), "utf8") === shown.text), name);
      }
      await page.assertQuiet();
    });

    test("1,000 edits", { timeout: 600_000 }, async () => {
      for (const [i, part] of editsOf(readFileSync(join(DATA, "introit.gabc"), "utf8"), 1000, 100).entries()) {
        await page.click(["#canonical-tab", "#tree-tab"][i % 2]);
        const [first, ...edits] = part;
        assert.deepEqual(ofSeen(await page.written(first.whole)), wanted(first.whole));
        const shown = await page.edited(edits);
        for (const [n, it] of shown.entries()) assert.deepEqual(ofSeen(it), wanted(edits[n].whole));
      }
      await page.assertQuiet();
    });

    test("helps", async () => {
      const cases = {
        "name: a;\nmode: 1;\nmode: 2;\n%%\n(c4) a(g5)b(f$)</i>c(g)": [
          "'mode' is already in line 2: remove one of them",
          "'5' is no sign of the note before it: remove it",
          "'$' is no note and no sign: remove it",
          "</i> closes no style that is open in this syllable: open it here with <i>, or remove it",
        ],
        "name: a;\nno colon\n: x;\nnabc-lines: 9;\n%%\n(c4) a)b(g-)<x>(h)": [
          "'no colon' has no colon: a header is name: value;, and the notes follow a line %%",
          "there is no name before the colon: write one",
          "'9' is not 0, 1, 2, 3 or 4",
          "')' closes nothing: look for a missing ( before it, or remove it",
          "'-' needs a note after it: write one, or remove the '-'",
          "there is no tag '<x>'; it is kept",
        ],
        "name: a;\n%%\n(c4) {a{b}}(f) <b>c(g": [
          "there is already a centre: keep one pair of { and } in a syllable",
          "'}' closes no {",
          "a style ends with the text of its syllable: write its end here, and it again in the next text",
          "the ( at 3:20 is not closed: write )",
        ],
        "name: a;\n(c4) Ky(f)": ["write a line %% between the headers and the score"],
        "name: a\n(c4) Ky(f)": ["line 1 lacks its ; : write 'name: a;', or ;; after the last line of a value of several lines"],
      };
      for (const [text, wanted] of Object.entries(cases)) {
        assert.deepEqual((await page.written(text)).helps, wanted, text);
      }
      await page.assertQuiet();
    });

    test("hostile text", async () => {
      await page.click("#tree-tab");
      await page.written("%%\n");
      const elements = "script, img, svg, iframe, i, #canonical *, #dump *";
      const before = await page.run((it) => document.querySelectorAll(it).length, elements);
      await page.click("#dump-tab");
      const shown = await page.written(HOSTILE);
      assert.deepEqual(ofSeen(shown), wanted(HOSTILE));
      assert.equal(shown.dump, compile(HOSTILE, { format: "dump" }).dump);
      await page.click("#tree-tab");
      const whole = await page.wholeTree();
      assert.equal(await page.run((it) => document.querySelectorAll(it).length, elements), before);
      assert.equal(await page.run(() => document.title), "Chant scores in GABC");
      assert.ok(whole.includes('<script>document.title="ran"</script>'));
      await page.assertQuiet();
    });

    test("from a message to the score, and to the tree", async () => {
      await page.written("name: é𝄞;\n%%\n(c4) 𝄞é(f&g) Ky(h)[x]");
      await page.click("#tree-tab");
      await page.click("#messages li button");
      assert.equal(await page.run(() => document.activeElement.id), "score");
      assert.equal(await page.textOf("#tree [aria-selected=true] > .row"), "left out & E1");
      assert.equal(await page.textOf("#messages [aria-current] b"), "E1");
      await page.run(() => document.querySelector("#score").setSelectionRange(29, 29));
      await page.text("#messages:not(:has([aria-current]))");
      assert.equal(await page.textOf("#messages [aria-current] b"), null);
      assert.equal(await page.textOf("#tree [aria-selected=true] > .row"), "characters Ky ");
      await page.assertQuiet();
    });

    test("from the tree to the score, by keys", async () => {
      await page.written(SCORE);
      await page.click("#tree-tab");
      await page.focus("#tree [role=treeitem]");
      await page.press(KEYS.Home + KEYS.Down);
      assert.equal(await page.chosen(), "name: Kyrie;");
      await page.press(KEYS.Right + KEYS.Right + KEYS.Down);
      assert.equal(await page.chosen(), "Kyrie");
      assert.equal(await page.textOf("#tree [aria-selected=true] > .row"), "header value Kyrie ");
      await page.press(KEYS.Left);
      assert.equal(await page.chosen(), "name: Kyrie;");
      await page.press(KEYS.Left + KEYS.End);
      assert.equal(await page.chosen(), " (::)");
      await page.press(KEYS.Enter);
      assert.deepEqual(await page.run(() => [document.activeElement.id, document.querySelector("#score").selectionStart]), ["score", SCORE.length - 5]);
      await page.assertQuiet();
    });

    test("tabs, by keys", async () => {
      await page.written(SCORE);
      await page.focus("#canonical-tab");
      const seenPart = () => page.run(() => [...document.querySelectorAll("[role=tabpanel]")].filter((it) => it.getClientRects().length).map((it) => it.id));
      assert.deepEqual(await seenPart(), ["canonical-part"]);
      await page.press(KEYS.Right + KEYS.Right);
      assert.deepEqual(await seenPart(), ["dump-part"]);
      assert.equal(await page.textOf("#dump"), compile(SCORE, { format: "dump" }).dump);
      await page.press(KEYS.End);
      assert.deepEqual(await seenPart(), ["picture"]);
      await page.press(KEYS.Right);
      assert.deepEqual(await seenPart(), ["canonical-part"]);
      await page.assertQuiet();
    });

    test("the picture", async () => {
      await page.written(SCORE);
      await page.click("#picture-tab");
      const drawnText = () => page.run(() => [...document.querySelectorAll("#own-picture .row text")].map((it) => it.textContent).join(" "));
      assert.equal((await drawnText()).replace(/[\s-]/g, ""), "Kyrie");
      assert.equal(await page.run(() => document.querySelectorAll("#own-picture use").length), 5);
      assert.equal(await page.run(() => document.querySelector("#own-picture .row").closest("svg").getAttribute("xml:space")), "preserve");
      await page.focus("#score");
      await page.press(KEYS.Home);
      await page.text("#own-picture .here");
      const here = () => page.textOf("#own-picture .here text");
      await page.run(() => document.querySelector("#score").setSelectionRange(27, 27));
      await page.text("#own-picture .here[data-begin='26']");
      assert.match(await here(), /^ri/);
      await page.run(() => document.querySelectorAll("#own-picture .syllable text")[0].dispatchEvent(new MouseEvent("click", { bubbles: true })));
      assert.deepEqual(await page.run(() => [document.activeElement.id, document.querySelector("#score").selectionStart]), ["score", 20]);
      await page.click("#save-drawn");
      const svg = await page.saved("kyrie.svg", 1000);
      assert.match(svg, /^<svg width="\d+(\.\d+)?" .*<title>Kyrie<\/title><metadata>.*<style>/);
      await page.written(HOSTILE);
      assert.deepEqual(await page.run(() => [document.querySelectorAll("#own-picture :is(script, img, iframe, b, i, style, a)").length, document.title]), [0, "Chant scores in GABC"]);
      await page.written(`%%\n${"Ky(f)".repeat(12_000)}`);
      assert.equal(await page.textOf("#too-long:not([hidden])"), "A score of more than 50,000 bytes is not drawn here.");
      assert.equal(await page.run(() => document.querySelectorAll("#own-picture *").length), 0);
      await page.assertQuiet();
    });

    test("the picture after each edit is the one that is drawn anew", { timeout: 600_000 }, async () => {
      const score = `name: Kyrie;\n%%\n(c4) ${"KY(f)ri(gfg)e(e.) <i>e</i>(ixi/ih)lei(g/h~)son.(f_e) (;) ".repeat(40)}(::)`;
      await page.click("#picture-tab");
      await page.written(score);
      const width = await page.run(() => parseInt(document.querySelector("#own-picture .chant").style.width));
      const drawn = (text) => draw(text, { width, messages: "errors" });
      await page.assertRows(drawn(score));
      const [[, ...edits]] = editsOf(score, 60, 60);
      const others = ["(c4)", "mode: 2;\n%%\n(f3) a(g)", `${score.slice(0, 900)}(z)${score.slice(900)}`, score].map((whole) => ({ whole }));
      for (const { whole } of [...edits, ...others]) {
        await page.written(whole);
        await page.assertRows(drawn(whole));
      }
      await page.assertQuiet();
    });

    test("a syllable of the picture that is not seen is marked, and one that is seen leads to its place", async () => {
      const score = `%%\n(c4) ${"Ky(f)ri(gfg)e(e.) ".repeat(600)}(::)`;
      await page.click("#picture-tab");
      await page.written(score);
      const unit = score.lastIndexOf("ri(");
      await page.focus("#score");
      await page.run((it) => document.querySelector("#score").setSelectionRange(it, it), unit);
      assert.match(await page.text(`#own-picture .here[data-begin="${unit}"] text`), /^ri/);
      const hit = await page.run(() => {
        const [, it] = document.querySelectorAll("#own-picture .syllable use");
        it.scrollIntoView({ block: "center" });
        const { left, top, width, height } = it.getBoundingClientRect();
        document.elementFromPoint(left + width / 2, top + height / 2).dispatchEvent(new MouseEvent("click", { bubbles: true }));
        return document.querySelector("#score").selectionStart;
      });
      assert.equal(hit, score.indexOf(" Ky("));
      await page.assertQuiet();
    });

    test("files are opened", async () => {
      const text = "name: a;\r\n%%\r\n\ufeffKy(f&g)\r\n";
      const shown = await page.opened("a b.gabc", text);
      assert.equal(shown.text, text.replaceAll("\r\n", "\n"));
      assert.deepEqual(shown.messages, wanted(text).messages);
      // The field has no CR, and a file that had them gets them again.
      await page.click("#save");
      assert.equal(await page.saved("a b.gabc", text.length), text);
      const broken = await page.opened("latin.gabc", Buffer.from("%%\nKy(f)\nAgn\xe9(g)", "latin1"));
      assert.deepEqual(broken.messages.at(-1), ["3:4", "F1", "not UTF-8"]);
      assert.match(broken.state, /^latin.gabc is not UTF-8/);
      assert.equal(broken.text, "%%\nKy(f)\nAgn\ufffd(g)");
      assert.deepEqual(ofSeen(await page.written("%%\nKy(f)\nAgn\ufffd(g)")), wanted("%%\nKy(f)\nAgn\ufffd(g)"));
      const long = await page.opened("long.gabc", Buffer.alloc(64e6, 10));
      assert.match(long.state, /^long.gabc has more than 1,000,000 bytes/);
      assert.equal(long.text, "%%\nKy(f)\nAgn\ufffd(g)");
      assert.equal((await page.opened("none.gabc", "")).text, "");
      await page.assertQuiet();
    });

    test("files are saved, and the text before is brought back", async () => {
      await page.written(SCORE);
      await page.click("#save");
      assert.equal(await page.saved("kyrie.gabc", SCORE.length), SCORE);
      const { canonical } = compile(SCORE);
      await page.focus("#score");
      await page.click("#save-canonical");
      assert.equal(await page.saved("kyrie.canonical.gabc", canonical.length), canonical);
      await page.opened("mine.gabc", "%%\nKy(f)");
      await page.browser.press("s", KEYS.Control);
      assert.equal(await page.saved("mine.gabc", 8), "%%\nKy(f)");
      await page.click("#back");
      assert.equal((await page.seen()).text, SCORE);
      await page.assertQuiet();
    });

    test("the text is kept over a reload, until it is cleared", async () => {
      const text = `${SCORE}\nKy(f\ud834)`;
      await page.written(text);
      await page.open();
      assert.deepEqual(ofSeen(await page.seen()), wanted(text));
      await page.click("#clear");
      await page.open();
      assert.equal((await page.seen()).text, "");
      assert.deepEqual(await page.run(() => [localStorage.length, sessionStorage.length]), [0, 0]);
      await page.assertQuiet();
    });

    test("long scores", { timeout: 600_000 }, async (it) => {
      const text = `name: x;\n%%\n(c4) ${"Ky(fgh)ri(g/h~)e(h_1.) <i>Chri</i>ste(ixi/ih) ".repeat(560)}`;
      await page.click("#tree-tab");
      await page.written(text);
      assert.ok((await page.run(() => document.querySelectorAll("#tree li").length)) < 400);
      for (const part of ["picture", "tree"]) {
        await page.click(`#${part}-tab`);
        const { answers, all } = await page.times(text.indexOf("(ixi", 15_000) + 1, 20);
        const words = `messages in ${answers[10]} ms, at most ${answers[19]}; all in ${all[10]}, at most ${all[19]}`;
        it.diagnostic(`a key in ${text.length} bytes in ${kind.name}, with the ${part}: ${words}`);
        // The least: what else the machine does only adds to the time of a key.
        assert.ok(all[0] < 1000, String(all));
      }
      const faulty = `name: x;\n%%\n(c4) ${"(f&)".repeat(100_000)}`;
      const begin = performance.now();
      assert.equal((await page.written(faulty)).canonical, compile(faulty).canonical);
      assert.equal(await page.textOf("#totals"), "100000 errors");
      it.diagnostic(`a score with 100,000 errors in ${kind.name}: ${Math.round(performance.now() - begin)} ms`);
      assert.match((await page.written("a".repeat(1_000_001))).state, /too long for this page/);
      await page.assertQuiet();
    });

    test("a narrow screen", async () => {
      await page.browser.askPage("browsingContext.setViewport", { viewport: { width: 360, height: 740 } });
      await page.written(`${SCORE}\n${"Ky(f)ri(g)e(h)lei(g)son(f.) ".repeat(40)}\n${"a".repeat(200)}(f)\n\n`);
      for (const tab of ["canonical", "tree", "dump", "picture"]) {
        await page.click(`#${tab}-tab`);
        assert.ok((await page.run(() => document.documentElement.scrollWidth)) <= 360, tab);
      }
      // The marks lie under what they mark: both texts break their lines at the same places.
      const heights = await page.run(() => [".under", "#score"].map((it) => document.querySelector(it).scrollHeight));
      assert.equal(heights[0], heights[1]);
      await page.browser.askPage("browsingContext.setViewport", { viewport: null });
      await page.assertQuiet();
    });

    test("each control has a name", async () => {
      await page.written(HOSTILE);
      const nameless = await page.run(() =>
        [...document.querySelectorAll("button, select, textarea, [role=tablist], [role=tabpanel], [role=tree], ol")]
          .filter((it) => !(it.textContent.trim() || it.ariaLabel || it.labels?.length || it.getAttribute("aria-label") || it.getAttribute("aria-labelledby")))
          .map((it) => it.outerHTML),
      );
      assert.deepEqual(nameless, []);
    });

    test("the policy refuses what is not the page's own", async () => {
      const tried = await page.run(async () => {
        const isRefused = async (work) => {
          try {
            await work();
            return false;
          } catch {
            return true;
          }
        };
        const script = document.createElement("script");
        script.textContent = "document.title = 'ran'";
        document.body.append(script);
        const image = document.createElement("img");
        image.setAttribute("onerror", "document.title = 'ran'");
        image.src = "data:,x";
        document.body.append(image);
        setTimeout("document.title = 'ran'");
        await new Promise((resolve) => setTimeout(resolve, 200));
        return [await isRefused(() => fetch("data:,x")), [...globalThis.refused], document.title];
      });
      assert.deepEqual(tried, [true, ["script-src-elem inline", "script-src-attr inline", "script-src eval"], "Chant scores in GABC"]);
    });
  });
}
