// Makes the runs of the tables, and their trees, in Chromium and in Firefox, in a page and in a worker of it, under a policy that allows no more than the package needs.

import assert from "node:assert/strict";
import { existsSync, readFileSync } from "node:fs";
import { test } from "node:test";

import { tree } from "gregorio-chant";
import { BROWSERS, Browser } from "./browsers.mjs";
import { numbersOf, runsOf } from "./cases.mjs";
import { PACKAGE, POLICY, pageOf, serve } from "./server.mjs";

const TABLES = ["rows", "canonical", "canonical_w12", "nabc_lines", "dump", "dump2"];

// What the page and the worker run: each answers which runs came out otherwise.
const TRIAL = `import { compile, tree } from "${PACKAGE}src/browser.js";
const numbersOf = ${numbersOf};
export async function trial() {
  const runs = await (await fetch("/runs.json")).json();
  const wrong = runs.filter(({ input, options, output, messages, numbers }) => {
    const score = Uint8Array.from(input);
    const made = compile(score, options);
    return made.output !== output || made.messagesText !== messages || numbersOf(tree(score)) !== numbers;
  });
  return { count: runs.length, wrong: wrong.map((it) => it.place) };
}`;
const WORKER = 'import { trial } from "/trial.mjs"; trial().then(postMessage, (error) => postMessage(String(error)));';
const PAGE = `import { trial } from "/trial.mjs";
const worker = new Worker("/worker.mjs", { type: "module" });
const ofWorker = new Promise((resolve, reject) => Object.assign(worker, { onmessage: (it) => resolve(it.data), onerror: (it) => reject(it.message) }));
globalThis.answer = Promise.all([trial(), ofWorker]);`;

/** Returns what the page of the README writes, once it does. */
async function written() {
  while (!document.body.textContent.includes("%%\nA(f)")) await new Promise((resolve) => setTimeout(resolve, 20));
  return document.body.textContent;
}

/** Returns the answers, once they are there. */
async function answers() {
  while (globalThis.answer === undefined) await new Promise((resolve) => setTimeout(resolve, 20));
  return globalThis.answer;
}

const runs = TABLES.flatMap(runsOf).filter((it) => it.hasUsualLimits && !it.isBroken);
const TEXTS = {
  "/": [...pageOf('<title>trial</title><script type="module" src="/page.mjs"></script>'), POLICY],
  "/page.mjs": ["text/javascript", PAGE],
  "/worker.mjs": ["text/javascript", WORKER, POLICY],
  "/trial.mjs": ["text/javascript", TRIAL],
  "/runs.json": ["application/json", JSON.stringify(runs.map((it) => ({ ...it, input: [...it.input], numbers: numbersOf(tree(it.input)) })))],
};

// The page of the README, if the trial has put it here.
const OF_README = "page.html";

const contentOf = (path) => (path === "/of-readme" ? pageOf(`<body>${readFileSync(OF_README)}`) : TEXTS[path]);

/** Opens a page of the server in a browser, and returns what a function finds on it. */
async function found(kind, path, look) {
  const server = await serve(contentOf);
  const browser = await Browser.start(kind, process.cwd());
  try {
    await browser.open(`${server.address}${path}`);
    return await browser.run(look);
  } finally {
    await browser.end();
    server.end();
  }
}

for (const kind of BROWSERS) {
  test(`the tables in ${kind.name}`, { skip: kind.lacks, timeout: 600_000 }, async () => {
    const wanted = { count: runs.length, wrong: [] };
    assert.deepEqual(await found(kind, "/", answers), [wanted, wanted]);
  });

  const lacks = kind.lacks || (!existsSync(OF_README) && "the page of the README is not here");
  test(`the page of the README in ${kind.name}`, { skip: lacks, timeout: 300_000 }, async () => {
    assert.equal(await found(kind, "/of-readme", written), "%%\nA(f)\n");
  });
}
