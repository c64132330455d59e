// Draws the scores of all tables and the examples: each picture is well-formed and stands alone, and has a head for each note of the score's tree.

import assert from "node:assert/strict";
import { readFileSync, readdirSync } from "node:fs";
import { test } from "node:test";

import { draw, tree } from "gregorio-chant";
import { NEUMES, NEUMES_NOTICE } from "gregorio-chant/neumes";
import { LICENCE, NOTICE, OUTLINES } from "gregorio-chant/outlines";
import { DATA, runsOf } from "./cases.mjs";

const TABLES = ["rows", "canonical", "canonical_w12", "nabc_lines", "dump2"];
const TAG = /<(\/?)([a-z]+)((?: [A-Za-z:-]+="[^"<]*")*)(\/?)>/y;
const TEXT = /(?:[^<>&]|&(?:amp|lt|gt|quot);)+/y;
// What a family of joined outlines has in its name beside its steps: a stroke shows two notes.
const JOINED = /^[a-z-]+-([0-9]{3})(?:-debilis)?(?:-deminutus|-ascendens|-descendens)?$/;
// The names of outlines that show no note.
const SIGNS =
  /^(c-clef|f-clef|flat|natural|sharp|custos-up|custos-down|mora|tail-up|tail-down|virgula|accent|grave|circle|lower-arc|upper-arc|brace|bracket-left|bracket-right)$/;
// What begins the names of outlines of NABC.
const OF_NABC = /^(stgall|laon)-/;

/** Looks whether `svg` is one element of XML, and returns the tags that begin in it. */
function tagsOf(svg, place) {
  const tags = [];
  const open = [];
  for (let at = 0; at < svg.length; ) {
    TAG.lastIndex = TEXT.lastIndex = at;
    const found = TAG.exec(svg);
    const length = found ? found[0].length : (TEXT.exec(svg)?.[0].length ?? 0);
    assert.ok(length > 0, `${place}: no XML: ${svg.slice(at, at + 60)}`);
    if (found?.[1]) assert.equal(open.pop(), found[2], place);
    else if (found) tags.push({ name: found[2], attributes: found[3] });
    if (found && !found[1] && !found[4]) open.push(found[2]);
    at += length;
    assert.ok(open.length > 0 || at === svg.length, `${place}: more than one element`);
  }
  assert.deepEqual(open, [], place);
  return tags;
}

/** Returns how many notes an outline shows. */
function notesIn(name) {
  if (SIGNS.test(name) || OF_NABC.test(name)) return 0;
  if (name.startsWith("stroke-")) return 2;
  const steps = JOINED.exec(name)?.[1];
  return steps ? 1 + steps.replaceAll("0", "").length : 1;
}

const hrefOf = ({ attributes }) => / href="#([^"]*)"/.exec(attributes)[1];

// How often a note sounds by the number of its shape, if that is not once: bivirga and distropha, trivirga and tristropha.
const TIMES = { 3: 2, 7: 2, 4: 3, 8: 3 };
const ofKind = (score, kind) => [...tree(score)].filter((it) => it.kind === kind);
const soundsOf = (score) => ofKind(score, "note").reduce((sum, { values: [, b] }) => sum + (TIMES[b % 32] ?? 1), 0);

/** Returns the text of each element of this name. */
const textsOf = (svg, name) => Array.from(svg.matchAll(new RegExp(`<${name}[^>]*>([^<]*)<`, "g")), ([, text]) => text);

/** Returns the bytes of the syllables that the groups of a picture name. One that goes on in another row has a group in each, and what belongs to no syllable is named 0 to 0. */
function bytesOf(tags) {
  const groups = tags.map(({ attributes }) => /^ class="syllable" data-begin="(\d+)" data-end="(\d+)"/.exec(attributes)).filter(Boolean);
  return [...new Set(groups.map(([, begin, end]) => `${begin} ${end}`))].filter((it) => it !== "0 0");
}

/** Looks at the picture of a score, and returns how many heads it has. */
function looksAt(score, place) {
  const tags = tagsOf(draw(score), place);
  const uses = tags.filter((it) => it.name === "use").map(hrefOf);
  const paths = tags.filter((it) => it.name === "path").map(({ attributes }) => / id="([^"]*)"/.exec(attributes)[1]);
  assert.deepEqual(paths, [...new Set(uses)].sort(), place);
  const notes = uses.map(notesIn).reduce((sum, it) => sum + it, 0);
  assert.equal(notes, soundsOf(score), place);
  assert.deepEqual(bytesOf(tags), ofKind(score, "syllable").map(({ begin, end }) => `${begin} ${end}`), place);
  return notes;
}

for (const table of TABLES) {
  test(`pictures of ${table}`, () => {
    for (const { input, place } of runsOf(table)) looksAt(input, place);
  });
}

/** Returns the length of what the library draws, in bytes, and its sum by FNV-1a, of 32 bits: of a picture without its size and its outlines. */
function sumOf(svg) {
  const drawn = Buffer.from(svg.replace(/^<svg width="[^"]*" height="[^"]*"/, "<svg").replace(/<metadata>.*?<rect class="paper"[^>]*>/s, ""));
  return `${drawn.length} ${drawn.reduce((sum, byte) => Math.imul(sum ^ byte, 16777619) >>> 0, 2166136261)}`;
}

test("the pictures of the library for C", { skip: !process.env.GREGORIO_TABLE && "there is no table of it" }, () => {
  const runs = runsOf(process.env.GREGORIO_TABLE).filter((it) => it.picture);
  assert.ok(runs.length > 1000);
  for (const { input, picture, place } of runs) assert.equal(sumOf(draw(input)), picture, place);
});

test("pictures of the example scores", () => {
  const names = readdirSync(DATA).filter((name) => name.endsWith(".gabc"));
  const notes = names.map((name) => looksAt(readFileSync(`${DATA}/${name}`), name));
  assert.ok(notes.length > 5 && notes.every((it) => it > 0), String(notes));
});

test("hostile text stays text", () => {
  const hostile = `</title></text><script>alert(1)</script><use href="#x"/>&amp;]]>'"`;
  const score = `name: ${hostile};\n%%\n(c4) ${hostile}(g[alt:${hostile}]) <alt>${hostile}</alt>a\u0000\u001b\u202e\ufffe(h)`;
  const svg = draw(score);
  const names = new Set(tagsOf(svg, "hostile").map((it) => it.name));
  assert.deepEqual([...names].filter((it) => !["svg", "title", "metadata", "style", "defs", "path", "rect", "g", "use", "text", "tspan"].includes(it)), []);
  const [title] = textsOf(svg, "title");
  assert.ok(title.includes("&lt;/title&gt;&lt;/text&gt;&lt;script&gt;"), title);
  assert.ok(!svg.includes("#x\"/>") && !/[\u0000-\u0008\u001b\u202e\ufffe]/.test(svg));
  assert.ok(svg.includes("script"));
});

test("a picture stands alone, with its size", () => {
  const svg = draw("name: Kyrie;\n%%\n(c4) Ky(f)ri(gfg)e(e.) (::)", { width: 400 });
  assert.match(svg, /^<svg width="400" height="[0-9.]+" xmlns="http:\/\/www.w3.org\/2000\/svg" [^>]*viewBox="0 0 40000 \d+" class="chant"><title>Kyrie<\/title>/);
  assert.deepEqual([textsOf(svg, "metadata"), /SIL Open Font License/.test(NOTICE), svg.match(/<style>/g).length], [[NOTICE.replaceAll('"', "&quot;")], true, 1]);
  assert.match(draw("%%\n(f)"), /^<svg width="720" /);
});

/** Looks at the names and the paths of outlines. */
function looksAtOutlines(outlines, names) {
  for (const [name, { width, path }] of Object.entries(outlines)) {
    assert.match(name, names);
    assert.match(path, /^[Mm][-+0-9., a-zA-Z]+$/, name);
    assert.ok(width > 0, name);
  }
}

test("each outline has a path and a width, and their licence is told", () => {
  looksAtOutlines(OUTLINES, /^[a-z]+(-[a-z0-9]+)*$/);
  looksAtOutlines(NEUMES, /^(stgall|laon)-[A-Za-z0-9]+$/);
  assert.ok(Object.keys(OUTLINES).length > 500 && Object.keys(NEUMES).length > 800);
  assert.match(LICENCE, /^SIL OPEN FONT LICENSE/);
});

/** Returns a text of a picture without references. */
const unescaped = (text) => text.replaceAll("&quot;", '"').replaceAll("&lt;", "<").replaceAll("&gt;", ">");

/** Returns the outlines of NABC in the picture of a score, in order, and its texts over the staff in small type. */
function nabcOf(score) {
  const svg = draw(score);
  looksAt(score, score);
  const names = Array.from(svg.matchAll(/<use href="#((?:stgall|laon)-[^"]*)"[^>]* class="nabc"/g), ([, name]) => name);
  const texts = Array.from(svg.matchAll(/<text [^>]*font-size="900"[^>]*>([^<]*)</g), ([, text]) => unescaped(text));
  return [...names, ...texts];
}

test("NABC is drawn as neumes, each with what belongs to it", () => {
  const rows = [
    ["vi", ["stgall-vi"]],
    ["cl>", ["stgall-clB"]],
    ["ci~", ["stgall-ciT"]],
    ["to!ci-", ["to!ci-"]],
    ["ql!cl>", ["stgall-qlEclB"]],
    ["pesu2", ["stgall-pesu2"]],
    ["to>ppt5su5", ["stgall-ppt5", "stgall-toB", "stgall-su5"]],
    ["cl>ppt2su1", ["stgall-clBppt2", "stgall-su1"]],
    ["cllsc3lst2", ["stgall-cl", "stgall-lsc", "stgall-lst"]],
    ["sa>1", ["sa>1"]],
    ["zz", ["zz"]],
    ["cl//pelszz3`to", ["stgall-cl", "stgall-to", "pelszz3"]],
    ["un", ["laon-un"]],
    ["unppn1sun2", ["laon-unppn1sun2"]],
    ["unltdo5cl", ["laon-un", "laon-ltdo", "laon-cl"]],
  ];
  for (const [nabc, wanted] of rows) assert.deepEqual(nabcOf(`nabc-lines: 1;\n%%\n(c4) a(f|${nabc})`), wanted, nabc);
  assert.deepEqual(nabcOf("nabc-lines: 1;\n%%\n(f|c% twice\nl\u0001>)"), ["stgall-clB"]);
  assert.deepEqual(nabcOf("nabc-lines: 2;\n%%\n(f|ta-|un)(g|cl|cl)"), ["stgall-taN", "laon-un", "stgall-cl", "laon-cl"]);
});

test("a picture tells whose its outlines are", () => {
  const told = (score) => textsOf(draw(score), "metadata").map(unescaped);
  assert.deepEqual(told("%%\n(f)"), [NOTICE]);
  assert.deepEqual(told("nabc-lines: 1;\n%%\n(f|vi)"), [`${NOTICE} ${NEUMES_NOTICE}`]);
  assert.match(NEUMES_NOTICE, /St\. Gall.*Laon.*SIL Open Font License/s);
});

test("scores and options of other kinds", () => {
  for (const it of [undefined, null, 7, [37, 37], {}, new String("%%")]) assert.throws(() => draw(it), TypeError);
  for (const it of [null, "720", 720, { wide: 720 }, { width: "720" }, { width: null }, { messages: true }, { messages: "some" }]) assert.throws(() => draw("%%", it), TypeError);
  for (const width of [0, 119, -1, NaN, Infinity, 100_001]) assert.throws(() => draw("%%", { width }), RangeError);
  looksAt(new Uint8Array(0), "no bytes");
  looksAt(Uint8Array.of(0x25, 0x25, 0x0a, 0x28, 0x66, 0x29, 0xff), "no UTF-8");
});

test("want of memory is a RangeError, and a later call succeeds", () => {
  assert.throws(() => draw(new Uint8Array(2 ** 32 - 1)), RangeError);
  assert.equal(looksAt("%%\n(f)", "later"), 1);
});

test("messages stand in a picture if they are asked for", () => {
  const score = "%%\n(c4) Ky(f)ri(gfg&)e(e.) (::)\n";
  const codes = (messages) => textsOf(draw(score, { messages }), "text").filter((it) => /^[EWF]\d+$/.test(it));
  assert.deepEqual(codes(undefined), []);
  assert.deepEqual(codes("none"), []);
  assert.deepEqual(codes("errors"), ["E1"]);
  assert.deepEqual(codes("all").sort(), ["E1", "W1"]);
});

test("a picture that its room is too small for is drawn again", () => {
  const score = `%%\n(c4) ${"(f)".repeat(2000)}`;
  const svg = draw(score);
  assert.ok(svg.length > 40 * score.length);
  const heads = tagsOf(svg, "many notes").filter((it) => it.name === "use" && notesIn(hrefOf(it)));
  assert.equal(heads.length, 2000);
});
