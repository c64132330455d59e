// What the numbers of a node say, in words (docs/FORMATS.md, The tree).

const PITCHES = "abcdefghijklmnp";
const DEGREES = ["ut", "re", "mi", "fa", "sol", "la", "si"];
const POSITIONS = ["a word of one syllable", "begins a word", "within a word", "ends a word"];
const STYLES = ["bold", "colour", "elision", "italic", "small capitals", "teletype", "underlined", "in the centre"];
const SPAN_MARKS = ["begins eu", "ends eu", "begins nlba", "ends nlba"];
const SHAPES = [
  ...["punctum", "inclinatum", "virga", "bivirga", "trivirga", "virga reversa", "stropha", "distropha", "tristropha", "oriscus", "oriscus scapus"],
  ...["quilisma", "quilisma quadratum", "quadratum", "cavum", "lined", "linea"],
];
const BASES = [
  ...["pes", "clivis", "torculus", "porrectus", "scandicus", "scandicus flexus", "torculus resupinus", "porrectus flexus", "torculus resupinus flexus"],
  ...["climacus", "inclinata"],
];
const FIRST_SHAPE = 16;
const TAILS = ["", " subpunctis", " subpunctis resupinus"];
const ALTERATIONS = ["", "flat", "natural", "sharp"];
const BARS = ["virgula", "minimis", "minima", "minor", "maior", "finalis"];
const SPACINGS = ["small gap", "medium gap", "half a gap within a neume", "small gap within a neume", "gap by a factor", "no gap", "blanks"];
const LIQUESCENCES = ["", "liquescent", "augmented liquescent", "diminished liquescent"];
const MORAE = ["", "mora", "two morae", "three morae or more"];
const ICTUS = ["", "ictus", "ictus over it", "ictus under it"];
const SIZES = ["", "small at the left", "small in the centre", "small at the right"];
const OVER_STAFF = ["accent", "grave accent", "circle", "lower arc", "upper arc", "flat", "natural", "sharp"];
const ORIENTATIONS = ["", "turned down", "turned up"];
const FUSIONS = ["fusion", "begins a fused group", "ends a fused group"];
const LETTERS = { E: 1, W: 2, F: 3 };

/** Returns the values of the parts of a number that lie one above the other, of these `widths` in bits. */
function partsOf(number, ...widths) {
  let left = number;
  return widths.map((width) => {
    const part = left & ((1 << width) - 1);
    left >>= width;
    return part;
  });
}

const namesOf = (bits, names) => names.filter((_, i) => (bits >> i) & 1);
const count = (number, one) => `${number} ${one}${number === 1 ? "" : "s"}`;

/** Returns the code with this number, such as `E1` for 101. */
export function codeOf(number) {
  const letter = Object.keys(LETTERS).find((it) => LETTERS[it] === Math.floor(number / 100));
  return letter && `${letter}${number % 100}`;
}

/** Returns the number of a code. */
export const numberOf = (code) => 100 * LETTERS[code[0]] + Number(code.slice(1));

function signsOfNote([a, b, c]) {
  const [height, over, isHollow, hasLines, orientation] = partsOf(a, 4, 8, 1, 1, 2);
  const [shape, liquescence, morae, ictus, size, isAlone] = partsOf(b, 5, 2, 2, 2, 2, 1);
  const [degree, alteration, isDebilis, begins, ...covered] = partsOf(c, 3, 2, 1, 1, 3, 3, 3);
  const episemata = covered.map((notes, side) => notes && `episema${["", " over", " under"][side]}${notes > 1 ? ` on ${notes} notes` : ""}`);
  return [
    `height ${PITCHES[height]}`,
    DEGREES[degree] ?? "before any clef",
    alteration && `${ALTERATIONS[alteration]} in force`,
    SHAPES[shape],
    isHollow && "hollow",
    hasLines && "with lines",
    isDebilis && "initio debilis",
    LIQUESCENCES[liquescence],
    ORIENTATIONS[orientation],
    MORAE[morae],
    ICTUS[ictus],
    ...episemata,
    SIZES[size],
    isAlone && "not bridged",
    ...namesOf(over, OVER_STAFF).map((it) => `${it} over the staff`),
    begins && "begins an element",
  ];
}

function kindOfGlyph(base, tail) {
  const name = BASES[base] ?? SHAPES[base - FIRST_SHAPE];
  // The inclinata of a climacus are its own.
  return name + (name === "climacus" ? TAILS[tail].replace(" subpunctis", "") : TAILS[tail]);
}

const clefOf = (isF, hasFlat, line) => `${isF ? "f" : "c"} on line ${line}${hasFlat ? ", with a flat" : ""}`;

function joinedClef(number) {
  const [isThere, isF, hasFlat, line] = partsOf(number, 1, 1, 1, 3);
  return isThere && `joined with ${clefOf(isF, hasFlat, line)}`;
}

const beginsElement = (c) => c & 64 && "begins an element";
const ofText = ([a]) => namesOf(a, STYLES);
const ofCode = ([a]) => [a && codeOf(a)];
const letterOf = (number) => number && `letter ${String.fromCharCode(number)}`;

// By kind, what the three numbers of a node say. Kinds that say nothing are not here.
const WORDS = {
  file: (_, { end }) => [count(end, "byte")],
  header: ofCode,
  headerLeftOut: ofCode,
  leftOut: ofCode,
  unread: ofCode,
  syllable: ([a, b]) => [POSITIONS[a], b & 1 && "within eu", b & 2 && "within nlba"],
  characters: ofText,
  escape: ofText,
  textBlank: (values) => [...ofText(values), values[1] && "kept in the text"],
  raw: (values) => [...ofText(values), ["verbatim", "special character", "text above the lines"][values[1]]],
  tag: (values) => ["not known", ...ofText(values)],
  spanMark: (values) => [SPAN_MARKS[values[1]], ...ofText(values)],
  styleTag: ([, b, c]) => [`${c ? "ends" : "begins"} ${STYLES[b]}`],
  brace: ([, b]) => [`${b ? "ends" : "begins"} the centre`],
  translation: ([, b]) => [!b && "does not count"],
  snippet: ([a]) => [a ? `NABC, line ${a}` : "notes"],
  glyph: ([a, b, c]) => [kindOfGlyph(a, b), count(c, "note")],
  note: signsOfNote,
  alteration: ([a, b, c]) => [`height ${PITCHES[a]}`, ALTERATIONS[b], c & 1 && "with ?", c & 2 && "of the other form", beginsElement(c)],
  clef: ([a, b, c]) => [clefOf(a & 1, a & 2, b), joinedClef(c)],
  bar: ([a, b]) => [BARS[a], b && `with ${b - 1}`],
  spacing: ([a, , c]) => [SPACINGS[a], beginsElement(c)],
  custos: ([a]) => [a === 15 ? "by itself" : `height ${PITCHES[a]}`],
  lineBreak: ([a, b]) => [a ? "ragged" : "justified", ["", "with a custos", "without a custos"][b]],
  attribute: ([a, , c]) => [a && `calls macro ${a - 1}`, beginsElement(c)],
  fusion: ([a, , c]) => [FUSIONS[a], beginsElement(c)],
  nabcGlyph: ([a, b, c]) => [String.fromCharCode(a, b), c && `height ${PITCHES[c - 1]}`],
  nabcPoints: ([a, b, c]) => [a ? "prepunctis" : "subpunctis", letterOf(b), count(c, "point")],
  nabcLetters: ([a, , c]) => [a ? "Tironian" : "significant", `at place ${c}`],
};

/** Returns what the numbers of a node say. */
export const numbersOf = (node) => (WORDS[node.kind]?.(node.values, node) ?? []).filter(Boolean).join(", ");

/** Returns the name of a kind: `header name` for `headerName`. */
export const nameOf = (kind) => kind.replace(/[A-Z]/g, (it) => ` ${it.toLowerCase()}`).replace("nabc", "NABC");
