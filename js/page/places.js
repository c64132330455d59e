// Places in a text: as its field counts them (in units, of which a character outside the first 65,536 has two), as bytes of its UTF-8, and as lines and columns.

// What a unit is not a byte at, and the ends of lines.
const STOP = /[^\x00-\x7f]|\n/gu;
const SILENT = "\ufeff";
// The units that are no column: the second ones of characters that have two, and what is silent.
const UNCOUNTED = /(?<=[\ud800-\udbff])[\udc00-\udfff]|\ufeff/g;

const bytesIn = (code) => (code < 0x800 ? 2 : code < 0x10000 ? 3 : 4);

/** Returns the index of the last of `numbers`, which rise, that is at most `most`; -1 if there is none. */
function lastAtMost(numbers, most) {
  let [from, to] = [0, numbers.length];
  while (from < to) {
    const middle = (from + to) >> 1;
    if (numbers[middle] <= most) from = middle + 1;
    else to = middle;
  }
  return from - 1;
}

export class Places {
  #text;
  #lines = [0];
  // Where each character that is not ASCII ends.
  #units = [0];
  #bytes = [0];
  // The place that was asked for last.
  #last = { line: 1, column: 1, unit: 0 };

  constructor(text) {
    this.#text = text;
    for (const { 0: it, index } of text.matchAll(STOP)) {
      if (it === "\n") this.#lines.push(index + 1);
      else {
        this.#bytes.push(this.byteAt(index) + bytesIn(it.codePointAt(0)));
        this.#units.push(index + it.length);
      }
    }
  }

  /** Returns the unit at which this byte begins. */
  unitAt(byte) {
    const i = lastAtMost(this.#bytes, byte);
    return Math.min(this.#units[i] + byte - this.#bytes[i], this.#units[i + 1] ?? this.#text.length);
  }

  /** Returns the byte with which this unit begins. */
  byteAt(unit) {
    const i = lastAtMost(this.#units, unit);
    return this.#bytes[i] + unit - this.#units[i];
  }

  /** Returns the line and the column of a unit, from 1, as messages have them: a column for each character but U+FEFF. */
  placeOf(unit) {
    const line = lastAtMost(this.#lines, unit);
    const before = this.#text.slice(this.#lines[line], unit);
    const uncounted = before.match(UNCOUNTED)?.length ?? 0;
    return { line: line + 1, column: before.length - uncounted + 1 };
  }

  /** Returns the unit at this line and column. What is past the end is the end. */
  unitOf({ line, column }) {
    const past = this.#lines[line] ?? this.#text.length;
    // Places are mostly asked for in their order, and a line may be long.
    const isAhead = this.#last.line === line && this.#last.column <= column;
    let { column: reached, unit } = isAhead ? this.#last : { column: 1, unit: this.#lines[line - 1] ?? past };
    while (unit < past && (reached < column || this.#text[unit] === SILENT)) {
      if (this.#text[unit] !== SILENT) reached += 1;
      unit += this.#text.codePointAt(unit) > 0xffff ? 2 : 1;
    }
    this.#last = { line, column: reached, unit };
    return unit;
  }
}

/** Returns where two texts differ: the unit at which that begins, and those at which it ends in each of them. */
export function editBetween(before, after) {
  const most = Math.min(before.length, after.length);
  let begin = 0;
  while (begin < most && before[begin] === after[begin]) begin += 1;
  let same = 0;
  while (same < most - begin && before.at(-1 - same) === after.at(-1 - same)) same += 1;
  return { begin, end: before.length - same, newEnd: after.length - same };
}

/** Returns where a range of units stands after an edit; `undefined` if the edit changed what is in it. */
export function movedBy({ begin, end, newEnd }, range) {
  if (range.end <= begin) return range;
  if (range.begin < end) return undefined;
  return { ...range, begin: range.begin + newEnd - end, end: range.end + newEnd - end };
}
