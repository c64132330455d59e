// Edits of a score at random, the same ones each time.

const PARTS = ["(", ")", "[", "]", "{", "}", "<", ">", "|", "$", "%", ":", ";", "\n", " ", "'", ".", "~", "_", "a", "f", "g", "x", "4", "é", "𝄞", "\ud834", "\ufeff", "\u2028"];
const WORDS = ["Ky(f)ri(gh)e(g.)", "<i>", "</i>", "(c4)", "::", "{a}", "[one]", "%%\n", "mode: 1;\n", "(f|vi)", "<sp>V/</sp>", "$("];

function draws() {
  let state = 2463534242;
  return (most) => {
    state ^= state << 13;
    state ^= state >>> 17;
    state ^= state << 5;
    return (state >>> 0) % most;
  };
}

/** Returns `count` edits, `inPart` of them in a part: each with its range, its new text, and the `whole` after it. Each part begins anew with `score`. */
export function editsOf(score, count, inPart) {
  const draw = draws();
  return Array.from({ length: count / inPart }, () => {
    let whole = score;
    const edits = Array.from({ length: inPart }, () => {
      const at = draw(whole.length + 1);
      const end = Math.min(at + (draw(3) ? 0 : draw(6)), whole.length);
      const parts = draw(4) ? PARTS : WORDS;
      const text = draw(5) ? parts[draw(parts.length)] : "";
      whole = whole.slice(0, at) + text + whole.slice(end);
      return { at, end, text, whole };
    });
    return [{ whole: score }, ...edits];
  });
}
