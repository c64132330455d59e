"""The shapes of scores that `tools/bench` counts instructions of: what a score begins with, and
what is repeated."""

from __future__ import annotations

import glob
import os
import re
from collections.abc import Iterator

from house.files import read

HEAD = "name: x;\n%%\n"
WITH_CLEF = HEAD + "(c4) "
WITH_NABC = "name: x;\nnabc-lines: 1;\n%%\n"
SPANS = {
    "plain": (
        WITH_CLEF,
        "Ky(f)ri(gfg)e(e.) *() e(h)lé(ixhi)i(hg)son.(g.) (;)"
        " Chri(k)ste(jji) e(h)lé(fgh)i(g)son.(e.) (::)\n",
    ),
    "canonical": (HEAD + "(c4)", "\nKy(f)ri(gfg)e(e.)\n*()\ne(h)lé(ixhi)i(hg)son.(g.)\n(;)"),
    "styles": (
        WITH_NABC + "(c4) ",
        "<i>Ky</i>(f|pu)ri[t](gfg|po)e(e.|vi) <b>e</b>lei(hg|cl)son(g.|ta) (::)\n",
    ),
    "NABC": (WITH_NABC + "(c4)", "a(f|pehgpu/vi!ta)"),
    "long words": (HEAD + "(c4)", "a" * 40 + "(f) "),
    "notes": (HEAD + "(c4)", "a(" + "fgh.ihg_" * 30 + ") "),
    "(f)": (HEAD + "(c4)", "(f)"),
    "()": (HEAD + "(c4)", "()"),
    "two bytes": (HEAD, "é(f)æ(g) "),
    "three bytes": (HEAD + "(c4)", "\u1e37(f)\u201eo\u2014(g) "),
    "tags": (HEAD, "<b>a</b>(f)<i>b</i>(g) "),
    "styled": (HEAD, "<i>abc</i>d(f) "),
    "$a": (HEAD, "$a(f)"),
    "bars": (HEAD, "(::) (:) (,) (;1) "),
    "bars, clef": (WITH_CLEF, "(::) (:) (,) (;1) "),
    "attributes": (HEAD, "a([nv:\\x]f[cs:y]) "),
    "alterations": (HEAD, "a(ixhi)(gyg) "),
    "comments": (HEAD, "a(f)%comment here\n"),
    "<eu>": (HEAD, "<eu>a(f)</eu>(g) "),
    "centres": (HEAD, "a{b}c(f) "),
    "translations": (HEAD, "a[x y](f) "),
}


def shape(kind: str, size: int) -> bytes:
    """Returns a score of this shape of about `size` bytes."""
    return repeated(*SPANS[kind], size)


def repeated(head: str, part: str, size: int) -> bytes:
    """Returns a score of about `size` bytes that begins so, and repeats the part."""
    return (head + part * max(1, (size - len(head)) // len(part.encode()))).encode()


def joined(folder: str, lines: int, size: int) -> bytes:
    """Returns the bodies of the scores in `folder` with this number of NABC lines, one after
    another, as often as `size` bytes take; nothing, if there are none."""
    bodies = "".join(bodies_in(folder, lines))
    return repeated(WITH_NABC if lines else HEAD, bodies, size) if bodies else b""


def syllables_of(folder: str, lines: int) -> list[str]:
    """Returns the syllables of the scores in `folder` with this number of NABC lines, each once,
    with what stands before its text."""
    found = (re.findall(r"[^()]*\([^()]*\)", body) for body in bodies_in(folder, lines))
    return list(dict.fromkeys(it for some in found for it in some))


def bodies_in(folder: str, lines: int) -> Iterator[str]:
    """Yields the bodies of the scores in `folder` with this number of NABC lines."""
    for path in sorted(glob.glob(os.path.join(folder, "*.gabc"))):
        yield from bodies_of(path, lines)


def bodies_of(path: str, lines: int) -> list[str]:
    """Returns the body of the score, if it has this number of NABC lines."""
    text = read(path)
    mark = re.search(r"^%%\s*\n", text, re.MULTILINE)
    if not mark:
        return []
    given = re.search(r"^nabc-lines:\s*(\d)", text[: mark.start()], re.MULTILINE)
    is_wanted = int(given[1] if given else 0) == lines
    return [text[mark.end() :].rstrip("\n") + "\n"] if is_wanted else []
