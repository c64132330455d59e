"""Scores made by hypothesis: whole ones and broken ones, with comments, line ends and marks at each
place where they may stand."""
from __future__ import annotations

import re

from hypothesis import strategies as st

_MARK = "\ufeff"
_HEADERS = (
    "name: Kyrie;",
    "name:Kyrie ;",
    " name :  Ky  rie;;",
    "mode: 1;",
    "mode:2; % of eight",
    "mode: 3; ;",
    "mode:4;%c",
    "annotation: a;",
    "annotation:b;;",
    "book:a\n b ;;",
    "book:\n\na; % no comment\n\nb;; % c",
    "commentary:\n Sat. 1;;",
    "transcriber:;",
    "transcriber:;;;  ",
    "office-part Kyriale;",
    ": none;",
    "nabc-lines: 1;",
    "nabc-lines:2;",
    "nabc-lines: 7;",
    "def-m1:\\grecross;",
    "\u00e9crit: \u8056\u6b4c % not;",
    "x: a:b$c<i>;",
    "y: ;z",
    "user-notes: a\u0301;",
    "% a comment",
    "  % a  comment ",
    "%",
    " %% indented",
    "",
    "  ",
    "\t",
)
_FIRST_LINES = ("%%", "%% ", "%%(", "%% a comment  ", "%%%", "%%\t;")
_TEXTS = (
    "Ky",
    "ri",
    "e",
    "\u00e9",
    "\U0001d11e",
    "a\u0301",
    " ",
    "  ",
    "\n",
    "\n\n",
    "\n\n\n",
    " \t\n ",
    "*",
    "-",
    ";",
    "|",
    "\v",
    "\u00a0",
    "<i>",
    "</i>",
    "<b>",
    "</b>",
    "<sc>",
    "</sc>",
    "<e>",
    "</e>",
    "<i></i>",
    "<eu>",
    "</eu>",
    "<nlba>",
    "</nlba>",
    "<it>",
    "<clear>",
    "<sp>R/</sp>",
    "<v>\\a(b)%</v>",
    "<alt>a\n[b]</alt>",
    "{",
    "}",
    "{}",
    "[Lord]",
    "[a\n b%]",
    "[]",
    "$(",
    "$%",
    "$$",
    "$",
    "$*",
    "$<",
    "$ ",
    ")",
    "]",
    ">",
    " % c\n",
    "% c  c\n",
    "%\n",
    "%%\n",
    "\n% a line\n",
    "\n  % one\n\n\n% two\n",
    "% gregorio: ignore E\n",
)
_NOTES = (
    "f",
    "g",
    "gfg",
    "hi",
    "F",
    "-f",
    "-",
    "f.",
    "g_'",
    "hv",
    "j~",
    "ix",
    "iy",
    "c4",
    "cb3",
    "f3@c2",
    ",",
    ";",
    ":",
    "::",
    "`",
    "/",
    "//",
    "/0",
    "!",
    " ",
    "\n",
    "  ",
    "z",
    "Z+",
    "z0",
    "f+",
    "@",
    "@[",
    "]",
    "[nm1]",
    "[cs:a)|%\n]",
    "/[2]",
    "&",
    "5",
    "q",
    "X",
    "o",
    "$",
    "<",
    "%c\n",
    "% )(\n",
    "%\n",
    "|",
    "|",
    "pe",
    "pesu2",
    "un1",
    "ci lsa2",
)


def _joined(words: tuple[str, ...], most: int) -> st.SearchStrategy[str]:
    return st.lists(st.sampled_from(words), max_size=most).map("".join)


_SYLLABLES = st.builds(
    "{}({}){}".format,
    _joined(_TEXTS, 4),
    _joined(_NOTES, 5),
    st.sampled_from(("", "", " ", " ", "\n", "\n\n", " % c\n")),
)
_LAST = st.one_of(
    st.sampled_from(("", "", "\n", "\n\n\n", "  ", " % c", "% c\n")), _joined(_TEXTS, 3)
)
_TEXT = st.builds(
    "{}{}\n{}{}".format,
    st.lists(st.sampled_from(_HEADERS), max_size=6).map(
        lambda lines: "".join(f"{it}\n" for it in lines)
    ),
    st.sampled_from(_FIRST_LINES),
    st.lists(_SYLLABLES, max_size=7).map("".join),
    _LAST,
)


def _with_ends(text: str, ends: list[str], mark: str, inner: int | None) -> bytes:
    """Returns the text with these line ends in turn, a mark before it, and one at a place
    inside."""
    numbers = iter(range(len(text)))
    text = re.sub("\n", lambda _: ends[next(numbers) % len(ends)], text)
    if inner is not None:
        at = inner % (len(text) + 1)
        text = text[:at] + _MARK + text[at:]
    return (mark + text).encode()


_ENDS = st.sampled_from(
    (["\n"], ["\n"], ["\n"], ["\r\n"], ["\r\n"], ["\r"], ["\n", "\r\n"], ["\r", "\n", "\r\n", "\n"])
)
SCORES = st.builds(
    _with_ends,
    _TEXT,
    _ENDS,
    st.sampled_from(("", "", "", _MARK)),
    st.one_of(st.none(), st.none(), st.none(), st.integers(0, 200)),
)
