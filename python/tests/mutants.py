"""Scores that are damaged at random: cut, with parts moved, and with what a reader of GABC has to
take apart put anywhere. A seed gives the same ones again."""
from __future__ import annotations

import random
from collections.abc import Iterator, Sequence

_PARTS = (
    "%",
    "%x\n",
    "\r",
    "\r\n",
    "\ufeff",
    "(",
    ")",
    "|",
    "{",
    "}",
    "<i>",
    "</i>",
    "<b>",
    "<v>",
    "</v>",
    "<sp>'ae</sp>",
    "<eu>",
    "</eu>",
    "<nlba>",
    "</nlba>",
    "[",
    "]",
    "[alt]",
    "$",
    "$(",
    "$%",
    "<q>",
    " ",
    "  ",
    "\n",
    "\t",
    "@",
    "@[",
    "[nm1]",
    "f'",
    "x",
    "cb3",
    "c4@f2",
    "::",
    "`",
    "/",
    "/[2]",
    "!",
    "z0",
    "z",
    "Z-",
    "g+",
    "-f",
    "fxf",
    "f#",
    "g__h",
    "hr1r5",
    "vi",
    "!cl",
    "ppt1",
    "lsa2",
    "-",
    "q",
    "w",
    "é",
    "\u4e2d",
    "\0",
    ";;",
    ":",
    "(f|vi)",
    "()",
    "(%c\nf)",
    "(f%c\n.)",
    "(\ufefff\ufeff)",
    "(f\r\ng)",
    "<",
    ">",
    "<v>%</v>",
    "<alt>a b</alt>",
    "nabc-lines: 1;\n",
    "nabc-lines: 2;\n",
)
_HEADERS = (
    "nabc-lines: 1;\n",
    "nabc-lines: 2;\n",
    "nabc-lines: 9;\n",
    "name: a;\n",
    "name:\n b %c\n c;;\n",
    ": b;\n",
    "x\n",
    "%c\n",
    "\n",
)
_NO_UTF8 = (b"\xff", b"\xc3", b"\xed\xa0\x80")
_HOW_OFTEN = (1, 1, 2, 3, 5, 12)


def _edited(drawn: random.Random, text: str) -> str:
    """Returns `text` with one edit: a part put in, some characters taken out, or a piece of the
    text put in again."""
    at, which = drawn.randrange(len(text) + 1), drawn.random()
    if which < 0.6:
        return text[:at] + drawn.choice(_PARTS) + text[at:]
    if which < 0.8:
        return text[:at] + text[at + drawn.choice((1, 1, 2, 5)) :]
    begin = drawn.randrange(len(text) + 1)
    return text[:at] + text[begin : begin + drawn.randrange(1, 30)] + text[at:]


def _bent(drawn: random.Random, score: bytes) -> bytes:
    """Returns `score` as it is, or with bytes that are no UTF-8, or with other line ends."""
    if drawn.random() < 0.05:
        at = drawn.randrange(len(score) + 1)
        score = score[:at] + drawn.choice(_NO_UTF8) + score[at:]
    if drawn.random() < 0.1:
        score = score.replace(b"\n", drawn.choice((b"\r\n", b"\r")))
    return score


def mutants(scores: Sequence[bytes], count: int, seed: int) -> Iterator[bytes]:
    """Yields `count` scores, each one of `scores` that is damaged."""
    for number in range(count):
        drawn = random.Random(f"{seed}.{number}")
        text = drawn.choice(scores).decode("utf-8", "ignore")
        if drawn.random() < 0.2:
            text = drawn.choice(_HEADERS) + text
        if drawn.random() < 0.4:
            at = drawn.randrange(len(text) + 1)
            text = text[:at] + text[at + drawn.randrange(400) :]
        for _ in range(drawn.choice(_HOW_OFTEN)):
            text = _edited(drawn, text)
        yield _bent(drawn, text.encode())
