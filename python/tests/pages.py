"""The blocks of code of the pages, each with the mark that stands before it, as `<!-- test: NAME
-->`."""
from __future__ import annotations

import re
from dataclasses import dataclass
from textwrap import dedent

from support import ROOT

_PIECES = re.compile(
    r"""
    ^```(?P<language>\w*)\n(?P<fenced>(?:.*\n)*?)```\n
    | ^[ ]*<!--[ ](?P<mark>.*?)[ ]-->\n
    | ^(?P<indented>[ ]{4}.*\n(?:\n*[ ]{4}.*\n)*)
    | ^(?P<words>(?:.*\S.*\n)+)""",
    re.MULTILINE | re.VERBOSE,
)


@dataclass
class Block:
    """A block of a page: its place, its language where it is fenced, its mark, what stands in it,
    and the paragraphs before and after it."""

    place: str
    language: str
    mark: str
    text: str
    words: str


def pages() -> list[str]:
    """Returns the names of all pages, from the top of the repository on."""
    return sorted(
        str(it.relative_to(ROOT)) for pattern in ("*.md", "*/*.md") for it in ROOT.glob(pattern)
    )


def blocks_of(page: str) -> list[Block]:
    """Returns the blocks of a page, in order."""
    text = (ROOT / page).read_text(encoding="utf-8")
    blocks: list[Block] = []
    words = mark = before = ""
    for piece in _PIECES.finditer(text):
        kind = kind_of(piece)
        if kind == "words":
            words = piece["words"]
            if before in ("fenced", "indented"):
                blocks[-1].words += words
        elif kind == "mark":
            mark = piece["mark"]
        else:
            place = f"{page}:{text.count(chr(10), 0, piece.start()) + 1}"
            blocks.append(
                Block(
                    place,
                    piece["language"] or "",
                    mark if before == "mark" else "",
                    dedent(piece[kind]),
                    words,
                )
            )
        before = kind
    return blocks


def kind_of(piece: re.Match[str]) -> str:
    """Returns what a piece of a page is: `fenced`, `mark`, `indented` or `words`."""
    return next(it for it in ("fenced", "mark", "indented", "words") if piece[it] is not None)


def block(page: str, mark: str) -> str:
    """Returns what stands in the block of `page` with this mark."""
    (found,) = (it.text for it in blocks_of(page) if it.mark == mark)
    return found


def for_this_place(lines: str) -> str:
    """Returns lines of a page that set up an editor, for the files of the repository."""
    return lines.replace("/usr/share/gregorio-chant", str(ROOT))
