"""Lays a score out: each header and syllable in its canonical spelling, and all between them as the
editor put it.

Line ends, comments and a byte order mark stay, and so does which words share a line; of empty lines
in a row one stays, and of blanks one.
"""
from __future__ import annotations

import re
from collections.abc import Iterator
from dataclasses import dataclass

from gregorio_chant.format.parts import marks_end, parts_of
from gregorio_chant.objects.compiled import Compiled

_MARK = "\ufeff"
_BLANKS = " \t"
_LINE_END = re.compile(rb"\r\n|\n|\r")


@dataclass(slots=True)
class _Word:
    """Parts that are written without a blank between them, and what stands before them: blanks,
    line ends and comments."""

    lead: str
    parts: list[str]

    @property
    def text(self) -> str:
        return "".join(self.parts)


def _is_laid_out(data: bytes, text: str) -> bool:
    """Returns whether a score whose lines end with LF is its canonical text but that LF and blank
    are alike after the headers, and but for empty lines between others: then it stays as it is."""
    canonical = text.encode("utf-8")
    begin = canonical.find(b"%%\n") + 3
    if data.endswith(b"\n\n") or b"\n\n\n" in data or not data.startswith(canonical[:begin]):
        return False
    data = data.replace(b"\n\n", b"\n")
    return data.endswith(b"\n") and data.replace(b"\n", b" ") == canonical.replace(b"\n", b" ")


def laid_out(score: Compiled, width: int | None = None) -> bytes:
    """Returns a score that no fatal fault stops as it is laid out. With a `width` a line longer
    than this many characters is broken where words begin."""
    data, found = score.data, _LINE_END.search(score.data)
    line_end = found[0] if found else b"\n"
    if b"\r" in data:
        data = data.replace(b"\r\n", b"\n").replace(b"\r", b"\n")
    if width is None and _is_laid_out(data, score.canonical):
        return data.replace(b"\n", line_end)
    words = _words(score if data is score.data else Compiled(data))
    if width is not None:
        words = _wrapped(words, width)
    text = "".join([f"{it.lead}{it.text}" for it in words])
    return text.encode("utf-8").replace(b"\n", line_end)


def _words(score: Compiled) -> Iterator[_Word]:
    """Yields the words of a score whose lines end with LF, one by one, since a large score has
    millions."""
    data, at = score.data, 0
    marks = marks_end(data)
    word: _Word | None = None
    for part in parts_of(score):
        lead = data[max(at, marks) : part.begin].decode("utf-8")
        space = _spaced(lead) if word else data[:marks].decode("utf-8") + _begin_of_file(lead)
        text = (data[part.begin : part.end] if part.spelling is None else part.spelling).decode()
        if word is None or space:
            if word:
                yield word
            word = _Word(space, [text])
        else:
            word.parts.append(text)
        at = part.end
    if word:
        yield word
    rest = data[at:].decode("utf-8")
    yield _Word(_end_of_file(rest, data.rstrip(b" \t").endswith(b"\n")), [])


def _spaced(lead: str) -> str:
    """Returns blanks, line ends and comments in one spelling: a blank, or each line by itself and
    at most one empty line in a row.

    A comment `%%` keeps a blank before it, since without one it would be the line that ends the
    headers.
    """
    if lead in ("", " ", "\n") or _MARK in lead:
        return lead
    first, *lines = lead.split("\n")
    if not lines:
        return " " if first else ""
    comment = first.strip(_BLANKS)
    kept = [f" {comment}" if comment and first[0] in _BLANKS else comment]
    for line in lines[:-1]:
        comment = line.strip(_BLANKS)
        if comment or len(kept) == 1 or kept[-1]:
            kept.append(
                f" {comment}" if comment.startswith("%%") and line[0] in _BLANKS else comment
            )
    return "\n".join([*kept, ""])


def _begin_of_file(lead: str) -> str:
    return lead if _MARK in lead else _spaced(f"\n{lead}").lstrip("\n")


def _end_of_file(lead: str, ends_line: bool) -> str:
    if _MARK in lead or not lead:
        return lead
    return _spaced(f"{lead}\n").rstrip("\n") + ("\n" if ends_line else "")


def _wrapped(words: Iterator[_Word], width: int) -> Iterator[_Word]:
    """Yields the words, and breaks each line longer than `width` characters where one begins on
    it."""
    column = 0
    for word in words:
        if word.lead == " " and column + 1 + len(word.text.partition("\n")[0]) > width:
            word.lead = "\n"
        written = word.lead + word.text
        line_end = written.rfind("\n")
        column = column + len(written) if line_end < 0 else len(written) - line_end - 1
        yield word
