"""Paints the rows of a picture anew: with ids, titles and places for who reads them in a page, and
with messages."""
from __future__ import annotations

import re
from collections.abc import Iterator, Sequence
from html import escape
from typing import NamedTuple

from gregorio_chant.objects.items import Note
from gregorio_chant.objects.nabc import Descriptor
from gregorio_chant.objects.syllables import NabcSnippet, NoteSnippet, Syllable
from gregorio_chant.pictures.codes import (
    CODE_ROW,
    OVER_ROW,
    Field,
    codes_of,
    field_around,
    fields_of,
)
from gregorio_chant.pictures.marks import Mark, Places
from gregorio_chant.pictures.names import Names
from gregorio_chant.pictures.outlines import Outlines
from gregorio_chant.pictures.sheet import TEXT_SIZE, Row, boxes
from gregorio_chant.pictures.shown import shown
from gregorio_chant.pictures.syllable_parts import Part

_ALTERED = {"flat": "\u266d", "sharp": "\u266f"}
_NABC = re.compile('<use [^>]* class="nabc"/>')
# What the library writes as text, since it has no outline, has this size.
_NABC_TEXT = re.compile('<text [^>]* font-size="900" [^>]*>[^<]*</text>')
_NABC_LINE = re.compile(r'y="(-?\d+)" (?:class="nabc"/>|font-size="900" )')
_NABC_SIZE, _NABC_ROW = 700, 800
# About how wide a letter of that is, a narrow one and another, and what stands between two texts.
_NARROW, _NARROW_LETTER, _LETTER = frozenset("filjt!'`"), 210, 350
_BETWEEN_NABC = 200
_HYPHEN = re.compile("<text ([^>]*>-</text>)")
# Where the text stands in a row that has none.
_TEXT_LINE = 1800
# What stands between the highest sign of a row and a field.
_OVER_SIGNS = 300


def sung(syllable: Syllable, plain: str) -> str:
    """Returns how a syllable with these letters sounds: its text, and the degrees of its notes, or
    their letters before any clef."""
    notes = " ".join(
        (it.degree or it.pitch) + _ALTERED.get(it.alteration, "") for it in syllable.notes
    )
    text = plain.strip()
    return f"{text}: {notes}" if text and notes else notes


def words_of(parts: Sequence[Part]) -> str:
    """Returns the words of a row as one text."""
    joined = "".join(
        (" " if it.syllable and it.number == 0 and it.syllable.begins_word else "") + it.plain
        for it in parts
    )
    return shown(" ".join(joined.split()))


def _names_of_nabc(syllable: Syllable) -> str:
    """Returns the NABC of a syllable, and what its descriptors are called."""
    return "; ".join(
        f"{it.spelling}: "
        + " ".join("!".join(item.names) for item in it.items if isinstance(item, Descriptor))
        for it in syllable.snippets
        if isinstance(it, NabcSnippet)
    )


class _Spelled(NamedTuple):
    """NABC as it is spelled: the number of its part in the row, its line, where it stands in the
    part and in the row, and its text."""

    part: int
    line: int
    x: int
    in_row: int
    text: str


def _spelled_nabc(number: int, part: Part) -> Iterator[_Spelled]:
    """Yields the NABC over the notes of a part."""
    at = first = 0
    for it in part.syllable.snippets if part.syllable else ():
        if isinstance(it, NoteSnippet):
            at, first = at + sum(isinstance(item, Note) for item in it.items), at
        elif 0 <= first - part.first < max(len(part.heads), 1) and it.spelling.strip():
            x = part.heads[first - part.first].x if part.heads else 0
            yield _Spelled(number, it.line, x, part.group.x + x, shown(it.spelling))


def _spelled_in_row(parts: Sequence[Part], width: int) -> dict[int, list[str]]:
    """Returns the NABC of each part of a row, by its number, as it is spelled: one line beside
    another, and each text as narrow as the next one and the end of the row want it."""
    lines = [int(y) for it in parts for y in _NABC_LINE.findall(it.group.content)]
    found: dict[int, list[str]] = {number: [] for number in range(len(parts))}
    if not lines:
        return found
    ends: dict[int, int] = {}
    for it in reversed([it for at, part in enumerate(parts) for it in _spelled_nabc(at, part)]):
        room = max(ends.get(it.line, width) - it.in_row - _BETWEEN_NABC, _NABC_SIZE)
        ends[it.line] = it.in_row
        is_wide = room < sum(_NARROW_LETTER if c in _NARROW else _LETTER for c in it.text)
        fits = f' textLength="{room}" lengthAdjust="spacingAndGlyphs"' if is_wide else ""
        y = max(lines) - (it.line - 1) * _NABC_ROW
        place = f'x="{it.x}" y="{y}" font-size="{_NABC_SIZE}"'
        found[it.part].insert(0, f"<text {place}{fits}>{escape(it.text)}</text>")
    return found


def _titled(text: str) -> str:
    return f"<title>{escape(shown(text))}</title>"


def _content(part: Part, syllable: Syllable, spelled: list[str] | None) -> str:
    """Returns what stands in a group, its NABC with its names as a title."""
    content = part.group.content
    if spelled:
        neumes, content = spelled, _NABC_TEXT.sub("", content)
    else:
        neumes = _NABC.findall(content)
    if not neumes:
        return content
    named = f'<g class="nabc">{_titled(_names_of_nabc(syllable))}{"".join(neumes)}</g>'
    return _NABC.sub("", content) + named


class Painter:
    """Paints rows as groups; NABC as it is spelled, if `is_text`. Each message has a place then:
    the id of its code, or of its syllable."""

    def __init__(
        self, places: Places, outlines: Outlines, names: Names, language: str, is_text: bool
    ) -> None:
        self._places, self._outlines, self._names = places, outlines, names
        self._language, self._is_text = language, is_text
        # Where each message stands, by its number.
        self.found: dict[int, str] = {}

    def row(self, row: Row, parts: Sequence[Part], width: int, down: int) -> tuple[str, int]:
        """Returns a row of this width, which stands `down` lower, and how much lower all after it
        stands: each row of codes takes some room."""
        by_part = [self._fields(it) for it in parts]
        codes = codes_of((it for fields in by_part for it in fields), width)
        top, text = self._bounds(row) if codes else (0, 0)
        down += max((it.row + 1 for it in codes), default=0) * CODE_ROW
        label = escape(words_of(parts))
        named = f' role="group" aria-label="{label}"' if label else ""
        lang = f' lang="{escape(self._language)}"' if label and self._language else ""
        painted = [
            f'<g class="row" transform="translate({row.x},{row.y + down})"{named}{lang}>',
            _HYPHEN.sub(r'<text aria-hidden="true" \1', row.signs),
        ]
        spelled = _spelled_in_row(parts, width) if self._is_text else None
        for number, (part, fields) in enumerate(zip(parts, by_part)):
            neumes = None if spelled is None else spelled[number]
            painted.append(self._part(part, fields, top, text, neumes))
        painted += [
            self.code(it.mark, it.x, top - OVER_ROW - CODE_ROW * it.row, it.text) for it in codes
        ]
        return "".join([*painted, "</g>\n"]), down

    def _fields(self, part: Part) -> list[Field]:
        marks = self._places.by_syllable.get(part.syllable.number - 1) if part.syllable else None
        return list(fields_of(part, marks, self._outlines)) if marks else []

    def _bounds(self, row: Row) -> tuple[int, int]:
        """Returns how high a row goes, and where its text stands."""
        taken = [
            box
            for content in (row.signs, *(it.content for it in row.groups))
            for box in boxes(content, self._outlines)
        ]
        texts = [it.bottom for it in taken if it.size == TEXT_SIZE]
        top = min((it.top for it in taken), default=0) - _OVER_SIGNS
        return top, max(texts, default=_TEXT_LINE)

    def _part(
        self, part: Part, fields: Sequence[Field], top: int, text: int, spelled: list[str] | None
    ) -> str:
        """Returns the group of a part, with NABC as it is `spelled` if that is wanted; a field lies
        under its notes."""
        group, syllable = part.group, part.syllable
        moved = f' transform="translate({group.x},0)"'
        if syllable is None:
            return f'<g class="syllable" data-begin="0" data-end="0"{moved}>{group.content}</g>'
        node = syllable.node
        identifier = self._names.syllable(syllable.number - 1, part.number)
        attributes = f' data-begin="{node.begin}" data-end="{node.end}" id="{identifier}"'
        title = ""
        if part.number == 0:
            place = node.tree.place(node.tree.core(node.number)[0])
            attributes += f' data-line="{place.line}" data-column="{place.column}"'
            title = sung(syllable, part.plain)
        if self._names.has_heads:
            heads = " ".join(",".join(map(str, it)) for it in part.heads)
            attributes += f' data-heads="{heads}"'
        attributes += ' role="img"' if title else ""
        self.found.update({it.mark.number: identifier for it in fields})
        marked = field_around(fields, group.x, top, text) if fields else ""
        inside = (_titled(title) if title else "") + marked + _content(part, syllable, spelled)
        return f'<g class="syllable"{attributes}{moved}>{inside}</g>'

    def code(self, mark: Mark, x: int, y: int, words: str) -> str:
        """Returns the code of a message, as a link if messages stand beside the picture."""
        it = mark.message
        told = f"{it.line}:{it.column}: {it.kind.value}: {it.code}: {it.text}"
        text = f'<text class="code" x="{x}" y="{y}">{escape(shown(words))}{_titled(told)}</text>'
        if not self._names.links:
            return text
        name = self.found[mark.number] = self._names.code(mark.number)
        return f'<a href="#{self._names.message(mark.number)}" id="{name}">{text}</a>'
