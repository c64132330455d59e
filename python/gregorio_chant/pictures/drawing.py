"""Draws a score with messages: the picture of the library, with what a page needs of it."""
from __future__ import annotations

from collections.abc import Iterator, Sequence
from dataclasses import dataclass
from html import escape

from gregorio_chant._native.drawings import LEAST_WIDTH, MOST_WIDTH, drawn
from gregorio_chant._native.node_kinds import NodeKind
from gregorio_chant._native.results import Message
from gregorio_chant.objects.compiled import Compiled
from gregorio_chant.objects.score import Score
from gregorio_chant.pictures.alone import MARGIN, USE, beginning, pixels
from gregorio_chant.pictures.codes import CODE_ROW
from gregorio_chant.pictures.languages import language_of
from gregorio_chant.pictures.left_out import not_drawn
from gregorio_chant.pictures.look import Look
from gregorio_chant.pictures.marks import Mark, places_of
from gregorio_chant.pictures.names import Names
from gregorio_chant.pictures.outlines import TEXT, Outlines
from gregorio_chant.pictures.painter import Painter
from gregorio_chant.pictures.sheet import sheet_of
from gregorio_chant.pictures.shown import shown
from gregorio_chant.pictures.syllable_parts import PartMaker

_NOTE_SIZE, _OVER_NOTE, _BETWEEN_CODES = 1000, 400, 200
_NO_SCORE = "Nothing of this score was read."
_NO_NAME = "A score without a name"
_NO_INITIAL = b"initial-style: 0;\n"


@dataclass(frozen=True)
class Picture:
    """A picture of a score. `pieces` are its SVG, in order; `places` has the id of the element of
    each message, by the number of the message from 1."""

    name: str
    messages: tuple[Message, ...]
    pieces: list[str]
    places: dict[int, str]

    @property
    def svg(self) -> str:
        return "".join(self.pieces)


def draw(
    data: bytes | Compiled,
    messages: Sequence[Message] | None = None,
    *,
    look: Look = Look(),
    names: Names = Names(),
) -> Picture:
    """Returns a picture of a score, or of what the compiler says of one, with these messages. If
    none are given, it has all of the compiler's."""
    compiled = data if isinstance(data, Compiled) else Compiled(data)
    told = tuple(compiled.messages if messages is None else messages)
    drawing = _Drawing(compiled, told, look, names)
    pieces = drawing.pieces()
    return Picture(drawing.name, told, pieces, drawing.places)


def _without_initial(score: Score) -> bytes:
    """Returns a score that asks for no initial: one more header says so."""
    at = next(score.tree.of_kind(NodeKind.SCORE_LINE)).begin
    source = score.tree.source
    return source[:at] + _NO_INITIAL + source[at:]


class _Drawing:
    """Puts a picture together, and knows how far down it goes."""

    def __init__(
        self, compiled: Compiled, messages: Sequence[Message], look: Look, names: Names
    ) -> None:
        self._score = score = compiled.score if compiled.has_score else None
        self._look, self._names = look, names
        self._outlines = Outlines(look.face, look.hand)
        self._has_own = look.has_initial or score is None
        source = compiled.data if self._has_own or score is None else _without_initial(score)
        width = min(max(look.width, LEAST_WIDTH), MOST_WIDTH)
        self._sheet = sheet_of(drawn(source, width))
        self._marks = places_of(score, messages)
        language = language_of((score and score.header("language")) or "")
        is_text = look.hand == TEXT
        self._painter = Painter(self._marks, self._outlines, names, language, is_text)
        self.name = (score and score.header("name")) or ""

    @property
    def places(self) -> dict[int, str]:
        return self._painter.found

    def pieces(self) -> list[str]:
        """Returns what the picture is made of, in order."""
        y, before = self._lines(self._marks.before, MARGIN)
        down = y - MARGIN
        over = self._sheet.over
        used: set[str] = set()
        body = [*before, f'<g transform="translate(0,{down})">{over}</g>\n' if down else over]
        body = [self._with_outlines(it, used) for it in body]
        for row, down in self._rows(down):
            body.append(self._with_outlines(row, used))
        y, after = self._lines(self._marks.after, self._sheet.height - MARGIN + down)
        note = self._note()
        if note:
            y += _NOTE_SIZE + _OVER_NOTE
            after.append(_text(note, y))
        body += [self._with_outlines(it, used) for it in after]
        return [self._head(y + MARGIN, used), *body, "</svg>\n"]

    def _rows(self, down: int) -> Iterator[tuple[str, int]]:
        """Yields each row, and how much lower all after it stands than in the picture of the
        library."""
        if self._score is None:
            return
        shift = 0 if self._has_own else len(_NO_INITIAL)
        width = self._sheet.width - 2 * MARGIN
        wants_all = self._names.has_heads or self._look.hand == TEXT
        marked = self._marks.by_syllable
        maker = PartMaker(
            self._score, self._outlines, shift, lambda number: wants_all or number in marked
        )
        for row in self._sheet.rows:
            painted, down = self._painter.row(row, maker.parts_of(row), width, down)
            yield painted, down

    def _lines(self, marks: Sequence[Mark], y: int) -> tuple[int, list[str]]:
        """Returns how far down the codes of messages go that belong to no syllable, below `y`, and
        these, with their places and texts, a line each."""
        lines = []
        for mark in marks:
            y += CODE_ROW + _BETWEEN_CODES
            it = mark.message
            words = f"{it.code} {it.line}:{it.column} {it.text}"
            lines.append(self._painter.code(mark, MARGIN, y, words) + "\n")
        return y, lines

    def _note(self) -> str:
        """Returns what the picture says at its foot."""
        if self._score is None:
            return _NO_SCORE
        return not_drawn(self._score) if self._look.has_notes else ""

    def _with_outlines(self, piece: str, used: set[str]) -> str:
        """Returns a piece with the ids of its outlines, whose names it adds to those that are
        used."""
        prefix, outlines = self._names.prefix, self._outlines
        own = {it: outlines.named(it) for it in set(USE.findall(piece))}
        used.update(own.values())
        if all(it == name for it, name in own.items()) and not prefix:
            return piece
        return USE.sub(lambda it: f'<use href="#{prefix}{own[it[1]]}"', piece)

    def _head(self, height: int, used: set[str]) -> str:
        """Returns what stands before the rows."""
        width = self._sheet.width
        root = (
            '<svg xmlns="http://www.w3.org/2000/svg" xml:space="preserve"'
            f' viewBox="0 0 {width} {height}" width="{pixels(width)}" height="{pixels(height)}"'
            f' class="chant" role="group"><title>{escape(shown(self.name or _NO_NAME))}</title>'
        )
        alone = not self._names.links
        return root + beginning(used, self._outlines, self._names.prefix, has_style=alone) + "\n"


def _text(words: str, y: int) -> str:
    return f'<text x="{MARGIN}" y="{y}" font-size="{_NOTE_SIZE}">{escape(shown(words))}</text>\n'
