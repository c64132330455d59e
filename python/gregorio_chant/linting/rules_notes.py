"""Rules on notes: each a function that yields what it finds in a score."""
from __future__ import annotations

import re
from collections.abc import Iterator
from itertools import chain

from gregorio_chant._native.node_kinds import NodeKind
from gregorio_chant.linting.rule import Found, Subject
from gregorio_chant.objects.item import PITCHES, Item
from gregorio_chant.objects.items import SHAPES, Alteration, Bar, Clef, Note
from gregorio_chant.objects.syllables import Glyph
from gregorio_chant.objects.written import begin_of_notes
from gregorio_chant.report.reports import counted

_STAFFS = ("2", "3", "4", "5")
_ONLY_BARS = re.compile(rb"[| \t\r\n]*")
_BRACKET = re.compile(rb"[()]")
_INCLINATUM = SHAPES.index("inclinatum")
_E1 = 101
_AUTOMATIC = 15
_OPEN_SPACING = 4


def _staff_of(subject: Subject) -> int | None:
    """Returns the number of lines of the staff, if it is one."""
    lines = subject.score.header("staff-lines") or "4"
    return int(lines) if lines in _STAFFS else None


def outside_staff(subject: Subject) -> Iterator[Found]:
    lines = _staff_of(subject)
    if lines is None:
        return
    highest = 2 * lines + 4
    narrow = subject.tree.narrow
    told = f"is outside a staff of {lines} lines, which goes from a to {PITCHES[highest]}"
    for it in subject.numbers(NodeKind.NOTE, NodeKind.ALTERATION, NodeKind.CUSTOS):
        height = narrow[10 * it + 7] & 15
        if highest < height < _AUTOMATIC:
            yield Found(subject.tree[it].begin, f"pitch {PITCHES[height]} {told}")


def bracket_in_attribute(subject: Subject) -> Iterator[Found]:
    for it in subject.tree.of_kind(NodeKind.ATTRIBUTE, NodeKind.SPACING):
        is_open = it.kind == NodeKind.ATTRIBUTE or it.a == _OPEN_SPACING
        if is_open and _BRACKET.search(it.source):
            yield Found(it.begin, "an attribute holds ( or ): look whether its ] is missing")


def nabc_after_bars(subject: Subject) -> list[tuple[int, int]]:
    """Returns, for each syllable with notes and a `|` that was left out of them, the bytes of the
    first one and of the syllable's end."""
    found: dict[int, tuple[int, int]] = {}
    source = subject.source
    for it in subject.tree.of_kind(NodeKind.LEFT_OUT):
        if it.a == _E1 and source[it.begin : it.end] == b"|":
            syllable = subject.score.syllable_of(it.number)
            begin = begin_of_notes(syllable)
            end = syllable.node.end
            if not _ONLY_BARS.fullmatch(source, begin, end - 1):
                found.setdefault(syllable.number, (it.begin, end))
    return list(found.values())


def nabc_without_header(subject: Subject) -> Iterator[Found]:
    if (subject.score.header("nabc-lines") or "0") != "0":
        return
    after = nabc_after_bars(subject)
    if after:
        where = f"there is a | in the notes of {counted(len(after), 'syllable')}"
        told = "what follows it is not read. Write nabc-lines: 1; before the %%"
        yield Found(after[0][0], f"{where}, but no header nabc-lines: {told}")


def clef_off_staff(subject: Subject) -> Iterator[Found]:
    lines = _staff_of(subject)
    if lines is None:
        return
    for number in subject.numbers(NodeKind.CLEF):
        both = Clef(subject.score, number)
        for it in filter(None, (both, both.second)):
            if it.line > lines:
                spelling = f"{it.letter}{'b' * it.has_flat}{it.line}"
                told = f"needs a line {it.line}, but the staff has {lines} lines"
                yield subject.found(both, f"the clef {spelling} {told}")


def unused_alteration(subject: Subject) -> Iterator[Found]:
    """Finds an alteration with no note at its pitch before the next word, the next clef or a bar
    that ends it. One in a word without notes stands for itself."""
    numbers = subject.numbers(NodeKind.ALTERATION)
    words = (subject.score.syllable_of(it).word for it in numbers)
    for word in dict.fromkeys(filter(None, words)):
        items = list(chain.from_iterable(it.items for it in word.syllables))
        for at, item in enumerate(items):
            if isinstance(item, Alteration) and word.notes and not _is_used(item, items[at + 1 :]):
                told = f"no note at {item.pitch} follows {item.spelling} in its word"
                yield subject.found(item, f"{told}: write it before the note that it alters")


def _is_used(alteration: Alteration, after: list[Item]) -> bool:
    for it in after:
        if isinstance(it, Clef) or isinstance(it, Bar) and it.name != "virgula":
            return False
        if isinstance(it, (Note, Alteration)) and it.pitch == alteration.pitch:
            return isinstance(it, Note)
    return False


def lone_capital(subject: Subject) -> Iterator[Found]:
    """Finds an inclinatum with no other one beside it. One with a sign that only an inclinatum has
    is meant, and so are those of a table of signs, where most notes have one."""
    numbers = subject.numbers(NodeKind.NOTE)
    narrow, wide = subject.tree.narrow, subject.tree.wide
    shapes = bytes([narrow[10 * it + 8] & 31 for it in numbers])
    found = [at for at, it in enumerate(shapes) if it == _INCLINATUM]
    if not found or 2 * sum(wide[5 * it + 1] > wide[5 * it] + 1 for it in numbers) > len(numbers):
        return
    for at in found:
        around = shapes[max(at - 1, 0) : at] + shapes[at + 1 : at + 2]
        note = Note(subject.score, numbers[at])
        is_alone = around and _INCLINATUM not in around and _is_neume(subject, note)
        spelling = note.spelling
        if is_alone and not set("~<>012") & set(spelling):
            told = "is a punctum inclinatum alone among other notes"
            yield subject.found(note, f"{spelling} {told}: did you mean {spelling.lower()}?")


def _is_neume(subject: Subject, note: Note) -> bool:
    """Returns whether an inclinatum is a neume by itself."""
    around = subject.tree.kinds.rfind(NodeKind.GLYPH, 0, note.node.number)
    glyph = Glyph(subject.score, around)
    return glyph.kind == "inclinata" and len(glyph.notes) == 1
