"""The dump of a score, written from its objects alone."""
from __future__ import annotations

from collections.abc import Callable, Iterator

from gregorio_chant.dump import (
    Alteration,
    Attribute,
    Bar,
    Break,
    Clef,
    Custos,
    Descriptor,
    Element,
    Fusion,
    Glyph,
    Item,
    NabcSnippet,
    Note,
    NoteSnippet,
    Score,
    Space,
    Syllable,
)


def escaped(text: str) -> str:
    return text.replace("\\", "\\\\").replace("\n", "\\n")


def _note(it: Note) -> str:
    return f"note {it.pitch} {it.shape} {it.degree or '-'} {it.alteration} {it.spelling}"


def _space(it: Space) -> str:
    return "space blank" if it.is_blank else f"space {it.spelling}"


def _custos(it: Custos) -> str:
    return f"custos {it.pitch or 'auto'}"


_LINES: dict[type[Item], Callable[..., str]] = {
    Note: _note,
    Space: _space,
    Custos: _custos,
    Alteration: lambda it: f"alteration {it.pitch} {it.sign} {it.spelling}",
    Bar: lambda it: f"bar {it.name} {it.spelling}",
    Clef: lambda it: f"clef {it.spelling}",
    Break: lambda it: f"break {it.spelling}",
    Fusion: lambda it: f"fusion {it.spelling}",
    Attribute: lambda it: f"attribute {escaped(it.raw)}",
    Descriptor: lambda it: f"descriptor {it.spelling} {'!'.join(it.names)}",
}


def _notes(snippet: NoteSnippet) -> Iterator[str]:
    """Yields the lines of the items, with those of elements and glyphs before them."""
    begins: dict[Item, Element] = {it.items[0]: it for it in snippet.elements}
    glyphs: dict[Item, Glyph] = {
        it.notes[0]: it for element in snippet.elements for it in element.glyphs
    }
    for item in snippet.items:
        if item in begins:
            yield "element"
        if item in glyphs:
            yield f"glyph {glyphs[item].kind} {len(glyphs[item].notes)}"
        yield _LINES[type(item)](item)


def _syllable(it: Syllable) -> Iterator[str]:
    yield f"syllable {it.number} {it.position}{' eu' * it.is_eu}{' nlba' * it.is_nlba}"
    if it.text:
        yield f"text:{escaped(it.text)}"
    if it.translation is not None:
        yield f"translation:{escaped(it.translation)}"
    if not it.snippets:
        yield "notes:"
    for snippet in it.snippets:
        if isinstance(snippet, NabcSnippet):
            yield f"nabc {snippet.line}:{escaped(snippet.spelling)}"
            yield from (_LINES[type(item)](item) for item in snippet.items)
        else:
            yield f"notes:{escaped(snippet.spelling)}"
            yield from _notes(snippet)


def _lines(score: Score) -> Iterator[str]:
    yield "dump 2"
    yield from (f"header {escaped(it.name)}:{escaped(it.value)}" for it in score.headers)
    for it in score.syllables:
        yield from _syllable(it)
    if score.is_whole:
        yield f"end {len(score.syllables)}"


def dump_of(score: Score) -> str:
    """Returns the dump of a score."""
    return "".join(f"{it}\n" for it in _lines(score))
