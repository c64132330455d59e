"""What a score has that a format may not say: each kind with the place where it first stands."""
from __future__ import annotations

from collections.abc import Iterator

from gregorio_chant.objects.item import Item
from gregorio_chant.objects.items import Attribute, Bar, Break, Custos, Note
from gregorio_chant.objects.score import Score
from gregorio_chant.objects.syllables import NabcSnippet, Syllable
from gregorio_chant.text.source import Source

NABC, STYLES, TRANSLATIONS, ATTRIBUTES, BREAKS, CUSTODES = (
    "NABC",
    "styles of the text",
    "translations",
    "attributes",
    "line ends",
    "custodes",
)
SHAPES, MORAE, EPISEMATA, ICTUS, LIQUESCENCE = (
    "shapes of notes",
    "morae",
    "episemata",
    "ictus",
    "liquescence",
)
VIRGULAE = "virgulae"
# The shapes that are no more than a note.
_PLAIN = ("punctum", "quadratum", "virga", "virga-reversa", "inclinatum")


def _of_note(note: Note) -> Iterator[str]:
    if note.shape not in _PLAIN:
        yield SHAPES
    if note.morae:
        yield MORAE
    if note.episemata:
        yield EPISEMATA
    if note.ictus:
        yield ICTUS
    if note.liquescence:
        yield LIQUESCENCE


def _of_item(item: Item) -> Iterator[str]:
    if isinstance(item, Note):
        yield from _of_note(item)
    elif isinstance(item, Bar) and item.name in ("virgula", "minimis"):
        yield VIRGULAE
    else:
        yield from (
            kind
            for it, kind in ((Attribute, ATTRIBUTES), (Break, BREAKS), (Custos, CUSTODES))
            if isinstance(item, it)
        )


def _of_syllable(syllable: Syllable) -> Iterator[tuple[str, Source]]:
    if "<" in syllable.text:
        yield STYLES, syllable.source
    if syllable.translation is not None:
        yield TRANSLATIONS, syllable.source
    for snippet in syllable.snippets:
        if isinstance(snippet, NabcSnippet):
            yield NABC, snippet.source
            continue
        for item in snippet.items:
            for kind in _of_item(item):
                yield kind, item.source


def losses(score: Score, lost: frozenset[str]) -> dict[str, Source]:
    """Returns those of the kinds `lost` that the score has, each with its first place."""
    found: dict[str, Source] = {}
    for syllable in score.syllables:
        for kind, source in _of_syllable(syllable):
            if kind in lost:
                found.setdefault(kind, source)
    return found
