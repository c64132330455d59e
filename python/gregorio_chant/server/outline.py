"""The outline of a score: its headers, and its verses, which end with a double bar, with their
words, up to a fatal fault that stops the score."""
from __future__ import annotations

from collections.abc import Iterator
from dataclasses import dataclass

from gregorio_chant.objects.items import Bar
from gregorio_chant.objects.passages import FINALIS
from gregorio_chant.objects.syllables import Syllable
from gregorio_chant.server.document import Document
from gregorio_chant.server.protocol import Json, Params
from gregorio_chant.text.parts import SyllableSpan

_NAMESPACE, _PROPERTY, _STRING = 3, 7, 15
_LONGEST = 40


@dataclass(frozen=True)
class _Word:
    """A word: its text, and where its syllables begin and end."""

    text: str
    begin: int
    end: int
    ends_verse: bool


def _words(document: Document) -> Iterator[_Word]:
    """Yields the words of the score, and each run of notes that has no text as a word of its own
    with none. What a fatal fault leaves unread is in none."""
    inside: list[tuple[Syllable, SyllableSpan]] = []
    syllables = document.score.syllables if document.compiled.has_score else ()
    for it, span in zip(syllables, document.parts.syllables):
        if inside and it.begins_word:
            yield _word(inside)
            inside = []
        inside.append((it, span))
        if _ends_verse(it):
            yield _word(inside)
            inside = []
    if inside:
        yield _word(inside)


def _word(found: list[tuple[Syllable, SyllableSpan]]) -> _Word:
    text = "".join(it.plain for it, _ in found)
    last, end = found[-1]
    return _Word(" ".join(text.split()), found[0][1].text, end.end, _ends_verse(last))


def _ends_verse(syllable: Syllable) -> bool:
    return any(isinstance(it, Bar) and it.name == FINALIS for it in syllable.items)


def _verses(document: Document) -> Iterator[list[_Word]]:
    verse: list[_Word] = []
    for it in _words(document):
        verse.append(it)
        if it.ends_verse:
            yield verse
            verse = []
    if verse:
        yield verse


def _symbol(
    document: Document, name: str, kind: int, begin: int, end: int, children: list[Json]
) -> Json:
    where = document.text.range(begin, end).to_json()
    return {
        "name": name,
        "kind": kind,
        "range": where,
        "selectionRange": where,
        "children": children,
    }


def symbols(document: Document, params: Params) -> Json:
    """Returns the headers, and each verse by its first words, with its words."""
    text = document.text.plain
    found = []
    for header in document.parts.headers:
        spelled = text[header.begin : header.end]
        name = (
            f"{header.name}: {spelled.partition(':')[2].strip(' ;')}"
            if header.name
            else spelled.strip()
        )
        found.append(
            _symbol(
                document,
                " ".join(name.split())[:_LONGEST] or "header",
                _PROPERTY,
                header.begin,
                header.end,
                [],
            )
        )
    for number, verse in enumerate(_verses(document), 1):
        words = [
            _symbol(document, it.text, _STRING, it.begin, it.end, []) for it in verse if it.text
        ]
        name = " ".join(it.text for it in verse if it.text)[:_LONGEST]
        found.append(
            _symbol(
                document,
                f"{number}. {name}".rstrip(),
                _NAMESPACE,
                verse[0].begin,
                verse[-1].end,
                words,
            )
        )
    return found


def foldings(document: Document, params: Params) -> Json:
    """Returns the lines of the headers, and of each verse, where they are more than one."""
    headers = document.parts.headers
    spans = [(headers[0].begin, headers[-1].end)] if headers else []
    spans += [(it[0].begin, it[-1].end) for it in _verses(document)]
    lines = [
        (document.text.position(begin).line, document.text.position(end).line)
        for begin, end in spans
    ]
    return [{"startLine": begin, "endLine": end} for begin, end in lines if begin < end]
