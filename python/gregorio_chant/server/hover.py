"""What is said of the thing under the cursor."""
from __future__ import annotations

import re
from collections.abc import Iterator

from gregorio_chant._native.node_kinds import NodeKind
from gregorio_chant._native.results import Message
from gregorio_chant.linting.explaining import example_of, page_uri
from gregorio_chant.objects.item import Item
from gregorio_chant.objects.items import Bar, Clef, Note
from gregorio_chant.objects.nabc import Descriptor
from gregorio_chant.objects.syllables import Glyph, Syllable
from gregorio_chant.server.document import Document
from gregorio_chant.server.protocol import Json, Params
from gregorio_chant.text.vocabulary import HEADERS, TAGS

_TAG = re.compile(r"</?([a-z]+)>")
_TAGGED = (NodeKind.STYLE_TAG, NodeKind.SPAN_MARK, NodeKind.RAW, NodeKind.TAG)
_DO_OR_FA = {"c": "ut", "f": "fa"}
# What stands in a score, and what is said of it.
_Told = tuple[str, str]


def hover(document: Document, params: Params) -> Json:
    """Returns what is said of the thing at this position, and of each message there: its help and
    one example. It is in markdown if the editor shows that."""
    at = document.text.offset(params["position"].position())
    parts = [it for it in (_header_at(document, at), _tag_at(document, at)) if it is not None]
    if document.compiled.has_score:
        parts += _items_at(document, at)
    with_marks = document.file.takes_markdown
    told = [
        f"{_code(thing)}: {meaning}\n" if with_marks else f"{thing}: {meaning}\n"
        for thing, meaning in parts
    ]
    here = [
        (it, help)
        for it, help in zip(document.messages, document.helps)
        if document.offset(it) == at
    ]
    told += [_marked(it, help) if with_marks else _plain(it, help) for it, help in here]
    return (
        {"contents": {"kind": "markdown" if with_marks else "plaintext", "value": "\n".join(told)}}
        if told
        else None
    )


def _code(text: str) -> str:
    """Returns a text as code in markdown."""
    return f"`` {text} ``" if "`" in text else f"`{text}`"


def _marked(message: Message, help: str | None) -> str:
    """Returns what is said of a message in markdown, with the whole page behind a link."""
    wrong, right = example_of(message.code)
    lines = [
        f"**{message.code}**: {_escaped(message.text)}",
        "",
        *([_escaped(help), ""] if help else []),
    ]
    for head, example in (("Wrong:", wrong), ("Right:", right)):
        lines += [head, "", "```gabc", example, "```", ""]
    return "\n".join([*lines, f"[All about {message.code}]({page_uri(message.code)})", ""])


def _escaped(text: str) -> str:
    """Returns a text that markdown shows as it stands."""
    return re.sub(r"([\\`*_{}\[\]<>#|$~])", r"\\\1", text)


def _plain(message: Message, help: str | None) -> str:
    wrong, right = example_of(message.code)
    lines = [f"{message.code}: {message.text}", *([help] if help else [])]
    for head, example in (("Wrong:", wrong), ("Right:", right)):
        lines += [head, *(f"    {it}" for it in example.split("\n"))]
    return "\n".join([*lines, f"gregorio-chant explain {message.code} says more", ""])


def _header_at(document: Document, at: int) -> _Told | None:
    """Returns what the header means whose name stands there."""
    it = document.subject.header_at(at)
    if it is None or it.name not in HEADERS or at >= document.text.plain.index(":", it.begin):
        return None
    return it.name, HEADERS[it.name]


def _tag_at(document: Document, at: int) -> _Told | None:
    node = document.subject.node_at(at)
    tag = None if node is None or node.kind not in _TAGGED else _TAG.match(node.kept)
    return (tag[0], TAGS[tag[1]]) if tag is not None and tag[1] in TAGS else None


def _items_at(document: Document, offset: int) -> Iterator[_Told]:
    """Yields what is said of the note, clef, bar or descriptor at this place of a score."""
    number = document.parts.number_at(offset)
    byte = document.compiled.tree.places.byte(offset)
    syllables = document.score.syllables
    if number is None or number >= len(syllables):
        return
    syllable = syllables[number]
    for snippet in syllable.snippets:
        for item in snippet.items:
            if item.begin <= byte < item.node.end:
                yield from _told(item, syllable)


def _told(item: Item, syllable: Syllable) -> Iterator[_Told]:
    if isinstance(item, Note):
        for it in syllable.glyphs:
            if item in it.notes:
                yield from _note(item, it)
    elif isinstance(item, Clef):
        both = filter(None, (item, item.second))
        yield item.spelling, " and ".join(map(_clef, both))
    elif isinstance(item, Bar):
        yield item.spelling, f"bar {item.name}"
    elif isinstance(item, Descriptor):
        yield item.spelling, ", ".join(item.names)


def _clef(clef: Clef) -> str:
    flat = ", with a flat si" if clef.has_flat else ""
    return f"{_DO_OR_FA[clef.letter]} on line {clef.line}{flat}"


def _note(note: Note, glyph: Glyph) -> Iterator[_Told]:
    sound = note.degree or "no degree before any clef"
    altered = "" if note.alteration == "none" else f" {note.alteration}"
    yield note.spelling, f"{sound}{altered}, {note.shape}"
    yield glyph.spelling, glyph.kind
