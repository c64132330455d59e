"""Rules on headers and texts: each a function that yields what it finds in a score."""
from __future__ import annotations

import html
import re
from collections.abc import Iterator, Sequence

from gregorio_chant._native.node_kinds import NOT_KEPT, NodeKind
from gregorio_chant._native.nodes import kinds_pattern
from gregorio_chant.linting.rule import Found, Subject
from gregorio_chant.linting.slips import ENTITY, MODES
from gregorio_chant.objects.headers import Header
from gregorio_chant.objects.items import Bar, Note
from gregorio_chant.objects.syllables import Syllable
from gregorio_chant.text.nearest import nearest
from gregorio_chant.text.vocabulary import HEADERS, OLD_HEADERS, SPECIALS

# How alike a name has to be to that of a header.
_ALIKE = 0.75
_NUMBER = re.compile(r"[0-9]+")
_MODE = re.compile(r"[1-8](?![0-9])")
# Modes that are no number: single letters, and what the words for the other tones begin with.
_OTHER_MODE = re.compile(r"[1-8a-zN]\b|[0-9]|per|irr|ton|dir|$", re.IGNORECASE)
_PUNCTUATION = (",", ";", ":", ".", "!", "?")
# Punctuation at the end of a text; the ; of a character's name in HTML is none.
_ENDS_SENTENCE = re.compile(r"(?!.*&#?\w+;$).*[,;:.!?]$", re.DOTALL)
_NOTES_IN_BRACKETS = re.compile(rb"\[([a-mA-M](?:[a-mA-MvVwWsoq~<>.'_/!]*))\]")
_BLANK_BEFORE_NOTES = re.compile(rb"[ \t\r\n]\(")
_BAR_SIGN = re.compile(rb"[;:,][ \t\r\n]")
_BAR_AS_TEXT = re.compile(rb"[ \t\r\n]*([;:,])[ \t\r\n]+[\w\x80-\xff]")
_LETTER = re.compile(rb"[\w\x80-\xff]")
_BLANKS = b" \t\r\n"
_SPECIAL = 1
# What may stand in a snippet of notes.
_ITEMS = kinds_pattern(
    NodeKind.NOTE,
    NodeKind.ALTERATION,
    NodeKind.CLEF,
    NodeKind.BAR,
    NodeKind.SPACING,
    NodeKind.CUSTOS,
    NodeKind.LINE_BREAK,
    NodeKind.ATTRIBUTE,
    NodeKind.FUSION,
)
# A snippet in which no item comes first.
_EMPTY = re.compile(
    b"%c(?![%c-%c])" % (NodeKind.SNIPPET, NodeKind.GLYPH, NodeKind.FUSION), re.DOTALL
)
# What stands beside letters in a text, and is no letter.
_NO_LETTERS = NOT_KEPT - {NodeKind.LEFT_OUT} | {
    NodeKind.TEXT_BLANK,
    NodeKind.TAG,
    NodeKind.SPAN_MARK,
    NodeKind.STYLE_TAG,
}


def comment(subject: Subject) -> Iterator[Found]:
    for it in subject.comments:
        begin = it.end - len(it.source.lstrip())
        yield Found(begin, "the canonical form does not keep this comment")


def blank_before_notes(subject: Subject) -> Iterator[Found]:
    told = "there is a blank between a word and its notes: the compiler drops it"
    source = subject.source
    if _BLANK_BEFORE_NOTES.search(source, subject.line.end) is None:
        return
    for number, (_, _, begin, end) in enumerate(subject.texts):
        if source[end - 1] in _BLANKS and source[end : end + 1] == b"(":
            length = len(source[begin:end].rstrip())
            if length and _is_word(subject.score.syllables[number]):
                yield Found(begin + length, told)


def _is_word(syllable: Syllable) -> bool:
    """Returns whether a syllable has letters, and no comment among them."""
    kinds = {it.kind for it in syllable.node.children()} - {NodeKind.SNIPPET}
    return NodeKind.COMMENT not in kinds and not kinds <= _NO_LETTERS


def unknown_special(subject: Subject) -> Iterator[Found]:
    for it in subject.tree.of_kind(NodeKind.RAW):
        name = it.kept[len("<sp>") : -len("</sp>")]
        if it.b == _SPECIAL and name not in SPECIALS:
            told = "is none of GregorioTeX's special characters"
            yield Found(it.begin, f"<sp>{name}</sp> {told}")


def asterisk_without_bar(subject: Subject) -> Iterator[Found]:
    """Finds an asterisk where no bar stands, if one stands after the next word instead."""
    if b"*" not in subject.source:
        return
    syllables = subject.score.syllables
    for number, plain in enumerate(subject.score.plains):
        if "*" not in plain or _has_bar(syllables[number]):
            continue
        after = syllables[number + 1 :]
        if after and not _begins_with_bar(after[0]) and _bar_after_word(after):
            byte = _asterisk_in(syllables[number])
            yield Found(byte, "no bar follows this asterisk, but one follows the next word")


def _asterisk_in(syllable: Syllable) -> int:
    """Returns the byte of the first asterisk that is sung in the text of a syllable."""
    nodes = syllable.node.children(NodeKind.CHARACTERS, NodeKind.ESCAPE, NodeKind.RAW)
    sung = (it for it in nodes if it.kind != NodeKind.RAW or it.b == _SPECIAL)
    return next(it.begin + it.source.index(b"*") for it in sung if b"*" in it.source)


def _has_bar(syllable: Syllable) -> bool:
    return any(isinstance(it, Bar) for it in syllable.items)


def _begins_with_bar(syllable: Syllable) -> bool:
    """Returns whether a bar stands in the syllable before any note, and no text before it."""
    first = next((it for it in syllable.items if isinstance(it, (Bar, Note))), None)
    return isinstance(first, Bar) and not syllable.plain.strip()


def _bar_after_word(syllables: Sequence[Syllable]) -> bool:
    """Returns whether a bar that ends no part of the chant stands directly after the first word of
    these syllables."""
    number = next(
        (number for number, it in enumerate(syllables) if it.begins_word and number), len(syllables)
    )
    if number == len(syllables) or not _begins_with_bar(syllables[number]):
        return False
    return next(it.name for it in syllables[number].items if isinstance(it, Bar)) != "finalis"


# ---- headers


def _mode_of(subject: Subject) -> Header | None:
    """Returns the header `mode` that counts."""
    headers = subject.score.headers
    return next((it for it in reversed(headers) if it.name == "mode"), None)


def unknown_mode(subject: Subject) -> Iterator[Found]:
    header = _mode_of(subject)
    if header is not None and _NUMBER.match(header.value) and not _MODE.match(header.value):
        told = f"there is no mode {header.value[:20]}: modes go from 1 to 8"
        yield subject.found(header, told)


def mode_without_number(subject: Subject) -> Iterator[Found]:
    header = _mode_of(subject)
    if header is not None and not _OTHER_MODE.match(header.value):
        number = MODES.get(header.value.rstrip(". ").upper())
        wanted = f"mode: {number};" if number else "one of 1 to 8"
        told = f"the mode {header.value[:20]} is no number: write {wanted}"
        yield subject.found(header, told)


def misspelled_header(subject: Subject) -> Iterator[Found]:
    for it in subject.score.all_headers:
        name = it.name
        if name not in HEADERS and name.lower() not in OLD_HEADERS:
            near = nearest(name, HEADERS, _ALIKE)
            if near:
                told = f"GregorioTeX knows no header {name}: did you mean {near}?"
                yield subject.found(it, told)


# ---- punctuation


def late_punctuation(subject: Subject) -> Iterator[Found]:
    for it, plain in zip(subject.score.syllables, subject.score.plains):
        if plain.startswith(_PUNCTUATION) and not it.begins_word:
            told = f"'{plain[0]}' follows the notes of its word: write it before their ("
            yield subject.found(it, told)


def missing_blank(subject: Subject) -> Iterator[Found]:
    syllables, plains = subject.score.syllables, subject.score.plains
    for before, after, ended, begun in zip(syllables, syllables[1:], plains, plains[1:]):
        is_near = ended.endswith(_PUNCTUATION) and begun[:1].isalpha() and not after.begins_word
        if is_near and before.notes and _ENDS_SENTENCE.match(ended):
            between = f"there is no blank between '{ended.strip()}' and '{begun.strip()}'"
            told = f"{between}, so both are one word: write a blank after the )"
            yield subject.found(after, told)


def bar_as_text(subject: Subject) -> Iterator[Found]:
    if _BAR_SIGN.search(subject.source, subject.line.end) is None:
        return
    for _, _, begin, end in subject.texts:
        found = _BAR_AS_TEXT.match(subject.source, begin, end)
        if found is not None:
            mark = found[1].decode()
            told = f"'{mark}' is alone in a text: did you mean the bar ({mark})?"
            yield Found(found.start(1), told)


# ---- words


def typed_hyphen(subject: Subject) -> Iterator[Found]:
    syllables, plains = subject.score.syllables, subject.score.plains
    for it, after, plain, begun in zip(syllables, syllables[1:], plains, plains[1:]):
        is_typed = plain.endswith(("-", "\u2013")) and len(plain.strip()) > 1
        if is_typed and begun[:1].isalpha() and not after.begins_word:
            told = "ends with a hyphen: leave it out, since GregorioTeX writes hyphens by itself"
            yield subject.found(it, f"'{plain.strip()}' {told}")


def html_entity(subject: Subject) -> Iterator[Found]:
    if b"&" not in subject.source:
        return
    for node in subject.tree.of_kind(NodeKind.CHARACTERS):
        text = node.text
        for it in ENTITY.finditer(text):
            character = html.unescape(it[0])
            if character != it[0]:
                byte = node.begin + len(text[: it.start()].encode())
                told = "is a name of HTML, and is sung letter for letter"
                yield Found(byte, f"{it[0]} {told}: write {character}")


def syllable_without_notes(subject: Subject) -> Iterator[Found]:
    kinds, syllables = subject.tree.kinds, subject.score.syllables
    if _EMPTY.search(kinds) is None:
        return
    for it, text, plain in zip(syllables, subject.texts, subject.score.plains):
        if _ITEMS.search(kinds, text.number, text.past) is None:
            is_within = it.position in ("beginning", "middle")
            if is_within and any(map(str.isalpha, plain)):
                yield subject.found(it, f"'{plain.strip()}' has no notes within its word")


def notes_in_translation(subject: Subject) -> Iterator[Found]:
    source = subject.source
    for it in subject.tree.of_kind(NodeKind.TRANSLATION):
        found = _NOTES_IN_BRACKETS.fullmatch(source, it.begin, it.end)
        is_within = _LETTER.match(source, it.begin - 1) and _LETTER.match(source, it.end)
        if found is not None and is_within:
            notes = found[1].decode()
            told = f"is a translation, and looks like notes: did you mean ({notes})?"
            yield Found(it.begin, f"[{notes}] {told}")


def second_score_line(subject: Subject) -> Iterator[Found]:
    source = subject.source
    for it in subject.comments:
        begins_line = source[it.begin - 1 : it.begin] in (b"\n", b"\r")
        if it.begin > subject.line.end and begins_line and source.startswith(b"%%", it.begin):
            told = "a second line %% is a comment: remove it"
            yield Found(it.begin, f"{told}, or look whether another score begins there")
