"""Finds what a repair writes for a message: a small function for each repair."""
from __future__ import annotations

import bisect
import html
import re
from collections.abc import Callable
from dataclasses import dataclass, replace

from gregorio_chant._native.node_kinds import NodeKind
from gregorio_chant.linting.slips import (
    APOSTROPHES,
    ENTITY,
    MODES,
    NOTES,
    Subject,
    bars_for,
    clef_for,
    closing_bracket,
    meant_header,
    open_styles,
    opening_bracket,
    struck_for_mark,
)
from gregorio_chant.text.nearest import nearest
from gregorio_chant.text.vocabulary import HEADERS, HTML_TAGS, TAGS

# A style over more syllables than this is left to the editor.
_MOST_SYLLABLES = 200
_NAMES = "|".join(sorted(TAGS, key=len, reverse=True))
# A tag's name, which may be whole, at the end of letters; and in a tag that is not known one that
# lacks its `>`.
_NAME_AT_END = re.compile(rf"(/?)({_NAMES})$")
_NAME = re.compile(rf"</?(?:{_NAMES})(?=[^>]*[(\n<])")
# A `<` that begins no word, and takes notes or a line end for its tag, which is not known.
_SWALLOWS = re.compile(r"<(?![A-Za-z/])[^>]*[(\n]")
_TAG = re.compile(r"<(/?)([A-Za-z]+)[^>\n(]*>")
_BARRED = re.compile(r"<sp>([ARV].?)</sp>")
_RAW_ENDS = ("</v>", "</sp>", "</alt>")


@dataclass(frozen=True, order=True)
class Edit:
    """What is written in place of `old` at an offset of the text; an insertion has no `old`."""

    offset: int
    old: str
    new: str

    @property
    def end(self) -> int:
        return self.offset + len(self.old)


Edits = tuple[Edit, ...]


# ---- texts


def _escape(subject: Subject, at: int) -> Edits:
    """Writes `$` before a `>`, but not before one that may end a tag whose `<` is lost, or stand in
    notes whose `(` is lost. A `)` and a `]` are never made text: their `(` or `[` is lost."""
    if _in(NodeKind.LEFT_OUT, subject, at) != ">":
        return ()
    it = subject.syllable_at(at)
    end = len(subject.text) if it is None else it.notes
    closer = bisect.bisect_left(subject.closers, at)
    may_be_note = closer < len(subject.closers) and subject.closers[closer] < end
    return () if may_be_note or _may_end_tag(subject, at, end) else (Edit(at, "", "$"),)


def _may_end_tag(subject: Subject, at: int, end: int) -> bool:
    """Returns whether the name of a tag stands before this `>`, and its begin with it or its end
    in the same text, which goes up to `end`."""
    name = _NAME_AT_END.search(subject.text, max(0, at - 10), at)
    if name is None or subject.kind_at(at - 1) != NodeKind.CHARACTERS:
        return False
    if name[1]:
        return True
    tags = subject.nodes_in(at, end, NodeKind.STYLE_TAG, NodeKind.SPAN_MARK, NodeKind.TAG)
    return any(it.kept == f"</{name[2]}>" for it in tags)


def _in(kind: NodeKind, subject: Subject, at: int) -> str:
    """Returns the text of the node that holds this offset, if it is of this kind; else nothing."""
    node = subject.node_at(at)
    return node.text if node is not None and node.kind == kind else ""


def _style_in_each_syllable(subject: Subject, at: int) -> Edits:
    """Closes the styles that are open where a text ends, and opens them again in each text up to
    the one that closes them. Where one is opened once more before that, its end is lost."""
    syllables = subject.parts.syllables
    number = subject.parts.number_at(at)
    if number is None or subject.text[at : at + 1] != "(":
        return ()
    first = syllables[number]
    edits: list[Edit] = []
    for name in open_styles(subject, first):
        edits.append(Edit(first.notes, "", f"</{name}>"))
        for it in syllables[number + 1 : number + 1 + _MOST_SYLLABLES]:
            begin = it.text
            if begin == it.notes:
                continue
            edits.append(Edit(begin, "", f"<{name}>"))
            tags = subject.parts.style_tags_in(begin, it.notes)
            found = next((tag for tag in tags if tag.name == name), None)
            if found is not None and not found.closes:
                return ()
            if found is not None:
                break
            edits.append(Edit(it.notes, "", f"</{name}>"))
        else:
            return ()
    return tuple(edits)


def _escape_less(subject: Subject, at: int) -> Edits:
    return (Edit(at, "", "$"),) if _SWALLOWS.match(subject.tag_at(at)) else ()


def _close_tag(subject: Subject, at: int) -> Edits:
    found = _NAME.match(subject.tag_at(at))
    return (Edit(at + found.end(), "", ">"),) if found else ()


def _html_tag(subject: Subject, at: int) -> Edits:
    """Removes a tag of HTML, or writes the one of GABC that is like it. Removes the end of a raw
    part that none begins."""
    found = _TAG.match(subject.tag_at(at))
    if found is None or found[0] not in _RAW_ENDS and found[2].lower() not in HTML_TAGS:
        return ()
    like = HTML_TAGS.get(found[2].lower())
    return (Edit(at, found[0], f"<{found[1]}{like}>" if like else ""),)


def _special(subject: Subject, at: int) -> Edits:
    found = _BARRED.match(_in(NodeKind.RAW, subject, at))
    return (Edit(at + found.start(1), found[1], found[1][0] + "/"),) if found else ()


def _character(subject: Subject, at: int) -> Edits:
    found = ENTITY.match(subject.text, at)
    return (Edit(at, found[0], html.unescape(found[0])),) if found else ()


# ---- notes


def _open_notes(subject: Subject, at: int) -> Edits:
    it = opening_bracket(subject, at)
    return () if it is None else (Edit(it.offset, it.old, it.new),)


def _close_notes(subject: Subject, at: int) -> Edits:
    it = closing_bracket(subject, at)
    return () if it is None else (Edit(it.offset, it.old, it.new),)


def _remove_opener(subject: Subject, at: int) -> Edits:
    return (Edit(at, "(", ""),) if subject.text.startswith("((", at - 1) and at else ()


def _close_at_end(subject: Subject, at: int) -> Edits:
    if subject.text[at : at + 1] != "(" or not subject.text[at + 1 :].strip():
        return ()
    return (Edit(len(subject.text.rstrip()), "", ")"),)


def _notes_in_brackets(subject: Subject, at: int) -> Edits:
    end = subject.text.find("]", at)
    return (
        (Edit(at, "[", "("), Edit(end, "]", ")"))
        if subject.text.startswith("[", at) and end > at
        else ()
    )


def _clef(subject: Subject, at: int) -> Edits:
    found = clef_for(subject, at)
    return (
        (Edit(found.begin, found.spelling, found.meant),)
        if found is not None and found.meant
        else ()
    )


def _bars(subject: Subject, at: int) -> Edits:
    found = bars_for(subject, at)
    return (Edit(found.begin, found.spelling, found.meant),) if found is not None else ()


def _apostrophe(subject: Subject, at: int) -> Edits:
    it = subject.text[at : at + 1]
    return (Edit(at, it, "'"),) if it in APOSTROPHES else ()


def _sign_before_attribute(subject: Subject, at: int) -> Edits:
    begin = at
    while _in(NodeKind.ATTRIBUTE, subject, begin - 1):
        begin -= len(_in(NodeKind.ATTRIBUTE, subject, begin - 1))
    attributes, it = subject.text[begin:at], subject.text[at : at + 1]
    return (Edit(begin, attributes + it, it + attributes),) if attributes and it else ()


def _nabc_header(subject: Subject, at: int) -> Edits:
    """Writes the header, if at least a third of the syllables with notes hold a `|`: a single one
    is a slip of the key."""
    if (
        subject.text[at : at + 1] != "|"
        or bars_for(subject, at)
        or any(it.name == "nabc-lines" for it in subject.parts.headers)
    ):
        return ()
    with_notes = with_bars = 0
    for it in subject.tree.of_kind(NodeKind.SYLLABLE):
        with_notes += any(node.kind == NodeKind.NOTE for node in it)
        with_bars += any(node.kind == NodeKind.LEFT_OUT and node.source == b"|" for node in it)
    return (
        (Edit(subject.parts.score, "", "nabc-lines: 1;\n"),) if 3 * with_bars >= with_notes else ()
    )


def _leave_out_of_nabc(subject: Subject, at: int) -> Edits:
    it = subject.text[at : at + 1]
    return (Edit(at, it, ""),) if it.isascii() and it.isalnum() else ()


# ---- headers


def _end_header(subject: Subject, at: int) -> Edits:
    """Writes the `;` of a value: not at the end of a line that holds notes, and in place of a `,`
    or a `:` at its end."""
    line = subject.line_from(at).partition("%")[0].rstrip(" \t")
    if ":" not in line or NOTES.search(line) or subject.score_line is not None:
        return ()
    struck = struck_for_mark(line)
    return (Edit(at + len(line) - len(struck), struck, ";"),)


def _score_line(subject: Subject, at: int) -> Edits:
    found = subject.score_line
    return (
        () if found is None else (Edit(found.begin, subject.text[found.begin : found.end - 2], ""),)
    )


def _header_colon(subject: Subject, at: int) -> Edits:
    line = subject.line_from(at).rstrip(" \t")
    meant = meant_header(line)
    return (Edit(at, line, meant),) if meant is not None else ()


def _header_name(subject: Subject, at: int) -> Edits:
    name = _part_of_header(NodeKind.HEADER_NAME, subject, at)
    meant = nearest(name.old, HEADERS) if name else None
    return (replace(name, new=meant),) if name and meant else ()


def _mode(subject: Subject, at: int) -> Edits:
    value = _part_of_header(NodeKind.HEADER_VALUE, subject, at)
    number = MODES.get(value.old.upper()) if value else None
    return (replace(value, new=number),) if value and number else ()


def _part_of_header(kind: NodeKind, subject: Subject, at: int) -> Edit | None:
    """Returns an edit of the name or the value of the header at this offset, which removes it."""
    header = subject.header_at(at)
    nodes = subject.nodes_in(header.begin, header.end, kind) if header else ()
    return next((Edit(subject.begin(it), it.kept, "") for it in nodes), None)


# What each repair writes for a message at an offset.
MENDERS: dict[str, Callable[[Subject, int], Edits]] = {
    "escape": _escape,
    "style-in-each-syllable": _style_in_each_syllable,
    "open-notes": _open_notes,
    "remove-opener": _remove_opener,
    "close-notes": _close_notes,
    "close-at-end": _close_at_end,
    "notes-in-brackets": _notes_in_brackets,
    "clef": _clef,
    "double-bar": _bars,
    "apostrophe": _apostrophe,
    "sign-before-attribute": _sign_before_attribute,
    "nabc-header": _nabc_header,
    "leave-out-of-nabc": _leave_out_of_nabc,
    "close-tag": _close_tag,
    "escape-less": _escape_less,
    "html-tag": _html_tag,
    "barred-letter": _special,
    "html-entity": _character,
    "score-line": _score_line,
    "end-header": _end_header,
    "header-colon": _header_colon,
    "header-name": _header_name,
    "mode-number": _mode,
}
