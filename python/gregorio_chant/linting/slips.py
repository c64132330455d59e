"""What probably was meant at the place of a message. Helps say it, and repairs write it."""
from __future__ import annotations

import bisect
import re
from collections.abc import Iterable, Iterator
from dataclasses import dataclass
from functools import cached_property

from gregorio_chant._native.node_kinds import NodeKind
from gregorio_chant._native.nodes import Node, Tree, kinds_pattern
from gregorio_chant._native.results import Message
from gregorio_chant.linting.guesses import Bracket, Weights, lost_closer, lost_opener
from gregorio_chant.objects.compiled import Compiled
from gregorio_chant.text.nearest import nearest
from gregorio_chant.text.parts import HeaderSpan, Parts, Span, SyllableSpan
from gregorio_chant.text.source import Lines, text_of
from gregorio_chant.text.vocabulary import HEADERS

LEFT_OUT = frozenset(("E1", "E2", "E3"))
# What is typed, or put by a program of texts, for the apostrophe of an ictus.
APOSTROPHES = ("’", "‘", "ʼ", "´")
ENTITY = re.compile(r"&(?:#[0-9]+|#x[0-9A-Fa-f]+|[A-Za-z][A-Za-z0-9]*);")
MODES = {
    it: str(number)
    for number, it in enumerate(("I", "II", "III", "IV", "V", "VI", "VII", "VIII"), 1)
}
# Notes in a line that is read as a header.
NOTES = re.compile(r"\([^()\n]*\)")
# How many characters on each side of a slip a reading shows.
_AROUND = 16
_SHORT_LINE = 40
_CLEF = re.compile(
    r"(?P<turned>[1-5])(?P<kind>[cfCF]b?)|(?P<letter>[cfCF]b?)[lI]?(?P<line>[1-5])"
    r"|[A-Za-z]b?[lI]?[0-9]"
)
_BARS = re.compile(r"[ \t]*\|(?:[ \t]*\|)*[ \t]*")
_UNREAD_SCORE_LINE = re.compile(r"^[ \t]+%%", re.MULTILINE)
_UNREAD_TAG = re.compile(r"<[^>]*>")
_NOT_READ = (NodeKind.HEADER_COMMENT, NodeKind.UNREAD)
# What a bracket that is lost never stood in.
_WHOLE = (NodeKind.RAW, NodeKind.TAG, NodeKind.STYLE_TAG, NodeKind.SPAN_MARK, NodeKind.TRANSLATION)
_WITHOUT_COLON = re.compile(r"([\w-]+)(?:[ \t]*[-=.,;\u2013][ \t]*|[ \t]+)(\S[^;]*?)[;,. \t]*")


class Subject:
    """A score, and where its messages stand, as characters of the text as the compiler counts
    it."""

    def __init__(self, compiled: Compiled) -> None:
        self._compiled = compiled
        self.text = text_of(compiled.data)
        self.lines = Lines(self.text)

    @property
    def tree(self) -> Tree:
        """The tree of the score."""
        return self._compiled.tree

    @cached_property
    def left_out(self) -> frozenset[int]:
        """Where the characters stand that were left out."""
        messages = self._compiled.messages
        return frozenset(self.offset(it) for it in messages if it.code in LEFT_OUT)

    @cached_property
    def closers(self) -> list[int]:
        """Where each `)` stands that was left out, in order."""
        return sorted(it for it in self.left_out if self.text[it] == ")")

    @cached_property
    def parts(self) -> Parts:
        """Its headers, syllables and comments."""
        fault = self._compiled.fault
        at = None if fault is None else self.offset(fault)
        return Parts(self.tree, at if at is not None and self.text[at : at + 1] == "(" else None)

    @cached_property
    def weights(self) -> Weights:
        """How likely each pitch is in the score."""
        return Weights(self.tree)

    @cached_property
    def uncommented(self) -> str:
        """The text with a blank in place of each character of a comment."""
        pieces, at = [], 0
        for it in self.parts.comments:
            pieces += [self.text[at : it.begin], " " * (it.end - it.begin)]
            at = it.end
        return "".join([*pieces, self.text[at:]])

    @cached_property
    def score_line(self) -> Span | None:
        """Where a line ` %%` stands in the headers: the blanks before it make it a comment. In a
        value it is part of that."""
        for it in _UNREAD_SCORE_LINE.finditer(self.text, 0, self.parts.score):
            if self.kind_at(it.end() - 1) in _NOT_READ:
                return Span(*it.span())
        return None

    def nodes_in(self, begin: int, end: int, *kinds: NodeKind) -> Iterator[Node]:
        """Yields the nodes of these kinds that begin from the character `begin` up to `end`."""
        begins = self.tree.wide[::5]
        first, past = (bisect.bisect_left(begins, self.tree.places.byte(it)) for it in (begin, end))
        found = kinds_pattern(*kinds).finditer(self.tree.kinds, first, past)
        return (self.tree[it.start()] for it in found)

    def node_at(self, offset: int) -> Node | None:
        """Returns the innermost node that holds the character at this offset, if there is one."""
        at = self.tree.places.byte(offset)
        return self.tree.at(at) if 0 <= offset and at < len(self.tree.source) else None

    def kind_at(self, offset: int) -> NodeKind | None:
        """Returns the kind of that node."""
        node = self.node_at(offset)
        return None if node is None else node.kind

    def tag_at(self, offset: int) -> str:
        """Returns the tag at this offset, if it is one of a style or not known; in what was not
        read, what looks like one. Else it is empty."""
        node = self.node_at(offset)
        if node is not None and node.kind == NodeKind.UNREAD:
            found = _UNREAD_TAG.match(self.text, offset)
            return found[0] if found else ""
        is_tag = node is not None and node.kind in (NodeKind.TAG, NodeKind.STYLE_TAG)
        return node.kept if node is not None and is_tag else ""

    def begin(self, node: Node) -> int:
        """Returns where a node begins."""
        return self.tree.places.counted(node.begin)

    def offset(self, message: Message) -> int:
        return self.lines.offset(message.line, message.column)

    def place(self, offset: int) -> str:
        """Returns a place as messages write it: line and column."""
        place = self.lines.place(offset)
        return f"{place.line}:{place.column}"

    def line_from(self, offset: int) -> str:
        """Returns what stands from this offset up to the end of its line."""
        end = self.text.find("\n", offset)
        return self.text[offset : len(self.text) if end < 0 else end]

    def syllable_at(self, offset: int) -> SyllableSpan | None:
        number = self.parts.number_at(offset)
        return None if number is None else self.parts.syllables[number]

    def header_at(self, offset: int) -> HeaderSpan | None:
        headers = self.parts.headers
        number = bisect.bisect_right(headers, offset, key=lambda it: it.begin) - 1
        return headers[number] if number >= 0 else None

    def unclosed(self, offset: int) -> int | None:
        """Returns where the `(` stands that probably lacks its `)`, if `offset` lies in notes that
        hold another `(` after it."""
        it = self.syllable_at(offset)
        if it is None or offset <= it.notes:
            return None
        return it.notes if self.inner(it) is not None else None

    def inner(self, syllable: SyllableSpan) -> int | None:
        """Returns where the first `(` stands that was left out of the notes of a syllable; one in
        an attribute is none."""
        at = self.text.find("(", syllable.notes + 1, syllable.end)
        while at >= 0 and at not in self.left_out:
            at = self.text.find("(", at + 1, syllable.end)
        return at if at >= 0 else None


def readings(text: str, edits: Iterable[tuple[int, str, str]]) -> tuple[str, str]:
    """Returns how a part of a text is spelled, and how it is with these edits: offsets, what stands
    there and what is written. Of a header both are the whole line if that is short; else they go up
    to the next blanks, and not far."""
    them = sorted(edits)
    first, last = them[0][0], them[-1][0] + len(them[-1][1])
    line_begin, line_end = text.rfind("\n", 0, first) + 1, text.find("\n", last)
    line_end = len(text) if line_end < 0 else line_end
    is_short = line_end - line_begin <= _SHORT_LINE and "\n%%" not in text[:first]
    begin, end = (line_begin, line_end) if is_short else (first, last)
    while begin > max(0, first - _AROUND) and not text[begin - 1].isspace():
        begin -= 1
    while end < min(len(text), last + _AROUND) and not text[end].isspace():
        end += 1
    made, at = "", begin
    for offset, old, new in them:
        made += text[at:offset] + new
        at = offset + len(old)
    return text[begin:end], made + text[at:end]


# ---- brackets


def opening_bracket(subject: Subject, at: int) -> Bracket | None:
    """Returns where the `(` probably is missing that belongs to a `)` which closes nothing."""
    text = subject.text
    if not text.startswith(")", at) or at and text[at - 1] == ")":
        return None
    found = lost_opener(text, at, subject.weights)
    node = None if found is None else subject.node_at(found.offset)
    if found is None or node is None or node.kind not in _WHOLE:
        return found
    return found if subject.begin(node) == found.offset else None


def closing_bracket(subject: Subject, at: int) -> Bracket | None:
    """Returns where the `)` probably is missing of the notes that hold this offset and another
    `(`."""
    it = subject.syllable_at(at)
    inner = subject.inner(it) if it is not None and at > it.notes else None
    return (
        None
        if it is None or inner is None or inner == it.notes + 1
        else lost_closer(subject.uncommented, it.notes, inner, subject.weights)
    )


# ---- notes


@dataclass(frozen=True)
class Meant:
    """A part of a score that begins at the offset `begin`, and what was meant by it; nothing if
    that is not known."""

    begin: int
    spelling: str
    meant: str


def clef_for(subject: Subject, at: int) -> Meant | None:
    """Returns the notes at this offset if they look like a clef that is written wrongly: they have
    no text, and are a letter and a digit."""
    it = subject.syllable_at(at)
    if it is None or at < it.notes:
        return None
    if any(map(str.isalpha, subject.uncommented[it.begin : it.notes])):
        return None
    notes = subject.text[it.notes + 1 : it.end].removesuffix(")")
    found = _CLEF.fullmatch(notes)
    if found is None:
        return None
    kind, line = found["kind"] or found["letter"], found["turned"] or found["line"]
    if notes[0] not in "cfCF12345" and it.notes != subject.parts.syllables[0].notes:
        return None
    return Meant(it.notes + 1, notes, f"{kind.lower()}{line}" if kind else "")


def bars_for(subject: Subject, at: int) -> Meant | None:
    """Returns the notes at this offset if they are two `|` and nothing else: a double bar is
    meant."""
    it = subject.syllable_at(at)
    if it is None or at <= it.notes:
        return None
    notes = subject.text[it.notes + 1 : it.end].removesuffix(")")
    return (
        Meant(it.notes + 1, notes, "::")
        if notes.count("|") == 2 and _BARS.fullmatch(notes)
        else None
    )


# ---- headers


def struck_for_mark(line: str) -> str:
    """Returns the `,` or `:` that ends the value of a header in place of its `;`; nothing if none
    does."""
    value = line.partition(":")[2].strip(" \t")
    return value[-1] if value.endswith((",", ":")) else ""


def meant_header(line: str) -> str | None:
    """Returns the header that a line without a colon was meant to be, if its first word is nearly
    the name of one."""
    found = _WITHOUT_COLON.fullmatch(line)
    if found is None:
        return None
    name = found[1] if found[1] in HEADERS else nearest(found[1], HEADERS)
    return f"{name}: {found[2]};" if name else None


# ---- texts


def open_styles(subject: Subject, syllable: SyllableSpan) -> list[str]:
    """Returns the styles that are open at the end of the text of a syllable, the first one
    first."""
    found: list[str] = []
    for tag in subject.parts.style_tags_in(syllable.begin, syllable.notes):
        if not tag.closes and tag.name not in found:
            found.append(tag.name)
        elif tag.closes and tag.name in found:
            found.remove(tag.name)
    return found
