"""What the objects of a score ask of it: its tree, and views of the nodes with these numbers."""
from __future__ import annotations

import bisect
from collections.abc import Iterator
from functools import cached_property

from gregorio_chant._native.node_kinds import NodeKind
from gregorio_chant._native.nodes import kinds_pattern
from gregorio_chant._native.results import Message
from gregorio_chant.errors import GregorioError
from gregorio_chant.objects.compiled import Compiled
from gregorio_chant.objects.headers import Header
from gregorio_chant.objects.item import Item
from gregorio_chant.objects.items import Bar, Clef, Note
from gregorio_chant.objects.passages import Word, word_of
from gregorio_chant.objects.syllables import Glyph, Syllable, item_of
from gregorio_chant.objects.texts import all_letters
from gregorio_chant.objects.written import Written, begin_of_notes
from gregorio_chant.text.source import Source

_NOTES = kinds_pattern(NodeKind.NOTE)
_NOTES_AND_BARS = kinds_pattern(NodeKind.NOTE, NodeKind.BAR)
_GLYPHS = kinds_pattern(NodeKind.GLYPH)
_SNIPPETS = kinds_pattern(NodeKind.SNIPPET)


class ScoreError(GregorioError, ValueError):
    """The headers of a score are not whole, so nothing of it was read. `message` is the fault."""

    def __init__(self, message: Message) -> None:
        super().__init__(f"{message.line}:{message.column}: {message.code}: {message.text}")
        self.message = message


class Reading:
    """What was read of a score, up to a fatal fault if there is one."""

    def __init__(self, compiled: Compiled) -> None:
        """Takes what the compiler says of a score. Raises `ScoreError` for a fault in the headers,
        and `ValueError` for limits out of range."""
        self.compiled, self.tree = compiled, compiled.tree
        if not compiled.has_score:
            raise ScoreError(compiled.messages[-1])
        self._syllables = self.tree.numbers_of(NodeKind.SYLLABLE)[: compiled.count]

    @cached_property
    def written(self) -> Written:
        """The places of its parts in the canonical text."""
        return Written(self.compiled.canonical, self)

    def source(self, begin: int, end: int) -> Source:
        """Returns what stands in the file from one byte up to another, which is not within a CR
        LF."""
        data = self.tree.source
        end += data[end - 1 : end + 1] == b"\r\n" and begin < end
        return Source(self.tree.place(begin), data[begin:end].decode("utf-8", "replace"))

    def offset_in_notes(self, number: int, written: int) -> int:
        """Returns how many characters stand in the file before the character of the notes of the
        syllable `number`, from 0, that has `written` others before it in the canonical text."""
        syllable = self.syllables[number]
        node, begin = syllable.node, begin_of_notes(syllable)
        spans = self.tree.kept_spans(node.number + 1, node.past, begin, node.end)
        byte = self._byte_at(spans, written - self.written.of_notes(syllable))
        return self.tree.place(byte).offset

    def byte_of(self, number: int, index: int) -> int:
        """Returns where in the file the character `index`, from 0, of what was kept of a node
        stands."""
        node = self.tree[number]
        spans = self.tree.kept_spans(number + 1, node.past, node.begin, node.end)
        return self._byte_at(spans, index)

    def _byte_at(self, spans: Iterator[tuple[int, int]], index: int) -> int:
        end = 0
        for begin, end in spans:
            text = self.tree.source[begin:end].decode("utf-8", "replace")
            if index < len(text):
                return begin + len(text[:index].encode())
            index -= len(text)
        return end

    # ---- headers

    @cached_property
    def headers(self) -> tuple[Header, ...]:
        """The headers, each at the place of the first one of its name, with the last value."""
        return tuple(self._headers[0])

    @property
    def earlier_headers(self) -> tuple[Header, ...]:
        """The headers that another one of their name takes the place of."""
        return tuple(self._headers[1])

    @property
    def all_headers(self) -> Iterator[Header]:
        """Both, in the order of the file."""
        return (Header(self, it.number) for it in self.tree.of_kind(NodeKind.HEADER))

    @cached_property
    def _headers(self) -> tuple[list[Header], list[Header]]:
        counting: list[Header] = []
        earlier: list[Header] = []
        for header in self.all_headers:
            if header.repeats:
                name = header.name
                at = max(at for at, it in enumerate(counting) if it.name == name)
                earlier.append(counting[at])
                counting[at] = header
            else:
                counting.append(header)
        return counting, earlier

    # ---- syllables

    @cached_property
    def syllables(self) -> tuple[Syllable, ...]:
        return tuple(self.each_syllable())

    def each_syllable(self) -> Iterator[Syllable]:
        """Yields the syllables, which are made one by one, for who wants but the first ones."""
        return (Syllable(self, it, at) for at, it in enumerate(self._syllables, 1))

    @cached_property
    def plains(self) -> list[str]:
        """What is sung of the text of each syllable."""
        return all_letters(self.tree)

    @property
    def past(self) -> int:
        """The number of the node after the last syllable."""
        return self.tree[self._syllables[-1]].past if self._syllables else 0

    @cached_property
    def note_numbers(self) -> list[int]:
        """The numbers of the nodes of all notes."""
        return [it.start() for it in _NOTES.finditer(self.tree.kinds, 0, self.past)]

    def note(self, at: int) -> Note:
        """Returns the note `at`, from 0; a negative one counts from the end."""
        return Note(self, self.note_numbers[at])

    @cached_property
    def _clefs(self) -> list[int]:
        return self.tree.numbers_of(NodeKind.CLEF)

    def clef_before(self, number: int) -> Clef | None:
        """Returns the last clef before a node."""
        at = bisect.bisect_left(self._clefs, number)
        return Clef(self, self._clefs[at - 1]) if at else None

    def base_before(self, number: int) -> int | None:
        """Returns the step of a note at the height 0 before a node; `None` before any clef."""
        return self._bases[bisect.bisect_left(self._clefs, number)]

    @cached_property
    def _bases(self) -> list[int | None]:
        """The steps of the height 0, before any clef and under each one."""
        return [None, *(Clef(self, it).step(0) for it in self._clefs)]

    def syllable_of(self, number: int) -> Syllable:
        """Returns the syllable in which a node lies."""
        return self.syllables[bisect.bisect_right(self._syllables, number) - 1]

    def word_of(self, syllable: Syllable) -> Word | None:
        """Returns the word of a syllable, if it is in one."""
        return word_of(self.syllables, syllable.number - 1)

    def snippets_in(self, syllable: int) -> Iterator[int]:
        """Yields the numbers of the snippets of a syllable."""
        past = syllable + 1 + self.tree.wide[5 * syllable + 2]
        return (it.start() for it in _SNIPPETS.finditer(self.tree.kinds, syllable, past))

    def items_in(self, snippet: int) -> Iterator[Item]:
        """Yields the items of a snippet."""
        kinds, wide = self.tree.kinds, self.tree.wide
        number, past = snippet + 1, snippet + 1 + wide[5 * snippet + 2]
        while number < past:
            item = item_of(self, number)
            if item is not None:
                yield item
            number += 1 if kinds[number] == NodeKind.GLYPH else 1 + wide[5 * number + 2]

    def notes_in(self, first: int, past: int) -> Iterator[Note]:
        """Yields the notes among these nodes."""
        return (Note(self, it.start()) for it in _NOTES.finditer(self.tree.kinds, first, past))

    def notes_and_bars_in(self, first: int, past: int) -> Iterator[Note | Bar]:
        """Yields the notes and the bars among these nodes."""
        kinds = self.tree.kinds
        for it in _NOTES_AND_BARS.finditer(kinds, first, past):
            number = it.start()
            yield Note(self, number) if kinds[number] == NodeKind.NOTE else Bar(self, number)

    def glyphs_in(self, first: int, past: int) -> Iterator[Glyph]:
        """Yields the neumes of notes among these nodes."""
        return (Glyph(self, it.start()) for it in _GLYPHS.finditer(self.tree.kinds, first, past))
