"""Bends trees by one record, and asks that what `test_tree_texts` looks at refuses each: a test
that a wrong tree passes would show nothing."""
from __future__ import annotations

import random
import struct
import unittest
from collections.abc import Callable, Iterable
from dataclasses import dataclass, replace

from mutants import mutants
from support import files_of_scores
from test_tree_texts import check_tree

from gregorio_chant import NodeKind, Tree, tree
from gregorio_chant._native.nodes import RECORD

_RECORD = struct.Struct("=3I4H")
SEED = 5
TREES = 400
# How often each edit is tried.
TRIES = 12


@dataclass(frozen=True)
class Record:
    """A record of a tree."""

    begin: int
    end: int
    inner: int
    kind: int
    a: int
    b: int
    c: int


Records = list[Record]
Edit = Callable[[Records, int], None]


def records_of(made: Tree) -> Records:
    """Returns the records of a tree."""
    return [Record(it.begin, it.end, len(it), it.kind, *it.values) for it in made]


def tree_of(source: bytes, records: Records) -> Tree:
    """Returns the tree of these records."""
    packed = b"".join(
        _RECORD.pack(it.begin, it.end, it.inner, it.kind, it.a, it.b, it.c) for it in records
    )
    assert len(packed) == RECORD * len(records)
    return Tree(source, packed)


def ends_early(records: Records, at: int) -> None:
    records[at] = replace(records[at], end=records[at].end - 1)


def begins_late(records: Records, at: int) -> None:
    records[at] = replace(records[at], begin=records[at].begin + 1)


def is_gone(records: Records, at: int) -> None:
    del records[at]
    for before in range(at):
        if before + records[before].inner >= at:
            records[before] = replace(records[before], inner=records[before].inner - 1)


def holds_one_more(records: Records, at: int) -> None:
    """The node holds the one after those that lie in it, up to its end."""
    past = at + 1 + records[at].inner
    records[at] = replace(
        records[at], inner=records[at].inner + 1, end=records[past].end, c=records[at].c + 1
    )


def counts_short(records: Records, at: int) -> None:
    records[at] = replace(records[at], inner=records[at].inner - 1)


def other_a(records: Records, at: int) -> None:
    records[at] = replace(records[at], a=records[at].a ^ 1)


def other_b(records: Records, at: int) -> None:
    records[at] = replace(records[at], b=records[at].b ^ 1)


def other_c(records: Records, at: int) -> None:
    records[at] = replace(records[at], c=records[at].c ^ 1)


def no_alteration(records: Records, at: int) -> None:
    records[at] = replace(records[at], c=records[at].c & ~24)


def one_mora_more(records: Records, at: int) -> None:
    records[at] = replace(records[at], b=records[at].b ^ 128)


def is_some(records: Records, at: int) -> bool:
    return records[at].begin < records[at].end


def has_two(records: Records, at: int) -> bool:
    return records[at].end - records[at].begin > 1


def holds_some(records: Records, at: int) -> bool:
    return records[at].inner > 0


def is_altered(records: Records, at: int) -> bool:
    return records[at].c & 24 != 0


def is_before_a_glyph(records: Records, at: int) -> bool:
    past = at + 1 + records[at].inner
    return past < len(records) and records[past].kind == NodeKind.GLYPH


def always(records: Records, at: int) -> bool:
    return True


@dataclass(frozen=True)
class Bend:
    """An edit of records, and the nodes at which it is made: those of a kind for which something
    holds."""

    name: str
    kind: NodeKind
    edit: Edit
    where: Callable[[Records, int], bool] = always


BENDS = (
    Bend("the unread begins a byte late", NodeKind.UNREAD, begins_late, is_some),
    Bend("the unread has another code", NodeKind.UNREAD, other_a),
    Bend("a comment ends a byte early", NodeKind.COMMENT, ends_early, has_two),
    Bend("what is silent is no node", NodeKind.SILENT, is_gone),
    Bend("a character that is left out is no node", NodeKind.LEFT_OUT, is_gone),
    Bend(
        "a character that is left out has another code",
        NodeKind.LEFT_OUT,
        other_a,
        lambda records, at: records[at].a <= 103,
    ),
    Bend("a further blank is no node", NodeKind.FURTHER_BLANK, is_gone),
    Bend("a header's value ends a byte early", NodeKind.HEADER_VALUE, ends_early, is_some),
    Bend("a header's name begins a byte late", NodeKind.HEADER_NAME, begins_late, has_two),
    Bend("a glyph is a note too long", NodeKind.GLYPH, holds_one_more, is_before_a_glyph),
    Bend("a glyph counts a note more", NodeKind.GLYPH, other_c),
    Bend("a glyph is another one", NodeKind.GLYPH, other_a),
    Bend("a count leaves out what a snippet holds", NodeKind.SNIPPET, counts_short, holds_some),
    Bend("a count leaves out what the file holds", NodeKind.FILE, counts_short, holds_some),
    Bend("the translation that counts does not", NodeKind.TRANSLATION, other_b),
    Bend("a note without the alteration in force", NodeKind.NOTE, no_alteration, is_altered),
    Bend("a note at another height", NodeKind.NOTE, other_a),
    Bend("a note of another degree", NodeKind.NOTE, other_c),
    Bend("a note with a mora more", NodeKind.NOTE, one_mora_more),
    Bend("a note ends a byte early", NodeKind.NOTE, ends_early, has_two),
    Bend("a syllable at another position", NodeKind.SYLLABLE, other_a),
    Bend("a bar of another name", NodeKind.BAR, other_a),
    Bend("characters in another style", NodeKind.CHARACTERS, other_a),
)


def places_of(
    bend: Bend, trees: Iterable[tuple[bytes, Records]]
) -> list[tuple[bytes, Records, int]]:
    """Returns the nodes at which an edit may be made."""
    return [
        (source, records, at)
        for source, records in trees
        for at, it in enumerate(records)
        if it.kind == bend.kind and bend.where(records, at)
    ]


class Wrong(unittest.TestCase):
    trees: list[tuple[bytes, Records]]

    @classmethod
    def setUpClass(cls) -> None:
        scores = [it.read_bytes() for it in files_of_scores()]
        cls.trees = [(it, records_of(tree(it))) for it in [*scores, *mutants(scores, TREES, SEED)]]

    def test_each_edit_is_refused(self) -> None:
        drawn = random.Random(SEED)
        for bend in BENDS:
            with self.subTest(bend=bend.name):
                places = places_of(bend, self.trees)
                self.assertTrue(places)
                for source, records, at in drawn.sample(places, min(TRIES, len(places))):
                    bent = list(records)
                    bend.edit(bent, at)
                    with self.assertRaises(
                        (ValueError, IndexError, StopIteration),
                        msg=f"{source!r}, node {at}: {records[at]}",
                    ):
                        check_tree(tree_of(source, bent))

    def test_no_edit_is_none(self) -> None:
        for source, records in self.trees[:40]:
            check_tree(tree_of(source, records))


if __name__ == "__main__":
    unittest.main()
