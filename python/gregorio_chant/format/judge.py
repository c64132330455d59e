"""Judges a score that is written anew: whether it is the score that it was.

What the compiler answers is proved: the canonical text, the tree and the messages. That the same of
them is compared which matters is only tested.
"""
from __future__ import annotations

import hashlib
from collections.abc import Callable, Iterable, Iterator
from dataclasses import dataclass, fields

from gregorio_chant._native.node_kinds import NodeKind
from gregorio_chant._native.nodes import Tree
from gregorio_chant._native.results import Message
from gregorio_chant.format.parts import BLANKS, COMMENTS
from gregorio_chant.objects.compiled import Compiled

# In the tree only these nodes may differ: what comments say is compared by itself, and what the
# others say is in the canonical text.
_SPELLED = frozenset(
    (
        *COMMENTS,
        NodeKind.SYLLABLE,
        NodeKind.CHARACTERS,
        NodeKind.TEXT_BLANK,
        NodeKind.STYLE_TAG,
        NodeKind.FURTHER_BLANK,
        NodeKind.SILENT,
    )
)


@dataclass(frozen=True)
class Reading:
    """What has to stay when a score is written anew. Of long texts there are digests."""

    canonical: bytes
    tree: bytes
    messages: tuple[tuple[str, bytes], ...]
    comments: tuple[bytes, ...]
    letters: bytes

    @classmethod
    def of(cls, score: Compiled) -> Reading:
        """Reads a score that no fatal fault stops. Of a message it takes the code and the own bytes
        of the node at its place, without blanks."""
        tree = score.tree
        return cls(
            _digest([score.canonical.encode("utf-8")]),
            _digest(tree.said_but_of(_SPELLED)),
            tuple((it.code, _bytes_at(score, it)) for it in score.messages),
            tuple(filter(None, (it.source.strip() for it in tree.of_kind(*COMMENTS)))),
            _digest(_letters(tree)),
        )


def _letters(tree: Tree) -> Iterator[bytes]:
    """Yields the score without blanks, line ends and tags of styles, and its headers without each
    `;`."""
    at = next((it.begin for it in tree.root.children(NodeKind.SCORE_LINE)), len(tree.source))
    yield tree.source[:at].translate(None, BLANKS + b";")
    for tag in tree.of_kind(NodeKind.STYLE_TAG):
        yield tree.source[at : tag.begin].translate(None, BLANKS)
        at = tag.end
    yield tree.source[at:].translate(None, BLANKS)


def _digest(texts: Iterable[bytes]) -> bytes:
    """Returns a digest of the texts one after the other."""
    found = hashlib.sha256()
    for it in texts:
        found.update(it)
    return found.digest()


def _bytes_at(score: Compiled, message: Message) -> bytes:
    at = score.byte(message)
    return score.tree.at(at).own.translate(None, BLANKS) if at < len(score.data) else b""


_TOLD = {
    "canonical": "its canonical form would be another",
    "tree": "its tree would be another",
    "messages": "its messages would be others",
    "comments": "its comments would be others",
    "letters": "more would change than blanks, a spare ; of a mark and tags of styles",
}


def difference(old: Reading, new: Reading) -> str | None:
    """Returns what differs first, in words; nothing where both are the same."""
    return next(
        (
            _TOLD[it.name]
            for it in fields(Reading)
            if getattr(old, it.name) != getattr(new, it.name)
        ),
        None,
    )


def objection(old: Reading, new: Compiled, write: Callable[[Compiled], bytes]) -> str | None:
    """Returns why `new` may not take the place of the score that was read so; nothing where it may.
    `write` is what wrote `new`, and has to leave that as it is."""
    if new.fault is not None:
        return "it would not be whole"
    told = difference(old, Reading.of(new))
    if told is None and write(new) != new.data:
        return "it would change when it is formatted again"
    return told
