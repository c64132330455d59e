"""Where the messages of a score stand: which belongs to which syllable, and at which byte."""
from __future__ import annotations

import bisect
from collections.abc import Sequence
from dataclasses import dataclass, field

from gregorio_chant._native.node_kinds import NodeKind
from gregorio_chant._native.results import Kind, Message
from gregorio_chant.objects.score import Score


@dataclass(frozen=True, slots=True)
class Mark:
    """A message with its number, from 1, and its byte in the score."""

    number: int
    message: Message
    byte: int


@dataclass
class Places:
    """The marks of each syllable, by its number from 0, in the order of their bytes, and those
    before the first one and after the last one."""

    by_syllable: dict[int, list[Mark]] = field(default_factory=dict)
    before: list[Mark] = field(default_factory=list)
    after: list[Mark] = field(default_factory=list)


def places_of(score: Score | None, messages: Sequence[Message]) -> Places:
    """Returns where all messages of a score stand; of one of which nothing was read they come
    last."""
    places = Places()
    if score is None:
        places.after = [Mark(at, it, 0) for at, it in enumerate(messages, 1)]
        return places
    ends = [it.node.end for it in score.syllables]
    begin = next(score.tree.of_kind(NodeKind.SCORE_LINE)).end
    for at, message in enumerate(messages, 1):
        mark = Mark(at, message, score.tree.places.at(message.line, message.column))
        number = bisect.bisect_right(ends, mark.byte)
        if message.kind is not Kind.FATAL and mark.byte < begin:
            places.before.append(mark)
        elif message.kind is Kind.FATAL or number == len(ends):
            places.after.append(mark)
        else:
            places.by_syllable.setdefault(number, []).append(mark)
    for marks in places.by_syllable.values():
        marks.sort(key=lambda it: it.byte)
    return places
