"""What the compiler read of a score and did not keep."""
from __future__ import annotations

from collections.abc import Iterable, Iterator
from dataclasses import dataclass
from typing import TYPE_CHECKING

from gregorio_chant._native.node_kinds import NodeKind
from gregorio_chant._native.nodes import Node
from gregorio_chant.text.source import Source

if TYPE_CHECKING:
    from gregorio_chant.objects.score import Score

_CUT = 106
_LETTERS = "EWF"


@dataclass(frozen=True, slots=True)
class LeftOut:
    """What the compiler left out of a score, with the code of its message; `W2` is the earlier
    value of a header."""

    code: str
    source: Source


def code_of(number: int) -> str:
    """Returns the code with this number."""
    return f"{_LETTERS[number // 100 - 1]}{number % 100}"


def _characters(score: Score, nodes: Iterable[Node]) -> Iterator[LeftOut]:
    """Yields the characters that were left out; what the end of a snippet cut off is one."""
    cuts: dict[int, list[Node]] = {}
    for it in nodes:
        if it.a == _CUT:
            cuts.setdefault(_snippet_before(it), []).append(it)
        else:
            yield LeftOut(code_of(it.a), score.source(it.begin, it.end))
    for cut in cuts.values():
        yield LeftOut(code_of(_CUT), score.source(cut[0].begin, cut[-1].end))


def _snippet_before(node: Node) -> int:
    """Returns the number of the last snippet before a node."""
    return node.tree.kinds.rfind(NodeKind.SNIPPET, 0, node.number)


def _header(score: Score, node: Node) -> Source:
    """Returns the place of a header that was left out, without the blanks around it."""
    source = node.source
    end = node.begin + len(source.rstrip())
    return score.source(node.end - len(source.lstrip()), end)


def left_out_of(score: Score) -> tuple[LeftOut, ...]:
    """Returns what was left out of a score, in order."""
    tree = score.tree
    found = list(_characters(score, tree.of_kind(NodeKind.LEFT_OUT)))
    for it in tree.of_kind(NodeKind.HEADER_LEFT_OUT):
        found.append(LeftOut(code_of(it.a), _header(score, it)))
    found += [LeftOut("W2", it.source) for it in score.earlier_headers]
    tags = {(it.line, it.column) for it in score.messages if it.code == "W3"}
    for it in tree.of_kind(NodeKind.STYLE_TAG, NodeKind.TRANSLATION):
        if it.kind == NodeKind.TRANSLATION and not it.b:
            found.append(LeftOut("W5", score.source(it.begin, it.end)))
        elif tags and it.kind == NodeKind.STYLE_TAG and (it.line, it.column) in tags:
            found.append(LeftOut("W3", score.source(it.begin, it.end)))
    return tuple(sorted(found, key=lambda it: (it.source.place, it.code)))
