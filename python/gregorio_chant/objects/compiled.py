"""A score beside all that the compiler answers of it, each asked for once."""
from __future__ import annotations

from collections.abc import Iterator
from functools import cached_property, lru_cache
from typing import TYPE_CHECKING

from gregorio_chant._native import library
from gregorio_chant._native.node_kinds import NodeKind
from gregorio_chant._native.nodes import Tree
from gregorio_chant._native.results import Format, Message, Report, Result, Status
from gregorio_chant._native.runs import Limits, Run
from gregorio_chant._native.trees import tree
from gregorio_chant.errors import GregorioError
from gregorio_chant.text.source import Lines, text_of
from gregorio_chant.work.statuses import CANNOT_READ_OR_WRITE

if TYPE_CHECKING:
    from gregorio_chant.objects.score import Score

# The most bytes of a score of which there is a tree: no score has a tenth of it.
MOST_BYTES = 8_000_000
# The size of a piece that is compiled to a dump at once, in bytes.
_PIECE = 1 << 17


def dump_in_pieces(data: bytes) -> Iterator[str]:
    """Yields the dump of a score, of a large one piece by piece: no more of it is held than a piece
    brings."""
    if len(data) <= _PIECE:
        yield library.compile(data, Format.DUMP).output
        return
    whole = memoryview(data)
    for step in Run(Format.DUMP).steps(
        whole[at : at + _PIECE] for at in range(0, len(data), _PIECE)
    ):
        yield step.output


def _under(data: bytes, limits: Limits, format: Format) -> Result:
    """Returns what a run under these limits makes of a score."""
    steps = list(Run(format, limits=limits).steps([data]))
    output, messages = "".join(it.output for it in steps), "".join(it.messages_text for it in steps)
    return Result(output, steps[-1].status or Status.WHOLE, messages, format)


@lru_cache(maxsize=1)
def _written(canonical: str) -> Tree:
    """Returns the tree of a canonical text: that of a score that is laid out anew is the same."""
    return tree(canonical)


class TooLong(GregorioError, ValueError):
    """A score is too long for its tree."""

    status = CANNOT_READ_OR_WRITE

    def __init__(self, length: int) -> None:
        super().__init__(f"it has {length:,} bytes, and the limit for this is {MOST_BYTES:,}")


class Compiled:
    """The bytes of a score, and what the compiler says of it: its tree, its canonical text and its
    messages, under these limits if they are given."""

    def __init__(self, data: bytes, limits: Limits | None = None) -> None:
        """Takes a score, and limits that are no wider than the usual ones. Raises `ValueError` for
        wider ones of the headers or of a syllable."""
        usual = Limits()
        if limits and (limits.header > usual.header or limits.syllable > usual.syllable):
            raise ValueError("limits out of range: a tree is made under the usual ones")
        self.data, self._limits = data, limits

    @classmethod
    def with_canonical(cls, data: bytes) -> Compiled:
        """Compiles a score whose canonical text is wanted, and not its messages alone."""
        compiled = cls(data)
        compiled._result
        return compiled

    @cached_property
    def tree(self) -> Tree:
        """Its tree, under the usual limits. Raises `TooLong` above `MOST_BYTES`."""
        if len(self.data) > MOST_BYTES:
            raise TooLong(len(self.data))
        return tree(self.data)

    @cached_property
    def _result(self) -> Result:
        if self._limits is None:
            return library.compile(self.data)
        return _under(self.data, self._limits, Format.GABC)

    @property
    def has_score(self) -> bool:
        """Whether the headers are whole, so that something is read of the score."""
        is_read = NodeKind.SCORE_LINE in self.tree.kinds
        return is_read and (self._limits is None or bool(self.canonical))

    @cached_property
    def count(self) -> int | None:
        """The number of syllables that are whole, if limits narrower than the usual ones may stop
        the score before its end."""
        if self._limits is None or self.fault is None:
            return None
        return _under(self.data, self._limits, Format.DUMP).output.count("\nsyllable ")

    @cached_property
    def _report(self) -> Report:
        """The status and the messages, of which a call that writes no canonical text is enough."""
        if self._limits is None and "_result" not in self.__dict__:
            return library.check(self.data)
        return Report(self._result.status, self._result.messages)

    @property
    def fault(self) -> Message | None:
        """The fatal fault that stops the score, if there is one."""
        if self._limits is None and "tree" in self.__dict__:
            is_fatal = NodeKind.UNREAD in self.tree.kinds
        else:
            is_fatal = self._report.status is Status.FATAL
        return self.messages[-1] if is_fatal else None

    @property
    def canonical(self) -> str:
        """Its canonical text."""
        return self._result.output

    @property
    def messages(self) -> tuple[Message, ...]:
        """All messages of the compiler."""
        return self._report.messages

    @cached_property
    def score(self) -> Score:
        """Its objects. Raises `ScoreError` for a fault in the headers."""
        from gregorio_chant.objects.score import Score

        return Score(self)

    @cached_property
    def written(self) -> Tree:
        """The tree of its canonical text."""
        return _written(self.canonical)

    @cached_property
    def lines(self) -> Lines:
        """The lines of its text as the compiler counts them."""
        return Lines(text_of(self.data))

    def byte(self, message: Message) -> int:
        """Returns the byte of the score at the place of a message."""
        return self.tree.places.at(message.line, message.column)

    @cached_property
    def dump(self) -> str:
        return "".join(dump_in_pieces(self.data))
