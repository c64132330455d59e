"""Makes repairs of a score, and judges them.

A repair is made only if the new text has its message no more and no other message comes, if the
canonical form differs in the repaired headers and syllables alone, and if all comments stay; a safe
one only if notes and sung letters stay as they are too. What the compiler answers of the new text
is proved; the rest of the judge is only tested.
"""
from __future__ import annotations

import bisect
import re
from collections import Counter
from collections.abc import Callable, Iterable, Iterator, Sequence
from dataclasses import dataclass
from itertools import accumulate

from gregorio_chant._native.node_kinds import NodeKind
from gregorio_chant._native.results import Message
from gregorio_chant.linting.codes import CODES
from gregorio_chant.linting.facts import named
from gregorio_chant.linting.finding import messages_with_rules, unsilenced
from gregorio_chant.linting.mending import MENDERS, Edit, Edits
from gregorio_chant.linting.problems import Change, ProblemRepair
from gregorio_chant.linting.repairs import REPAIRS, Repair
from gregorio_chant.linting.rules import RULES
from gregorio_chant.linting.selection import Selection
from gregorio_chant.linting.slips import Subject, readings
from gregorio_chant.objects.compiled import Compiled
from gregorio_chant.objects.pauses import Pause, go_on
from gregorio_chant.objects.score import Score
from gregorio_chant.objects.syllables import Syllable
from gregorio_chant.objects.written import notes_of
from gregorio_chant.text.parts import Span
from gregorio_chant.text.source import raw_offsets

# How many bytes of scores are compiled for one score at most, so that its repairs take seconds;
# with rules a byte takes so many times longer.
_MOST_COMPILED = 6_000_000
_RULES_TAKE = 12
# How many bytes of scores that were tried are kept.
_MOST_KEPT = 200_000
_NO_LETTERS = re.compile(r"[\W_]+")
_LINE_END = re.compile("\r\n|\n|\r")
# What a repair may take away if a fault stops the score: blanks and the mark in place of a `;`.
_LITTLE = re.compile(r"[ \t]+|[,:]")


@dataclass(frozen=True)
class How:
    """Which repairs are made: of which messages, of those of rules too, and by guesses too."""

    allow_unsafe: bool = False
    with_rules: bool = False
    selection: Selection = Selection()


@dataclass(frozen=True)
class Proposal:
    """The edits that a repair would make for a message, the first one first."""

    message: Message
    repair: Repair
    edits: Edits

    def line(self, text: str) -> str:
        """Returns what it does to `text`, with how that reads now and then; of a guess also what it
        changes."""
        before, after = readings(text, ((it.offset, it.old, it.new) for it in self.edits))
        told = (
            f"{named(before)} becomes {named(after)}"
            if before.strip()
            else f"{named(after.strip())} is written"
        )
        return told if self.repair.is_safe else f"a guess: {told}; {self.repair.changes}"


# ---- the judge


class _Moved:
    """Maps offsets in the new text to offsets in the old one."""

    def __init__(self, edits: Sequence[Edit]) -> None:
        self._edits = edits
        self._grown = [0, *accumulate(len(it.new) - len(it.old) for it in edits)]
        self._begins = [it.offset + grown for it, grown in zip(edits, self._grown)]

    def before(self, offset: int) -> int:
        """Returns the offset in the old text; of what was written in place of another, where that
        began."""
        number = bisect.bisect_right(self._begins, offset)
        if number and offset < self._begins[number - 1] + len(self._edits[number - 1].new):
            return self._edits[number - 1].offset
        return offset - self._grown[number]


def _found(score: Compiled, with_rules: bool) -> tuple[Message, ...]:
    return messages_with_rules(score) if with_rules else unsilenced(score)


_Placed = Counter[tuple[str, int]]


def _messages_at(
    score: Compiled, found: Iterable[Message], place: Callable[[int], int] = lambda offset: offset
) -> _Placed:
    """Returns the messages of the rules and of the compiler by their codes and offsets."""
    subject = Subject(score)
    return Counter((it.code, place(subject.offset(it))) for it in {*found, *score.messages})


def _comments(score: Compiled) -> list[bytes]:
    """Returns the comments of a score, with what a U+FEFF parts each in."""
    comments = score.tree.of_kind(NodeKind.COMMENT, NodeKind.HEADER_COMMENT)
    return [it.source for it in comments]


def _alike(olds: Sequence[str], news: Sequence[str]) -> int:
    """Returns how many of the first ones are the same."""
    return next(
        (at for at, (a, b) in enumerate(zip(olds, news)) if a != b), min(len(olds), len(news))
    )


def _headers(score: Score) -> list[str]:
    return [it.spelling for it in score.headers]


def _differs_there_alone(old: Compiled, new: Compiled, places: Sequence[int]) -> bool:
    """Returns whether the canonical forms differ in headers and syllables alone that hold one of
    the `places` of the old text."""
    parts = Subject(old).parts
    before, after = old.score, new.score
    if _headers(before) != _headers(after) and not any(it <= parts.score for it in places):
        return False
    olds = [it.spelling for it in before.syllables]
    news = [it.spelling for it in after.syllables]
    begin = _alike(olds, news)
    end = min(_alike(olds[::-1], news[::-1]), len(olds) - begin, len(news) - begin)
    changed = parts.syllables[begin : len(olds) - end]
    if len(olds) == len(news):
        changed = [it for it, a, b in zip(parts.syllables, olds, news) if a != b]
    return all(_is_touched(it, places) for it in changed)


def _is_touched(span: Span, places: Sequence[int]) -> bool:
    first = bisect.bisect_left(places, span.begin)
    return first < len(places) and places[first] <= span.end


def _sings_the_same(old: Score, new: Score) -> bool:
    """Returns whether the canonical forms have the same headers, notes and NABC, and the letters
    that are sung are the same."""
    return (
        len(old.syllables) == len(new.syllables)
        and _headers(old) == _headers(new)
        and all(
            notes_of(before) == notes_of(after) and _sung(before) == _sung(after)
            for before, after in zip(old.syllables, new.syllables)
        )
    )


def _sung(syllable: Syllable) -> str:
    """Returns the letters and digits of a syllable's text."""
    return _NO_LETTERS.sub("", syllable.plain)


class _Tried:
    """The scores that were tried last: none of them is compiled again."""

    def __init__(self) -> None:
        self._by_data: dict[bytes, Compiled] = {}

    def compiled(self, data: bytes) -> Compiled:
        """Returns a score, as it was tried if it is known."""
        if data not in self._by_data:
            if sum(map(len, self._by_data)) + len(data) > _MOST_KEPT:
                self._by_data.clear()
            self._by_data[data] = Compiled(data)
        return self._by_data[data]


class _Draft:
    """A score that is to be repaired, with all that its judge has to know of it, and the scores
    that were `tried` for it."""

    def __init__(
        self,
        score: Compiled,
        found: Iterable[Message],
        with_rules: bool,
        tried: _Tried | None = None,
    ) -> None:
        self.score, self.with_rules, self._tried = score, with_rules, tried or _Tried()
        self._found = tuple(found)
        self._raw = score.data.decode("utf-8")
        self._offsets = raw_offsets(self._raw)
        line_end = _LINE_END.search(self._raw)
        self._line_end = line_end[0] if line_end else "\n"

    def changes(self, edits: Iterable[Edit]) -> Iterator[Change]:
        """Yields what these edits change in the score as it is written, with its own line ends."""
        for it in edits:
            yield Change(
                self._offsets[it.offset],
                self._offsets[it.end],
                it.new.replace("\n", self._line_end),
            )

    def with_edits(self, edits: Iterable[Edit]) -> bytes:
        """Returns the score with these edits, of which none begins before the one before it
        ends."""
        parts, at = [], 0
        for it in self.changes(edits):
            parts += [self._raw[at : it.begin], it.new]
            at = it.end
        return "".join([*parts, self._raw[at:]]).encode("utf-8")

    def made(self, proposals: Sequence[Proposal]) -> Compiled:
        """Returns the score with these repairs."""
        return self._tried.compiled(self.with_edits(edit for it in proposals for edit in it.edits))

    def takes(self, proposals: Sequence[Proposal]) -> bool:
        """Returns whether these repairs may be made together."""
        edits = [edit for it in proposals for edit in it.edits]
        old, new = self.score, self.made(proposals)
        if old.fault is not None:
            is_later = new.fault is None or (new.fault.line, new.fault.column) > (
                old.fault.line,
                old.fault.column,
            )
            return is_later and all(not it.old or _LITTLE.fullmatch(it.old) for it in edits)
        if new.fault is not None:
            return False
        before = _messages_at(old, self._found)
        after = _messages_at(new, _found(new, self.with_rules), _Moved(edits).before)
        subject = Subject(old)
        wanted = {(it.message.code, subject.offset(it.message)) for it in proposals}
        if after - before or any(it in after for it in wanted):
            return False
        places = sorted([*(offset for _, offset in before - after), *(it.offset for it in edits)])
        if _comments(old) != _comments(new) or not _differs_there_alone(old, new, places):
            return False
        is_safe = all(it.repair.is_safe for it in proposals)
        return not is_safe or _sings_the_same(old.score, new.score)


class _Judge:
    """Judges repairs of one score, until their time is over."""

    def __init__(self) -> None:
        self._left = _MOST_COMPILED

    def takes(self, draft: _Draft, proposals: Sequence[Proposal]) -> bool:
        """Returns whether these repairs may be made together, and there was time to look."""
        cost = len(draft.score.data) * (_RULES_TAKE if draft.with_rules else 1)
        if cost > self._left:
            return False
        self._left -= cost
        return draft.takes(proposals)


# ---- what is made of a score


def is_text(data: bytes) -> bool:
    """Returns whether all of a score is UTF-8, also what stands after a fatal fault: no other one
    can be repaired."""
    try:
        data.decode("utf-8")
    except UnicodeDecodeError:
        return False
    return True


def with_edits(data: bytes, edits: Iterable[Edit]) -> bytes:
    """Returns a score of UTF-8 with these edits, of which none begins before the one before it
    ends."""
    return _Draft(Compiled(data), (), False).with_edits(edits)


def _proposals(
    subject: Subject, messages: Iterable[Message], is_wanted: Callable[[Repair], bool]
) -> Iterator[list[Proposal]]:
    """Yields the proposals for each message, the likeliest first; no edits are proposed twice."""
    wanted = {
        code: [it for it in REPAIRS.values() if code in it.codes and is_wanted(it)]
        for code in (*CODES, *RULES)
    }
    known: set[Edits] = set()
    for message in messages:
        found = []
        for repair in wanted[message.code]:
            edits = tuple(sorted(MENDERS[repair.name](subject, subject.offset(message))))
            if edits and edits not in known:
                known.add(edits)
                found.append(Proposal(message, repair, edits))
        if found:
            yield found


def proposals_for(
    score: Compiled, messages: Iterable[Message], with_rules: bool, pause: Pause = go_on
) -> Iterator[Proposal]:
    """Yields each repair of these messages that may be made by itself, unsafe ones too. Messages of
    rules are looked at only `with_rules`."""
    if not is_text(score.data):
        return
    draft = _Draft(score, _found(score, with_rules), with_rules)
    for them in _proposals(Subject(score), messages, lambda _: True):
        for it in them:
            pause()
            if draft.takes([it]):
                yield it


def repair_of_each(
    score: Compiled, found: Iterable[Message], messages: Iterable[Message], with_rules: bool
) -> dict[Message, ProblemRepair]:
    """Returns for each of these messages, of all that are `found`, the likeliest repair that may be
    made by itself; of a fatal fault alone, if there is one. Messages for which no time is left have
    none, and a message that shares its repair with one before it.
    """
    if not is_text(score.data):
        return {}
    draft, judge = _Draft(score, found, with_rules), _Judge()
    told = messages if score.fault is None else (score.fault,)
    subject = Subject(score)
    repairs = {}
    for them in _proposals(subject, told, lambda _: True):
        it = next((it for it in them if judge.takes(draft, [it])), None)
        if it is not None:
            repairs[it.message] = ProblemRepair(
                it.repair.name,
                it.repair.is_safe,
                it.line(subject.text),
                tuple(draft.changes(it.edits)),
            )
    return repairs


def has_safe_repair(subject: Subject, messages: Iterable[Message]) -> bool:
    """Returns whether a safe repair is proposed for one of these messages; it may be refused."""
    return any(_proposals(subject, messages, lambda it: it.is_safe))


@dataclass(frozen=True)
class Guess:
    """A guess that was made: its place in the score before it, the name of its repair, and what it
    changes."""

    line: int
    column: int
    repair: str
    text: str

    def __str__(self) -> str:
        return f"{self.line}:{self.column}: {self.repair}: {self.text}"


@dataclass(frozen=True)
class Repaired:
    """A score with its repairs, the guesses that were made, and what is found in the score then, if
    that is known."""

    score: Compiled
    guesses: tuple[Guess, ...] = ()
    found: tuple[Message, ...] | None = None

    @property
    def data(self) -> bytes:
        """The bytes of the score."""
        return self.score.data


class _Repairing:
    """Repairs one score. What touches nothing of each other is tried together, and halved if it is
    refused."""

    def __init__(self, how: How, pause: Pause) -> None:
        self._how, self._pause = how, pause
        self._judge, self._tried = _Judge(), _Tried()
        self.guesses: list[Guess] = []
        # What was found in the score that was looked at last.
        self.found: tuple[Message, ...] = ()

    def once(self, old: Compiled, is_safe: bool) -> Compiled:
        """Returns the score with as many safe repairs, or guesses, as can be made together."""
        found = self.found = _found(old, self._how.with_rules)
        told = self._how.selection.of(found) if old.fault is None else (old.fault,)
        subject = Subject(old)
        waiting = list(_proposals(subject, told, lambda it: it.is_safe == is_safe))
        draft = _Draft(old, found, self._how.with_rules, self._tried)
        while waiting:
            batch, waiting = _apart(waiting)
            made = self._taken(draft, batch)
            if made:
                if not is_safe:
                    self.guesses += [
                        Guess(
                            it.message.line,
                            it.message.column,
                            it.repair.name,
                            it.line(subject.text),
                        )
                        for it in made
                    ]
                return draft.made(made)
        return old

    def _taken(self, draft: _Draft, proposals: Sequence[Proposal]) -> list[Proposal]:
        """Returns those of these repairs, of which none touches another, that can be made
        together."""
        if self._is_taken(draft, proposals):
            return list(proposals)
        if len(proposals) < 2:
            return []
        half = len(proposals) // 2
        first, second = self._taken(draft, proposals[:half]), self._taken(draft, proposals[half:])
        both = [*first, *second]
        if not first or not second or len(both) < len(proposals) and self._is_taken(draft, both):
            return both
        return first

    def _is_taken(self, draft: _Draft, proposals: Sequence[Proposal]) -> bool:
        self._pause()
        return self._judge.takes(draft, proposals)


def _apart(waiting: Iterable[list[Proposal]]) -> tuple[list[Proposal], list[list[Proposal]]]:
    """Returns the likeliest proposal of as many messages as touch nothing of each other, and all
    that is left."""
    batch: list[Proposal] = []
    left: list[list[Proposal]] = []
    end = -1
    for them in sorted(waiting, key=lambda them: them[0].edits):
        it = them[0]
        if end < it.edits[0].offset:
            batch.append(it)
            end = it.edits[-1].end
            them = them[1:]
        if them:
            left.append(them)
    return batch, left


def repair(score: Compiled, how: How, pause: Pause = go_on) -> Repaired:
    """Returns the score with all repairs that can be made of messages that are reported: the safe
    ones first. A score that a fatal fault still stops afterwards stays as it is. There is a pause
    before each try."""
    if not is_text(score.data):
        return Repaired(score)
    repairing = _Repairing(how, pause)
    new = score
    while True:
        made = repairing.once(new, is_safe=True)
        if made is new and how.allow_unsafe:
            made = repairing.once(new, is_safe=False)
        if made is new:
            break
        new = made
    if new.fault is not None:
        return Repaired(score)
    return Repaired(new, tuple(repairing.guesses), repairing.found)
