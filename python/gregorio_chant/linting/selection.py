"""Which codes are told, and which make the status 1."""
from __future__ import annotations

from collections.abc import Collection, Iterable
from dataclasses import dataclass

from gregorio_chant._native.results import Kind, Message, Status
from gregorio_chant.errors import UsageError
from gregorio_chant.text.nearest import did_you_mean

KINDS = ("E", "W", "F")
RULES = "rules"
# The rule that is tried only for scores in canonical form, or if it is named.
OF_CANONICAL = "comment"
LISTED = "gregorio-chant explain --all lists them"


def codes_in(words: str, known: Collection[str]) -> frozenset[str]:
    """Returns the codes in `words`, which stand between commas: one of those `known`, or E, W, F or
    rules for all of a kind. Raises `UsageError`."""
    found = frozenset(it.strip() for it in words.split(",") if it.strip())
    for word in sorted(found):
        if word not in known and word not in KINDS and word != RULES:
            raise UsageError(f"{word} is no code: {did_you_mean(word, known, LISTED)}")
    return found


def group_of(code: str) -> str:
    """Returns the kind of `code`, or the rules for a code that has no number."""
    return code[0] if code[-1].isdigit() else RULES


def names(codes: frozenset[str], code: str) -> bool:
    """Returns whether one of `codes` names `code`: it, its kind, or the rules."""
    return code in codes or group_of(code) in codes


@dataclass(frozen=True)
class Selection:
    """What of the messages is told. A fatal fault always is, since after it nothing was read. What
    only the canonical form loses is told if `is_canonical`, or if it is selected by its name."""

    select: frozenset[str] | None = None
    ignore: frozenset[str] = frozenset()
    fail_on: frozenset[str] = frozenset()
    is_canonical: bool = False

    def of(self, messages: Iterable[Message]) -> tuple[Message, ...]:
        """Returns those of `messages` that are told."""
        return tuple(it for it in messages if it.kind is Kind.FATAL or self._takes(it.code))

    def _takes(self, code: str) -> bool:
        if code == OF_CANONICAL and not self.is_canonical and code not in (self.select or ()):
            return False
        return (self.select is None or names(self.select, code)) and not names(self.ignore, code)

    def status_of(self, messages: Iterable[Message]) -> Status:
        """Returns the status that messages make which are told: 2 for a fatal fault, 1 for an error
        or a code to fail on."""
        status = Status.WHOLE
        for it in messages:
            if it.kind is Kind.FATAL:
                return Status.FATAL
            if it.kind is Kind.ERROR or names(self.fail_on, it.code):
                status = Status.ERRORS
        return status
