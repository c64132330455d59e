"""Finds what the rules look for in a score, and leaves out what its comments silence."""
from __future__ import annotations

from bisect import bisect_right
from collections.abc import Callable, Iterator

from gregorio_chant._native.results import Kind, Message
from gregorio_chant.linting.codes import CODES
from gregorio_chant.linting.ignores import silenced
from gregorio_chant.linting.rule import Found, Subject
from gregorio_chant.linting.rules import RULES
from gregorio_chant.linting.rules_notes import (
    bracket_in_attribute,
    clef_off_staff,
    lone_capital,
    nabc_after_bars,
    nabc_without_header,
    outside_staff,
    unused_alteration,
)
from gregorio_chant.linting.rules_text import (
    asterisk_without_bar,
    bar_as_text,
    blank_before_notes,
    comment,
    html_entity,
    late_punctuation,
    missing_blank,
    misspelled_header,
    mode_without_number,
    notes_in_translation,
    second_score_line,
    syllable_without_notes,
    typed_hyphen,
    unknown_mode,
    unknown_special,
)
from gregorio_chant.objects.compiled import Compiled
from gregorio_chant.objects.pauses import Pause, go_on


def _unused_ignore(subject: Subject) -> Iterator[Found]:
    """Finds nothing by itself: what is silenced is known when all other rules have been tried."""
    return iter(())


# What finds each rule in a score.
FINDERS: dict[str, Callable[[Subject], Iterator[Found]]] = {
    "outside-staff": outside_staff,
    "bracket-in-attribute": bracket_in_attribute,
    "nabc-without-header": nabc_without_header,
    "comment": comment,
    "asterisk-without-bar": asterisk_without_bar,
    "clef-off-staff": clef_off_staff,
    "unknown-mode": unknown_mode,
    "mode-without-number": mode_without_number,
    "misspelled-header": misspelled_header,
    "blank-before-notes": blank_before_notes,
    "late-punctuation": late_punctuation,
    "missing-blank": missing_blank,
    "bar-as-text": bar_as_text,
    "typed-hyphen": typed_hyphen,
    "html-entity": html_entity,
    "syllable-without-notes": syllable_without_notes,
    "notes-in-translation": notes_in_translation,
    "unused-alteration": unused_alteration,
    "second-score-line": second_score_line,
    "lone-capital": lone_capital,
    "unknown-special": unknown_special,
    "unused-ignore": _unused_ignore,
}
_KNOWN = frozenset((*CODES, *RULES))


def messages_with_rules(compiled: Compiled, pause: Pause = go_on) -> tuple[Message, ...]:
    """Returns what the compiler and the rules find in a score, in the order of their places,
    without what is silenced. Where a fatal fault stops it, no rule is tried. There is a pause
    before each rule."""
    if compiled.fault is not None:
        return unsilenced(compiled)
    subject = Subject(compiled.score)
    found = list(_found(subject, pause))
    messages = compiled.messages
    if any(it.code == "nabc-without-header" for it in found):
        messages = _without_nabc(subject)
    kept, unused = silenced(compiled, (*messages, *found), _KNOWN)
    kept += tuple(
        Message(it.place.line, it.place.column, Kind.WARNING, "unused-ignore", it.text)
        for it in unused
    )
    return tuple(sorted(kept, key=lambda it: (it.line, it.column)))


def _found(subject: Subject, pause: Pause) -> Iterator[Message]:
    """Yields what all rules find."""
    for rule in RULES.values():
        pause()
        for it in FINDERS[rule.name](subject):
            place = subject.tree.place(it.byte)
            yield Message(place.line, place.column, rule.kind, rule.name, it.text)


def unsilenced(compiled: Compiled) -> tuple[Message, ...]:
    """Returns those of the compiler's messages that no comment of the score silences."""
    return silenced(compiled, compiled.messages, _KNOWN)[0]


def _without_nabc(subject: Subject) -> tuple[Message, ...]:
    """Returns the messages without each `E1` after a `|` in its syllable."""
    place = subject.tree.place
    after = [(place(begin)[1:], place(end)[1:]) for begin, end in nabc_after_bars(subject)]
    begins = [begin for begin, _ in after]

    def is_after(message: Message) -> bool:
        at = message.line, message.column
        number = bisect_right(begins, at)
        return number > 0 and at < after[number - 1][1]

    return tuple(it for it in subject.score.messages if it.code != "E1" or not is_after(it))
