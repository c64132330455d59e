"""The command `explain`: what a code or a rule means, with a wrong line and its right one."""
from __future__ import annotations

import textwrap
from collections.abc import Iterable

from gregorio_chant._native.results import Kind
from gregorio_chant.errors import UsageError
from gregorio_chant.linting.codes import CODES, shown
from gregorio_chant.linting.repairs import REPAIRS, Repair
from gregorio_chant.linting.rules import RULES
from gregorio_chant.linting.selection import LISTED
from gregorio_chant.text.nearest import did_you_mean

_WIDTH = 80
# Where Debian's package has the documentation, which has no public place.
PAGES = "file:///usr/share/doc/gregorio-canonical/docs"


def page_of(name: str) -> str:
    """Returns the page of a code, in whichever case it is given, or of a rule. Raises
    `UsageError`."""
    code, rule = CODES.get(name.upper()), RULES.get(name.lower())
    if code is not None:
        title, it = f"{code.name}: {code.kind.value}: {code.text}", code
        return _page(title, it.meaning, it.wrong, it.right) + _repairs_of(code.name)
    if rule is not None:
        page = _page(
            f"{rule.name}: {rule.kind.value}, by check --rules alone",
            rule.meaning,
            rule.wrong,
            rule.right,
        )
        return page + _silence(rule.name) + _repairs_of(rule.name)
    raise UsageError(
        f"{name} is no code and no rule: {did_you_mean(name, [*CODES, *RULES], LISTED)}"
    )


def page_uri(name: str) -> str:
    """Returns the URI of the documentation that has a code or a rule."""
    code = CODES.get(name)
    if code is None:
        return f"{PAGES}/RULES.md#{name}"
    section = "fatal-faults" if code.kind is Kind.FATAL else "errors-and-warnings"
    return f"{PAGES}/LANGUAGE.md#{section}"


def example_of(name: str) -> tuple[str, str]:
    """Returns a line that has the message of a code or of a rule, and one that has not."""
    it = CODES.get(name) or RULES[name]
    return shown(it.wrong), shown(it.right)


def _page(title: str, meaning: str, wrong: str, right: str) -> str:
    parts = [
        title,
        "",
        textwrap.fill(meaning, _WIDTH, break_long_words=False, break_on_hyphens=False),
    ]
    for head, lines in (("Wrong:", wrong), ("Right:", right)):
        parts += ["", head, *(f"    {shown(it)}" for it in lines.split("\n"))]
    return "\n".join(parts) + "\n"


def _silence(name: str) -> str:
    """Returns how to silence a rule: on a line, and in a score."""
    return (
        f"\nSilence it, on its line or in the whole score:\n    % gregorio: ignore {name}\n    %"
        f" gregorio: ignore-file {name}\n"
    )


def _repair_of(repair: Repair) -> str:
    words = "check --fix" if repair.is_safe else "check --fix --unsafe-fixes"
    told = f"Repair {repair.name}, by {words}: {repair.meaning}" + (
        "" if repair.is_safe else f" A guess: {repair.changes}."
    )
    lines = ["", textwrap.fill(told, _WIDTH, break_long_words=False, break_on_hyphens=False)]
    for head, line in (("Before:", repair.wrong), ("After:", repair.right)):
        lines += ["", head, *(f"    {shown(it)}" for it in line.split("\n"))]
    return "\n".join(lines) + "\n"


def _repairs_of(code: str) -> str:
    return "".join(_repair_of(it) for it in REPAIRS.values() if code in it.codes)


def explain(names: Iterable[str]) -> str:
    """Returns the pages of these codes and rules; of all where there is none. Raises
    `UsageError`."""
    wanted = list(names) or [*CODES, *RULES]
    return "\n".join(page_of(it) for it in wanted)
