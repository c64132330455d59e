"""Messages as a log of SARIF 2.1.0."""
from __future__ import annotations

import os
from pathlib import PurePath
from urllib.parse import quote

from gregorio_chant._native.results import Message
from gregorio_chant.linting.codes import CODES
from gregorio_chant.linting.explaining import page_of, page_uri
from gregorio_chant.linting.rules import RULES
from gregorio_chant.report.reports import LEVELS, Checked, json_of, with_help
from gregorio_chant.text.source import Lines
from gregorio_chant.work.streams import NAME, STDIN

_SCHEMA = "https://json.schemastore.org/sarif-2.1.0.json"


class Sarif:
    """A log of SARIF 2.1.0, with columns in characters."""

    has_summary = False

    def __init__(self, version: str) -> None:
        """Takes the package's version."""
        self._version = version
        self._results: list[dict[str, object]] = []
        self._failures: list[dict[str, object]] = []
        # The number of each code or rule that was found, in the order in which they were.
        self._numbers: dict[str, int] = {}

    def add(self, checked: Checked) -> str:
        """Keeps what was found in a file, and returns nothing to write yet."""
        where = {"uri": "stdin" if checked.name == STDIN else _uri(checked.name)}
        if checked.failure is not None:
            location = {"physicalLocation": {"artifactLocation": where}}
            self._failures.append(
                {"level": "error", "message": {"text": checked.failure}, "locations": [location]}
            )
        lines = Lines(checked.text)
        for it, help in checked.helped():
            region = {
                "startLine": it.line,
                "startColumn": it.column,
                "endLine": it.line,
                "endColumn": lines.column_after(it.line, it.column),
            }
            self._results.append(
                self._result(it, with_help(it, help), {"artifactLocation": where, "region": region})
            )
        return ""

    def _result(self, it: Message, text: str, place: dict[str, object]) -> dict[str, object]:
        return {
            "ruleId": it.code,
            "ruleIndex": self._numbers.setdefault(it.code, len(self._numbers)),
            "level": LEVELS[it.kind],
            "message": {"text": text},
            "locations": [{"physicalLocation": place}],
        }

    def end(self, summary: str | None) -> str:
        """Returns the log."""
        run = {
            "tool": {
                "driver": {
                    "name": NAME,
                    "version": self._version,
                    "rules": [_rule(it) for it in self._numbers],
                }
            },
            "columnKind": "unicodeCodePoints",
            "invocations": [
                {
                    "executionSuccessful": not self._failures,
                    "toolExecutionNotifications": self._failures,
                }
            ],
            "results": self._results,
        }
        return json_of({"version": "2.1.0", "$schema": _SCHEMA, "runs": [run]}, indent=2) + "\n"


def _rule(name: str) -> dict[str, object]:
    """Returns what the log says of a code or of a rule."""
    code = CODES.get(name)
    if code is not None:
        short, meaning = code.text, code.meaning
    else:
        short, meaning = RULES[name].meaning.partition(". ")[0], RULES[name].meaning
    return {
        "id": name,
        "shortDescription": {"text": short},
        "fullDescription": {"text": meaning},
        "help": {"text": page_of(name)},
        "helpUri": page_uri(name),
    }


def _uri(name: str) -> str:
    """Returns the name as a reference of a URI: each byte that is none of its characters is
    escaped."""
    reference = quote(os.fsencode(PurePath(name).as_posix()))
    return f"file://{reference}" if os.path.isabs(name) else reference
