"""Compares words of the extension for VS Code with the server's, and tries its grammar by the
patterns of Python. `tools/try_js` tries the extension itself."""
from __future__ import annotations

import json
import re
import unittest
from typing import Any

from support import EXAMPLES, ROOT

from gregorio_chant._native.library import compile
from gregorio_chant._native.results import Status
from gregorio_chant.linting.slips import Subject
from gregorio_chant.objects.compiled import Compiled
from gregorio_chant.server.actions import FIX_ALL
from gregorio_chant.server.completion import TRIGGERS
from gregorio_chant.server.tokens import KINDS as TOKENS

EXTENSION = ROOT / "editors" / "vscode"


class Words(unittest.TestCase):
    def test_words_of_the_server(self) -> None:
        """What the extension has to know before the server answers is what the server says."""
        script = (EXTENSION / "src" / "server.js").read_text(encoding="utf-8")
        for name, words in (("TOKENS", TOKENS), ("TRIGGERS", TRIGGERS), ("FIX_ALL", FIX_ALL)):
            found = re.search(rf"^const {name} = (.*);$", script, re.MULTILINE)
            self.assertEqual(found and json.loads(found[1]), words)


class _Grammar:
    """Reads a text by a grammar of TextMate, line by line, whose patterns Python's `re` takes
    too."""

    def __init__(self, grammar: dict[str, Any]) -> None:
        self._repository = grammar["repository"]
        self._stack: list[tuple[dict[str, Any], str]] = [(grammar, "(?!)")]
        self.found: list[tuple[str, int, int, str]] = []

    def _patterns(self, rule: dict[str, Any]) -> list[dict[str, Any]]:
        flat = []
        for it in rule.get("patterns", []):
            flat += self._patterns(self._repository[it["include"][1:]]) if "include" in it else [it]
        return flat

    def read(self, line: str, number: int) -> None:
        """Reads a line, and keeps scopes: of matches whole, and of what spans lines the begin and
        the end."""
        at = 0
        while at <= len(line):
            rule, end = self._stack[-1]
            best = re.compile(end).search(line, at)
            chosen = None
            for it in self._patterns(rule):
                found = re.compile(it.get("match") or it["begin"]).search(line, at)
                if found and (best is None or found.start() < best.start()):
                    best, chosen = found, it
            if best is None:
                return
            if chosen is None:
                self._stack.pop()
                self.found.append((rule.get("name", ""), number, best.end(), "end"))
            elif "begin" in chosen:
                self._stack.append(
                    (chosen, chosen["end"].replace("\\1", best[1] if best.re.groups else ""))
                )
                self.found.append((chosen.get("name", ""), number, best.start(), "begin"))
            else:
                self.found.append((chosen.get("name", ""), number, best.start(), best[0]))
            at = best.end() if best.end() > at or chosen is None else at + 1


class Grammar(unittest.TestCase):
    def test_notes_of_examples(self) -> None:
        """Where the grammar sees notes the compiler reads notes, in each example without an
        error."""
        grammar = json.loads(
            (EXTENSION / "syntaxes" / "gabc.tmLanguage.json").read_text(encoding="utf-8")
        )
        number = 0
        for path in sorted(EXAMPLES.glob("*.gabc")):
            result = compile(path.read_bytes())
            if result.status is not Status.WHOLE:
                continue
            text = path.read_bytes().decode().replace("\r\n", "\n").replace("\ufeff", "")
            subject = Subject(Compiled(path.read_bytes()))
            reader = _Grammar(grammar)
            for line_number, line in enumerate(text.split("\n"), 1):
                reader.read(line, line_number)
            notes = [
                (line, column, what)
                for name, line, column, what in reader.found
                if name == "meta.notes.gabc"
            ]
            wanted = []
            for it in subject.parts.syllables:
                if it.notes < it.end:
                    begin, end = subject.lines.place(it.notes), subject.lines.place(it.end - 1)
                    wanted += [
                        (begin.line, begin.column - 1, "begin"),
                        (end.line, end.column, "end"),
                    ]
            self.assertEqual(notes, wanted, path.name)
            headers = [
                line for name, line, _, what in reader.found if name == "" and what.endswith(":")
            ]
            self.assertEqual(
                headers,
                [subject.lines.place(it.begin).line for it in subject.parts.headers],
                path.name,
            )
            number += len(notes)
        self.assertGreater(number, 500)


if __name__ == "__main__":
    unittest.main()
