"""Tries the calls `lint`, `fix`, `format_text`, `draw` and `index`: they say what the commands say,
and their answers are plain data by the schema in docs."""
from __future__ import annotations

import dataclasses
import json
import types
import typing
import unittest
from functools import cache
from typing import Any

from support import EXAMPLES, FAULTY, ROOT, SCORE, InFolder, command, scores_of_tables

import gregorio_chant
from gregorio_chant import Settings, calls, draw, fix, format_text, index, lint
from gregorio_chant._native.results import Kind
from gregorio_chant.calls import DrawnScore, FixedText, FormattedText, IndexEntry, Problem

_SCHEMA = ROOT / "docs" / "answers.schema.json"
_ANSWERS = (Problem, FixedText, FormattedText, DrawnScore, IndexEntry)
_RULES = Settings(rules=True)
# How many inputs of the tables are tried.
_TRIED = 300
_PLAIN = {str: "string", int: "integer", bool: "boolean", type(None): "null"}


@cache
def texts() -> tuple[bytes, ...]:
    """Returns the examples, and inputs of the tables of runs, which are short."""
    tables = [it for it in scores_of_tables() if len(it) < 1_000]
    return (
        *(it.read_bytes() for it in sorted(EXAMPLES.glob("*.gabc"))),
        *tables[:: len(tables) // _TRIED],
    )


def schema_of(kind: Any, known: dict[str, Any]) -> dict[str, Any]:
    """Returns the schema of a type; of a class it stands in `known`."""
    origin, words = typing.get_origin(kind), typing.get_args(kind)
    if kind in _PLAIN:
        return {"type": _PLAIN[kind]}
    if origin in (typing.Union, types.UnionType):
        return {"anyOf": [schema_of(it, known) for it in words]}
    if origin is tuple:
        return {"type": "array", "items": schema_of(words[0], known)}
    if origin is dict:
        return {"type": "object", "additionalProperties": schema_of(words[1], known)}
    hints = typing.get_type_hints(kind)
    names = [it.name for it in dataclasses.fields(kind)]
    if kind.__name__ not in known:
        known[kind.__name__] = {}
        known[kind.__name__] = {
            "type": "object",
            "properties": {it: schema_of(hints[it], known) for it in names},
            "required": names,
            "additionalProperties": False,
        }
    return {"$ref": f"#/$defs/{kind.__name__}"}


def whole_schema() -> dict[str, Any]:
    """Returns the schema of all answers."""
    known: dict[str, Any] = {}
    for it in _ANSWERS:
        schema_of(it, known)
    return {
        "$schema": "https://json-schema.org/draft/2020-12/schema",
        "title": "Answers of gregorio_chant.calls",
        "$defs": known,
    }


def takes(schema: dict[str, Any], value: Any, known: dict[str, Any]) -> bool:
    """Returns whether a value is one of this schema, which has no more than `schema_of` writes."""
    if "$ref" in schema:
        return takes(known[schema["$ref"].rpartition("/")[2]], value, known)
    if "anyOf" in schema:
        return any(takes(it, value, known) for it in schema["anyOf"])
    if schema["type"] == "array":
        return isinstance(value, list) and all(takes(schema["items"], it, known) for it in value)
    if schema["type"] == "object":
        its, other = schema.get("properties", {}), schema["additionalProperties"]
        return (
            isinstance(value, dict)
            and set(schema.get("required", ())) <= set(value)
            and all(
                (
                    takes(its[name], it, known)
                    if name in its
                    else other is not False and takes(other, it, known)
                )
                for name, it in value.items()
            )
        )
    return {"string": str, "integer": int, "boolean": bool, "null": type(None)}[
        schema["type"]
    ] is type(value)


def plain(answer: Any) -> Any:
    """Returns an answer as JSON gives it back."""
    return json.loads(json.dumps(dataclasses.asdict(answer)))


class Schema(unittest.TestCase):
    def test_it_is_that_of_the_code(self) -> None:
        self.assertEqual(json.loads(_SCHEMA.read_text(encoding="utf-8")), whole_schema())

    def test_all_answers_are_of_it(self) -> None:
        known = whole_schema()["$defs"]
        count = 0
        for text in texts():
            answers = [
                *lint(text, _RULES),
                fix(text, unsafe=True),
                format_text(text),
                *index([text], ["book"]),
            ]
            if count % 3 == 0:
                answers.append(draw(text))
            for it in answers:
                self.assertTrue(
                    takes({"$ref": f"#/$defs/{type(it).__name__}"}, plain(it), known), it
                )
            count += len(answers)
        self.assertGreater(count, 1_000)

    def test_it_refuses(self) -> None:
        """The reader of schemas of this test takes no other values."""
        known, ref = whole_schema()["$defs"], {"$ref": "#/$defs/Problem"}
        (problem,) = lint(FAULTY)
        for name, value in (("line", "3"), ("help", 1), ("repair", {}), ("is_new", True)):
            self.assertFalse(takes(ref, {**plain(problem), name: value}, known), name)
        self.assertFalse(takes(ref, {}, known))


class Lint(InFolder):
    def test_a_problem(self) -> None:
        (it,) = lint("name: a;\n%%\n(c4) a>(f) b(g)")
        self.assertEqual(
            (it.line, it.column, it.end_line, it.end_column, it.kind, it.code),
            (3, 7, 3, 8, "error", "E2"),
        )
        assert it.repair is not None
        self.assertEqual(
            (
                it.repair.name,
                it.repair.is_safe,
                [dataclasses.astuple(change) for change in it.repair.changes],
            ),
            ("escape", True, [(18, 18, "$")]),
        )
        self.assertEqual(lint(SCORE), [])

    def test_it_says_what_check_says(self) -> None:
        files = {f"s/{number:03}.gabc": text for number, text in enumerate(texts())}
        for name, text in files.items():
            self.put(name, text)
        told: dict[str, list[dict[str, object]]] = {name: [] for name in files}
        for row in json.loads(
            command("check", "--no-config", "--rules", "--output-format", "json", "s").stdout
        ):
            told[row.pop("file")].append(row)
        for name, text in files.items():
            found = [dataclasses.asdict(it) for it in lint(text, _RULES)]
            for it in found:
                del it["repair"]
            self.assertEqual(found, told[name])

    def test_repairs_can_be_made(self) -> None:
        """Each repair changes what it says: the text with it has one problem less, at that
        place."""
        made = 0
        for text in texts():
            problems = lint(text)
            for it in (it for it in problems if it.repair is not None):
                written, at, whole = "", 0, text.decode()
                assert it.repair is not None
                for change in it.repair.changes:
                    written += whole[at : change.begin] + change.new
                    at = change.end
                after = lint(written + whole[at:])
                self.assertTrue(it.kind == "fatal" or len(after) < len(problems), (text, it))
                made += 1
        self.assertGreater(made, 20)

    def test_line_ends(self) -> None:
        """Changes count each CR and U+FEFF, and write the line ends of the text."""
        (first, *_) = lint("\ufeffname: a;\r\n%%\r\n(c4) a>(f)")
        assert first.repair is not None
        self.assertEqual([dataclasses.astuple(it) for it in first.repair.changes], [(21, 21, "$")])

    def test_settings(self) -> None:
        self.assertEqual([it.code for it in lint("%%\n(c4) a>(f)")], ["W1", "E2"])
        self.assertEqual(
            [it.code for it in lint("%%\n(c4) a>(f)", Settings(ignore=frozenset(("W",))))], ["E2"]
        )
        self.assertEqual(
            [it.code for it in lint("%%\n(c4) a>(f)", Settings(select=frozenset(("W1",))))], ["W1"]
        )
        self.assertEqual(
            [it.code for it in lint("name: a;\nmode: 9;\n%%\n(c4) a(f)", _RULES)], ["unknown-mode"]
        )

    def test_faults(self) -> None:
        self.assertEqual([it.kind for it in lint("name: a;\n")], [Kind.FATAL.value])
        (it,) = lint(b"name: a;\n%%\n(c4) a\xff(f)")
        self.assertEqual((it.code, it.repair), ("F1", None))
        self.assertEqual([it.code for it in lint("")], ["F2"])

    def test_many_problems(self) -> None:
        """Where there is no time for more repairs, problems come without."""
        found = lint("name: a;\n%%\n(c4) " + "a>(f) " * 400 + "% " + "a" * 200_000)
        self.assertEqual(len(found), 400)
        self.assertTrue(found[0].repair and not found[-1].repair)


class Fix(InFolder):
    def test_it_repairs_as_check_does(self) -> None:
        for unsafe in (False, True):
            paths = [
                self.put(f"{unsafe}/{number:03}.gabc", text) for number, text in enumerate(texts())
            ]
            command("check", "--no-config", "--fix", *["--unsafe-fixes"] * unsafe, str(unsafe))
            for path, text in zip(paths, texts()):
                self.assertEqual(
                    fix(text, unsafe).text.encode("utf-8", "surrogateescape"), path.read_bytes()
                )

    def test_guesses(self) -> None:
        text = "name: a;\n%%\n(c4) mun9hh)dá(ij)\n"
        self.assertEqual(fix(text), FixedText(text))
        made = fix(text, unsafe=True)
        self.assertEqual(
            (made.text, [(it.line, it.column, it.repair) for it in made.guesses]),
            ("name: a;\n%%\n(c4) mun(hh)dá(ij)\n", [(3, 12, "open-notes")]),
        )
        self.assertEqual(fix(text, True, Settings(select=frozenset(("W1",)))), FixedText(text))

    def test_no_text(self) -> None:
        """What is no UTF-8 comes back."""
        data = b"name: a;\n%%\n(c4) a\xff(f)"
        for made in (fix(data, unsafe=True).text, format_text(data).text):
            self.assertEqual(made.encode("utf-8", "surrogateescape"), data)


class Format(InFolder):
    def test_it_formats_as_format_does(self) -> None:
        paths = [self.put(f"s/{number:03}.gabc", text) for number, text in enumerate(texts())]
        told = command("format", "--no-config", "s").stderr.decode()
        for path, text in zip(paths, texts()):
            made = format_text(text)
            self.assertEqual(made.text.encode("utf-8", "surrogateescape"), path.read_bytes())
            self.assertEqual(f"{path} stays as it is: " in told, made.reasons != ())

    def test_settings(self) -> None:
        text = "name:Kyrie ;\n%%\n(c4)  Ky(f)ri(g)   e(h)"
        self.assertEqual(format_text(text).text, "name: Kyrie;\n%%\n(c4) Ky(f)ri(g) e(h)")
        self.assertEqual(
            format_text(text, Settings(wrap=12)).text, "name: Kyrie;\n%%\n(c4)\nKy(f)ri(g)\ne(h)"
        )
        self.assertEqual(
            format_text(text, Settings(canonical=True)).text,
            "name: Kyrie;\n%%\n(c4)\nKy(f)ri(g)\ne(h)\n",
        )

    def test_reasons(self) -> None:
        self.assertEqual(
            format_text("name: a;\n"),
            FormattedText("name: a;\n", ("it is not whole", "2:1: F2: no %% line")),
        )
        made = format_text("name: a;\n%%\n(c4) a(f) % b\n", Settings(canonical=True))
        self.assertEqual(
            made.reasons,
            ("more than its blanks would change", "3:11: comments: a comment would go"),
        )


class Draw(unittest.TestCase):
    def test_it_draws_as_show_does(self) -> None:
        ran = command("show", "--svg", "--no-config", "--width", "500", "-", data=FAULTY.encode())
        self.assertEqual(draw(FAULTY, width=500), DrawnScore("Kyrie", ran.stdout.decode()))
        self.assertNotIn("E1", draw(FAULTY, settings=Settings(ignore=frozenset(("E1",)))).svg)

    def test_faults(self) -> None:
        self.assertIn("Nothing of this score was read", draw("").svg)


class Index(InFolder):
    def test_it_says_what_index_says(self) -> None:
        names = sorted(EXAMPLES.glob("*.gabc"))
        rows = json.loads(
            command(
                "index",
                "--no-config",
                "--output-format",
                "json",
                "--header",
                "book,gabc-copyright",
                EXAMPLES,
            ).stdout
        )
        for row, name in zip(rows, names):
            entry = dataclasses.asdict(index([name.read_bytes()], ["book", "gabc-copyright"])[0])
            headers, fault = entry.pop("headers"), entry.pop("fault")
            self.assertEqual((row, fault), ({"file": str(name), **entry, **headers}, None))

    def test_faults(self) -> None:
        first, second, third = index(
            ["name: a;\n", "name: b;\nbook: c;\n%%\n(c4) a(f) b(g", SCORE], ["book"]
        )
        self.assertEqual(
            (first.name, first.headers, first.fault), (None, {"book": None}, "2:1: F2: no %% line")
        )
        self.assertEqual((second.name, second.headers, second.text), ("b", {"book": "c"}, "a"))
        self.assertTrue((second.fault or "").startswith("4:12: F6:"), second.fault)
        self.assertEqual(
            (third.degrees, third.volpiano, third.fault),
            ("fa sol fa sol mi", "1---f--gfg--e", None),
        )


class Surface(unittest.TestCase):
    def test_names(self) -> None:
        for name in calls.__all__:
            self.assertTrue(hasattr(calls, name), name)
        for name in ("lint", "fix", "format_text", "draw", "index", "Settings"):
            self.assertIs(getattr(gregorio_chant, name), getattr(calls, name))
            self.assertIn(name, gregorio_chant.__all__)

    def test_half_characters(self) -> None:
        """A text that has no UTF-8 is a fatal fault, and stays as it is."""
        text = "name: a;\n%%\n(c4) \ud800(f)"
        self.assertEqual([it.code for it in lint(text)], ["F1"])
        self.assertEqual((fix(text, unsafe=True).text, format_text(text).text), (text, text))
        self.assertTrue((index([text])[0].fault or "").startswith("3:6: F1"))

    def test_no_score(self) -> None:
        for call in (lint, fix, format_text, draw, lambda it: index([it])):
            with self.assertRaises(TypeError):
                call(3)  # type: ignore[operator]
