"""Tries the language server: messages, changes, formatting, hover, settings and its end."""
from __future__ import annotations

import tempfile
import unittest
from pathlib import Path

from client import Served, span
from support import FAULTY, SCORE

HELP = "'5' is no sign of the note before it: remove it"


class Serving(Served):
    def test_messages(self) -> None:
        self.assertEqual(self.capabilities["textDocumentSync"], {"openClose": True, "change": 2})
        (message,) = self.open(FAULTY)
        place = {"start": {"line": 2, "character": 9}, "end": {"line": 2, "character": 10}}
        self.assertEqual(
            message,
            {
                "range": place,
                "severity": 1,
                "code": "E1",
                "source": "gregorio-chant",
                "message": f"character left out of the notes\n{HELP}",
            },
        )
        self.assertEqual(self.change(SCORE), [])
        (message,) = self.change("%%\r\n(c4)\ufeff\U0001d11e\u00e9(g5) \r\n")[1:]
        self.assertEqual(message["range"]["start"], {"line": 1, "character": 10})
        (message,) = self.change("name: a;\n%%\n(c4) a(g\ufeff5)")
        self.assertEqual(message["range"]["start"], {"line": 2, "character": 9})
        self.assertEqual([it["severity"] for it in self.change("%%\n(c4f)")], [2])
        self.assertEqual(
            [it["range"]["start"] for it in self.change("name: a;\r\n")],
            [{"line": 1, "character": 0}],
        )
        self.tell("textDocument/didClose", {"textDocument": {"uri": self.uri}})
        self.assertEqual(self.shown(), [])

    def test_formatting(self) -> None:
        self.open("name:a;\r\n%% b\r\n(c4)  Ky(g5) % c\r\n")
        (edit,) = self.format()
        self.assertEqual(
            edit,
            {
                "range": {"start": {"line": 0, "character": 0}, "end": {"line": 3, "character": 0}},
                "newText": "name: a;\r\n%% b\r\n(c4) Ky(g5) % c\r\n",
            },
        )
        self.change("name: a")
        self.assertEqual(self.format(), [])
        self.assertEqual(
            self.told[-1]["params"]["message"],
            "The score stays as it is: it is not whole\n1:1: F3: header value not ended",
        )

    def test_hover(self) -> None:
        self.open("name: a;  % b\n%%\n(cb3) \U0001d11e(f)ri(gi.g&)\n")
        self.assertEqual(
            self.hover(2, 14), "g: si flat, punctum\n\ngig: torculus\n".replace("gig", "gi.g")
        )
        self.assertEqual(self.hover(2, 16), "i.: re, punctum\n\ngi.g: torculus\n")
        self.assertIsNone(self.hover(2, 12))
        self.assertIsNone(self.hover(9, 0))
        self.assertIn("\nRight:\n    Ky(g.)ri(g)\n", self.hover(2, 18) or "")

    def test_rules(self) -> None:
        self.start("--rules")
        self.assertEqual(
            [it["code"] for it in self.open("name: a;\n%%\n(c4) a(n)\n")], ["outside-staff"]
        )

    def test_settings(self) -> None:
        with tempfile.TemporaryDirectory() as folder:
            file = Path(folder, "a b.gabc")
            Path(folder, "gregorio-chant.toml").write_text(
                'rules = true\nignore = ["E1"]\n[format]\ncanonical = true\n'
            )
            self.uri = file.as_uri()
            self.assertEqual(
                [it["code"] for it in self.open("name: a;\n%%\n(c4) a(n) b(g5)\n")],
                ["outside-staff"],
            )
            self.change("name: a;\n%%\n(c4) a(n) b(g)\n")
            (edit,) = self.format()
            self.assertEqual(edit["newText"], "name: a;\n%%\n(c4)\na(n)\nb(g)\n")
            self.start()
            self.version = 1
            Path(folder, "gregorio-chant.toml").write_text("rules = 3")
            self.tell(
                "textDocument/didOpen",
                {
                    "textDocument": {
                        "uri": self.uri,
                        "languageId": "gabc",
                        "version": 1,
                        "text": FAULTY,
                    }
                },
            )
            self.assertIn(
                "gregorio-chant.toml:1: rules: expected true or false",
                self.receive()["params"]["message"],
            )
            self.assertEqual(len(self.shown()), 1)

    def test_end(self) -> None:
        self.assertIsNone(self.ask("shutdown", None))
        self.tell("exit", None)
        self.assertEqual(self.server.wait(60), 0)

    def test_end_alone(self) -> None:
        self.tell("exit", None)
        self.assertEqual(self.server.wait(60), 1)

    def test_client_that_goes(self) -> None:
        self.open(FAULTY)
        assert self.server.stdin
        self.server.stdin.close()
        self.assertEqual(self.server.wait(60), 1)

    def test_changes_of_parts(self) -> None:
        self.open("name: a;\r\n%%\r\n(c4) \U0001d11e\ufeff\u00e9(f) b(g)\r\n")
        whole = self.change(
            {"range": span(2, 10, 2, 10), "text": "5"}, {"range": span(2, 14, 2, 15), "text": "<x>"}
        )
        self.assertEqual(
            [(it["code"], it["range"]["start"]) for it in whole],
            [("E1", {"line": 2, "character": 10}), ("W6", {"line": 2, "character": 14})],
        )
        self.assertEqual(
            self.change(
                {"range": span(2, 10, 2, 11), "text": ""}, {"range": span(2, 12, 99, 5), "text": ""}
            ),
            [],
        )
        self.assertEqual(
            self.format()[0]["newText"], "name: a;\r\n%%\r\n(c4) \U0001d11e\ufeff\u00e9(f)"
        )
        self.assertEqual(
            self.change(
                {"range": span(7, 0, 8, 0), "text": " a(g)"},
                "name: b;\n%%\n(c4) a(g5)",
                {"range": span(2, 900, 2, 2), "text": ""},
            )[0]["code"],
            "F6",
        )

    def test_versions(self) -> None:
        self.open(FAULTY)
        self.version = 41
        self.assertEqual(self.change(SCORE), [])
        self.tell(
            "textDocument/didChange",
            {"textDocument": {"uri": self.uri, "version": None}, "contentChanges": []},
        )
        self.assertNotIn("version", self.receive()["params"])


if __name__ == "__main__":
    unittest.main()
