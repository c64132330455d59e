"""Sends the language server messages from a seed, good and bad ones in any order: each request is
answered once, and the server goes on."""
from __future__ import annotations

import io
import json
import os
import random
import unittest
from typing import Any

from client import Served, Told, place
from support import FAULTY, SCORE

from gregorio_chant.server.text import Text
from gregorio_chant.server.wire import Wire

# So many messages are sent; with GREGORIO_LONG=1 ten thousand.
MESSAGES = 10_000 if os.environ.get("GREGORIO_LONG") else 600
_METHODS = (
    "codeAction",
    "completion",
    "documentSymbol",
    "foldingRange",
    "formatting",
    "hover",
    "rangeFormatting",
    "semanticTokens/full",
    "didOpen",
    "didChange",
    "didClose",
    "nothing",
)
_TEXTS = (
    SCORE,
    FAULTY,
    "",
    "name:x;\n%%\n(c4) a\ud834(f) %c\n",
    "name:x;\r\n%%\r(@[g % c\nh])",
    "\ufeffname: a\u2028;\n%%\n(c4) \U0001d11e(f|pe) a(",
    "\0\u0085",
)


class Seeded(Served):
    def setUp(self) -> None:
        super().setUp()
        self.chance = random.Random(83)

    def value(self) -> Any:
        return self.chance.choice(
            (
                None,
                True,
                -1,
                0,
                1,
                3,
                10**12,
                0.5,
                "a",
                "file:///a.gabc",
                self.uri,
                [],
                {},
                [[]],
                {"line": 0},
                *_TEXTS,
            )
        )

    def params(self) -> Any:
        """Returns parameters, most of which are right."""
        ends = [place(self.chance.randrange(5), self.chance.randrange(12)) for _ in range(2)]
        them: Told = {
            "textDocument": {
                "uri": self.uri,
                "languageId": "gabc",
                "version": self.chance.randrange(9),
                "text": self.chance.choice(_TEXTS),
            },
            "position": ends[0],
            "range": {"start": ends[0], "end": ends[1]},
            "context": {"diagnostics": []},
            "options": {"tabSize": 2, "insertSpaces": True},
            "contentChanges": [
                {"range": {"start": ends[0], "end": ends[1]}, "text": self.chance.choice(_TEXTS)}
            ],
        }
        at: Any = them
        while self.chance.random() < 0.3 and isinstance(at, dict) and at:
            name = self.chance.choice(sorted(at))
            if self.chance.random() < 0.5 or not isinstance(at[name], dict):
                at[name] = self.value()
                break
            at = at[name]
        return them if self.chance.random() < 0.97 else self.value()

    def test_messages(self) -> None:
        for number in range(1, MESSAGES + 1):
            method = f"textDocument/{self.chance.choice(_METHODS)}"
            params = self.params()
            if "/did" in method:
                self.tell(method, params)
            else:
                self.send({"id": number, "method": method, "params": params})
                while (answer := self.receive()).get("id") != number:
                    self.assertIn(
                        answer.get("method"),
                        (
                            "textDocument/publishDiagnostics",
                            "window/logMessage",
                            "window/showMessage",
                        ),
                        answer,
                    )
                self.assertNotIn("defect", json.dumps(answer), (method, params))
                if "semanticTokens" in method and "result" in answer:
                    self.check_tokens(answer["result"]["data"])
        self.assertIsNone(self.server.poll())

    def check_tokens(self, data: list[int]) -> None:
        """The parts follow each other, and none lies over another one."""
        line = end = 0
        character = 0
        for at in range(0, len(data), 5):
            down, right, length = data[at : at + 3]
            self.assertTrue(down >= 0 and right >= 0 and length > 0, data)
            line, character = line + down, right if down else character + right
            self.assertTrue(down or character >= end, data)
            end = character + length

    def test_overlaps(self) -> None:
        """What lies in a comment is a comment alone. Half a character of UTF-16 stops the
        score."""
        for text, wanted in (
            (
                "name:x;\n%%\n(@[g % c\nh])",
                [0, 0, 4, 0, 0, 2, 3, 1, 6, 0, 0, 2, 3, 1, 0, 1, 0, 1, 6, 0],
            ),
            ("name:x;\n%%\n(c4) a\ud834(f) %c\n", [0, 0, 4, 0, 0, 2, 1, 2, 4, 0]),
        ):
            self.open(text)
            data = self.ask_here("semanticTokens/full")["data"]
            self.check_tokens(data)
            self.assertEqual(data, wanted, text)

    def test_closed_before_it_is_checked(self) -> None:
        opened = {
            "method": "textDocument/didOpen",
            "params": {
                "textDocument": {"uri": self.uri, "languageId": "gabc", "version": 1, "text": SCORE}
            },
        }
        closed = {"method": "textDocument/didClose", "params": {"textDocument": {"uri": self.uri}}}
        self.put_at_once(opened, closed)
        other = "file:///other.gabc"
        self.tell(
            "textDocument/didOpen",
            {"textDocument": {"uri": other, "languageId": "gabc", "version": 1, "text": SCORE}},
        )
        while self.receive()["params"]["uri"] != other:
            pass

    def test_nothing_after_shutdown(self) -> None:
        opened = {
            "method": "textDocument/didOpen",
            "params": {
                "textDocument": {"uri": self.uri, "languageId": "gabc", "version": 1, "text": SCORE}
            },
        }
        self.put_at_once(opened, {"id": 99, "method": "shutdown"}, {"method": "exit"})
        out, _ = self.server.communicate(timeout=60)
        self.assertNotIn(b"publishDiagnostics", out.partition(b'"id":99')[2])
        self.assertEqual(self.server.returncode, 0)

    def put_at_once(self, *messages: Told) -> None:
        bodies = [json.dumps({"jsonrpc": "2.0", **it}).encode() for it in messages]
        self.put(b"".join(b"Content-Length: %d\r\n\r\n%s" % (len(it), it) for it in bodies))


class Parts(unittest.TestCase):
    def test_headers(self) -> None:
        """Each line of a header is read by itself."""
        for header in (
            b"Content-Type: x\r\nContent-Length: 2",
            b"Content-Length: 2\r\nX-Other: y",
            b"content-length:2",
        ):
            self.assertEqual(
                list(Wire(io.BytesIO(header + b"\r\n\r\n{}"), io.BytesIO()).messages()), [{}]
            )

    def test_half_characters(self) -> None:
        for raw in ("\ud834", "a\ud834b\udd1e\n", "\udd1e\ud834\r\n\ufeffx"):
            text = Text(raw)
            self.assertEqual(len(text.plain), len(raw.replace("\r\n", "\n").replace("\ufeff", "")))
            self.assertEqual(text.position(len(text.plain)), text.end())


if __name__ == "__main__":
    unittest.main()
