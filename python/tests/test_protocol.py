"""Tries the language server with what no editor should say, and with an editor that types faster
than it checks."""
from __future__ import annotations

import json
import os
import time
import unittest
from pathlib import Path
from typing import Any

from client import Served, span
from support import FAULTY, ROOT, SCORE

NO_JSON, NO_REQUEST, NO_METHOD, BAD_PARAMETERS = -32700, -32600, -32601, -32602
NOT_INITIALIZED, CANCELLED = -32002, -32800
# How long the server may work after the last keystroke until the messages of the last text come, in
# seconds.
MOST_SECONDS = 3.0


def long_score(size: int) -> str:
    """Returns a score of about `size` bytes, made of the examples without NABC."""
    scores = [
        it.read_text(encoding="utf-8", errors="ignore")
        for it in sorted((ROOT / "examples").glob("*.gabc"))
    ]
    bodies = [it.split("\n%%", 1)[1] for it in scores if "nabc-lines" not in it and "\n%%" in it]
    body = "".join(bodies) * (1 + size // sum(len(it) for it in bodies))
    return "name: a;\n%%\n(c4)" + body[:size].rpartition(")")[0] + ")\n"


class Abuse(Served):
    def setUp(self) -> None:
        super().setUp()
        self.logged: list[str] = []

    def error(self, message: object) -> int:
        """Sends a message, and returns the code of the error that answers it."""
        self.send(message)
        return self.refused()

    def refused(self) -> int:
        while (answer := self.receive()).get("method") == "window/logMessage":
            self.logged.append(answer["params"]["message"])
        self.assertEqual(set(answer), {"jsonrpc", "id", "error"}, answer)
        self.assertEqual(set(answer["error"]), {"code", "message"})
        for it in ("Traceback", "/gregorio_chant", ".py"):
            self.assertNotIn(it, answer["error"]["message"])
        code: int = answer["error"]["code"]
        return code

    def check_serves(self) -> None:
        """Checks that the server goes on as before, and has written nothing to standard error."""
        self.assertEqual([it["code"] for it in self.open(FAULTY)], ["E1"])
        self.ask("shutdown", None)
        self.tell("exit", None)
        self.assertEqual(self.server.wait(60), 0)
        assert self.server.stderr
        self.assertEqual(self.server.stderr.read(), b"")

    def test_before_initialize(self) -> None:
        self.launch()
        self.assertEqual(
            self.error({"id": 1, "method": "textDocument/hover", "params": {}}), NOT_INITIALIZED
        )
        self.assertEqual(self.error({"id": 2, "method": "shutdown"}), NOT_INITIALIZED)
        self.tell(
            "textDocument/didOpen",
            {"textDocument": {"uri": self.uri, "languageId": "gabc", "version": 1, "text": FAULTY}},
        )
        self.ask("initialize", {})
        self.assertEqual(self.error({"id": 3, "method": "initialize", "params": {}}), NO_REQUEST)
        self.check_serves()

    def test_after_shutdown(self) -> None:
        self.ask("shutdown", None)
        self.assertEqual(
            self.error({"id": 9, "method": "textDocument/hover", "params": {}}), NO_REQUEST
        )
        self.tell("exit", None)
        self.assertEqual(self.server.wait(60), 0)

    def test_no_requests(self) -> None:
        for it in (
            [],
            [{"jsonrpc": "2.0", "id": 1, "method": "shutdown"}],
            7,
            None,
            "shutdown",
            {},
            {"id": 4},
            {"id": [1], "method": "shutdown"},
            {"id": 5, "method": 6},
        ):
            self.assertEqual(self.error(it), NO_REQUEST, it)
        body = b'{"id": 1, "method": "shutdown"}'
        self.put(
            b"Content-Length: %d\r\nContent-Type: application/vscode-jsonrpc;"
            b" charset=utf-8\r\n\r\n%s" % (len(body), body)
        )
        self.assertEqual(self.refused(), NO_REQUEST)
        self.send({"id": 8, "result": None})
        self.send({"id": 9, "error": {"code": 1, "message": "no"}})
        self.send({"method": "no/such", "params": [1]})
        self.send({"method": "textDocument/didChange", "params": {"textDocument": 5}})
        self.send({"method": "textDocument/didClose"})
        self.send({"method": "$/cancelRequest", "params": {"id": {}}})
        self.assertEqual(
            self.error({"id": 3, "method": "textDocument/none", "params": {}}), NO_METHOD
        )
        self.assertEqual(
            self.logged,
            [
                "textDocument/didChange: params.textDocument: an object with uri is wanted",
                "textDocument/didClose: params: an object with textDocument is wanted",
            ],
        )
        self.check_serves()

    def test_bad_parameters(self) -> None:
        self.open(SCORE)
        here: dict[str, Any] = {"textDocument": {"uri": self.uri}}
        methods = [
            f"textDocument/{it}"
            for it in (
                "hover",
                "formatting",
                "rangeFormatting",
                "codeAction",
                "completion",
                "documentSymbol",
                "foldingRange",
                "semanticTokens/full",
            )
        ]
        for number, method in enumerate(methods):
            wrong: list[Any] = [
                None,
                [],
                {},
                {"textDocument": {}},
                {"textDocument": {"uri": 4}},
                {"textDocument": {"uri": "file:///none.gabc"}},
            ]
            for params in wrong:
                self.assertEqual(
                    self.error({"id": number, "method": method, "params": params}),
                    BAD_PARAMETERS,
                    (method, params),
                )
        places: list[Any] = [
            None,
            {},
            {"line": -1, "character": 0},
            {"line": 0.5, "character": 0},
            {"line": True, "character": 0},
            {"line": 1},
        ]
        for position in places:
            self.assertEqual(
                self.error(
                    {
                        "id": "a",
                        "method": "textDocument/hover",
                        "params": {**here, "position": position},
                    }
                ),
                BAD_PARAMETERS,
                position,
            )
        self.assertIsNone(
            self.ask(
                "textDocument/hover",
                {**here, "position": {"line": 10**30, "character": 10**30}},
            )
        )
        self.check_serves()

    def test_nonsense(self) -> None:
        rows = (
            b"\x00\xff(" * 349_526,
            b"x\n" * 524_288,
            b"Content-Length: ten\r\n\r\n{}\r\n",
            b"Content-Length: -5\r\n\r\n",
            b"\r\n" * 1000 + b"Content: 1\r\n",
        )
        for number, it in enumerate(rows):
            self.put(it)
            self.send(
                {
                    "id": number,
                    "method": "textDocument/none",
                    "params": {"textDocument": {"uri": ""}},
                }
            )
            self.assertEqual(self.refused(), NO_JSON, it[:20])
            self.assertEqual(self.refused(), NO_METHOD, it[:20])
        for body in (b"{", b"\xff\xfe", b"[" * 1_000_000, b"not json" * 125_000, b""):
            self.put(b"Content-Length: %d\r\n\r\n%s" % (len(body), body))
            self.assertEqual(self.refused(), NO_JSON, body[:20])
        self.check_serves()

    def test_names_that_are_none(self) -> None:
        for uri in (
            "",
            "file://[",
            "file:///a%00b",
            "file:///a\0b",
            "untitled:Untitled-1",
            "file:",
            "http://a/b",
            "file:///" + "a/" * 5000,
            "file:///%ff",
        ):
            self.uri = uri
            self.assertEqual([it["code"] for it in self.open(FAULTY)], ["E1"], uri)

    def test_text_that_is_none(self) -> None:
        """A text of halves of characters, and one of 1 MB of nonsense, are scores with a fault."""
        for text in ("name: a;\n%%\n(c4) <x>\ud834(g5)", "\0<(%[|" * 170_000):
            self.assertNotEqual(self.open(text), [])
            for it in (
                "hover",
                "formatting",
                "documentSymbol",
                "foldingRange",
                "completion",
                "codeAction",
                "semanticTokens/full",
            ):
                self.ask_here(
                    it,
                    position={"line": 2, "character": 6},
                    options={},
                    range=span(2, 0, 2, 9),
                    context={},
                )
        self.told.clear()
        self.check_serves()

    def test_cancelled(self) -> None:
        """A request that is cancelled while it waits is answered so, and one that is over is
        answered once."""
        self.open(SCORE)
        text = long_score(200_000)
        self.tell(
            "textDocument/didOpen",
            {"textDocument": {"uri": "file:///long.gabc", "version": 1, "text": text}},
        )
        for number in (100, 101, 102):
            self.send(
                {
                    "id": number,
                    "method": "textDocument/formatting",
                    "params": {"textDocument": {"uri": "file:///long.gabc"}},
                }
            )
        self.send({"method": "$/cancelRequest", "params": {"id": 102}})
        self.send({"method": "$/cancelRequest", "params": {"id": 77}})
        answers: dict[int, Any] = {}
        while len(answers) < 3:
            message = self.receive()
            if "id" in message:
                answers[message["id"]] = message
        self.assertEqual(answers[102]["error"]["code"], CANCELLED)
        self.assertIn("result", answers[100])
        self.send({"method": "$/cancelRequest", "params": {"id": 100}})
        self.ask("shutdown", None)


class Typing(Served):
    words = ("--rules",)

    def processor_time(self) -> float:
        """Returns how long the server has worked, in seconds of a processor: others work beside a
        test, and it waits for nothing but messages."""
        state = Path(f"/proc/{self.server.pid}/stat").read_text(encoding="ascii")
        ticks = state.rpartition(")")[2].split()[11:13]
        return sum(map(int, ticks)) / os.sysconf("SC_CLK_TCK")

    def test_keystrokes(self) -> None:
        """Of 30 keystrokes in 26 kB few are checked, and the messages of the last text come
        soon."""
        begin = time.monotonic()
        self.open(long_score(26_000))
        # Ten keys come while one text is checked, however busy the machine is.
        pause = (time.monotonic() - begin) / 10
        checked: list[int] = []
        for number in range(30):
            self.tell_change({"range": span(2, 5, 2, 5), "text": "a"})
            time.sleep(pause)
        before = self.processor_time()
        self.tell_change({"range": span(2, 5, 2, 5), "text": "<x>"})
        while not checked or checked[-1] != self.version:
            told = self.receive()["params"]
            checked.append(told["version"])
        seconds = self.processor_time() - before
        self.assertEqual(checked, sorted(set(checked)))
        self.assertIn("W6", [it["code"] for it in told["diagnostics"]])
        self.assertLess(len(checked), 20)
        self.assertLess(seconds, MOST_SECONDS)

    def test_all_at_once(self) -> None:
        """Changes that wait are one check."""
        self.open(long_score(26_000))
        body = b""
        for number in range(30):
            self.version += 1
            change = {
                "textDocument": {"uri": self.uri, "version": self.version},
                "contentChanges": [{"range": span(2, 5, 2, 5), "text": "a"}],
            }
            content = json.dumps(
                {"jsonrpc": "2.0", "method": "textDocument/didChange", "params": change}
            ).encode()
            body += b"Content-Length: %d\r\n\r\n%s" % (len(content), content)
        self.put(body)
        checked = [self.receive()["params"]["version"]]
        while checked[-1] != self.version:
            checked.append(self.receive()["params"]["version"])
        self.assertLess(len(checked), 4)


if __name__ == "__main__":
    unittest.main()
