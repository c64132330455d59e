"""A client that says to the language server what editors say."""
from __future__ import annotations

import json
import subprocess
import sys
import unittest
from typing import Any

URI = "file:///a%20b.gabc"
Told = dict[str, Any]


class Served(unittest.TestCase):
    """Tests with a server of their own, which is initialized."""

    words: tuple[str, ...] = ()
    capabilities_of_client: Told = {}

    def setUp(self) -> None:
        self.uri = URI
        self.version = 0
        self.start(*self.words)

    def start(self, *words: str) -> None:
        self.launch(*words)
        self.capabilities = self.ask(
            "initialize",
            {"processId": None, "rootUri": None, "capabilities": self.capabilities_of_client},
        )["capabilities"]
        self.tell("initialized", {})

    def launch(self, *words: str) -> None:
        """Starts a server that nothing is said to."""
        self.server = subprocess.Popen(
            [sys.executable, "-m", "gregorio_chant", "server", *words],
            stdin=subprocess.PIPE,
            stdout=subprocess.PIPE,
            stderr=subprocess.PIPE,
        )
        self.addCleanup(self.stop, self.server)
        self.number = 0
        self.told: list[Told] = []

    @staticmethod
    def stop(server: subprocess.Popen[bytes]) -> None:
        server.kill()
        server.wait()
        for it in (server.stdin, server.stdout, server.stderr):
            if it is not None:
                it.close()

    def put(self, content: bytes) -> None:
        assert self.server.stdin
        self.server.stdin.write(content)
        self.server.stdin.flush()

    def send(self, message: object) -> None:
        whole: object = {"jsonrpc": "2.0", **message} if isinstance(message, dict) else message
        body = json.dumps(whole).encode()
        self.put(b"Content-Length: %d\r\n\r\n%s" % (len(body), body))

    def receive(self) -> Told:
        length = 0
        assert self.server.stdout
        while line := self.server.stdout.readline().strip():
            if line.lower().startswith(b"content-length:"):
                length = int(line.split(b":")[1])
        received: Told = json.loads(self.server.stdout.read(length))
        return received

    def tell(self, method: str, params: object) -> None:
        self.send({"method": method, "params": params})

    def answer(self, method: str, params: object) -> Told:
        """Returns the whole answer to a request."""
        self.number += 1
        self.send({"id": self.number, "method": method, "params": params})
        while "id" not in (answer := self.receive()) or "method" in answer:
            self.told.append(answer)
        self.assertEqual(answer["id"], self.number)
        return answer

    def ask(self, method: str, params: object) -> Any:
        return self.answer(method, params)["result"]

    def ask_here(self, method: str, **params: object) -> Any:
        """Asks about the score that is open."""
        here: dict[str, object] = {"textDocument": {"uri": self.uri}}
        return self.ask(f"textDocument/{method}", here | params)

    def open(self, text: str) -> list[Told]:
        """Opens a score, and returns the messages that come."""
        self.version = 1
        self.tell(
            "textDocument/didOpen",
            {"textDocument": {"uri": self.uri, "languageId": "gabc", "version": 1, "text": text}},
        )
        return self.shown()

    def change(self, *changes: str | Told) -> list[Told]:
        """Changes the score, and returns the messages that come."""
        self.tell_change(*changes)
        return self.shown()

    def tell_change(self, *changes: str | Told) -> None:
        self.version += 1
        them = [{"text": it} if isinstance(it, str) else it for it in changes]
        self.tell(
            "textDocument/didChange",
            {"textDocument": {"uri": self.uri, "version": self.version}, "contentChanges": them},
        )

    def shown(self) -> list[Told]:
        message = self.receive()
        self.assertEqual(
            (message["method"], message["params"]["uri"]),
            ("textDocument/publishDiagnostics", self.uri),
        )
        self.assertEqual(message["params"].get("version", self.version), self.version)
        diagnostics: list[Told] = message["params"]["diagnostics"]
        return diagnostics

    def format(self) -> Any:
        return self.ask_here("formatting", options={"tabSize": 2, "insertSpaces": True})

    def hover(self, line: int, character: int) -> str | None:
        answer = self.ask_here("hover", position=place(line, character))
        return None if answer is None else answer["contents"]["value"]


def place(line: int, character: int) -> Told:
    return {"line": line, "character": character}


def span(*ends: int) -> Told:
    """Returns a range, from the line and column of its begin and of its end."""
    return {"start": place(*ends[:2]), "end": place(*ends[2:])}


def applied(text: str, edits: list[Told]) -> str:
    """Returns `text`, of ASCII and with LF, with edits of an editor."""
    lines = text.split("\n")

    def offset(at: Told) -> int:
        return sum(len(it) + 1 for it in lines[: at["line"]]) + int(at["character"])

    for it in sorted(edits, key=lambda it: offset(it["range"]["start"]), reverse=True):
        text = (
            text[: offset(it["range"]["start"])]
            + it["newText"]
            + text[offset(it["range"]["end"]) :]
        )
    return text
