"""Tries the pictures of the language server: as SVG, and as a page for a browser."""
from __future__ import annotations

import re
import stat
from pathlib import Path
from urllib.parse import unquote, urlsplit

from client import Served, Told, place
from drawn import picture
from support import FAULTY, SCORE
from test_show import Page

BAD_PARAMETERS, FAILED = -32602, -32803
COMMAND = "gregorio-chant.show"


class Pictures(Served):
    capabilities_of_client = {"window": {"showDocument": {"support": True}}}

    def show(self, line: int, character: int) -> Told:
        """Asks for the page at a position, and returns what the server asked of the editor for
        it."""
        self.assertIsNone(
            self.ask(
                "workspace/executeCommand",
                {"command": COMMAND, "arguments": [self.uri, place(line, character)]},
            )
        )
        return self.told[-1]

    def page_at(self, uri: str) -> tuple[Path, str]:
        """Returns the page that the page at `uri` leads to, and the id there."""
        file = Path(unquote(urlsplit(uri).path))
        text = file.read_text(encoding="utf-8")
        (link,) = Page(text).links
        self.assertIn(f'content="0;url={link}"', text)
        name, _, id = link.partition("#")
        return file.with_name(name), id

    def test_svg(self) -> None:
        self.open(FAULTY)
        here = {"textDocument": {"uri": self.uri}}
        self.assertEqual(self.ask("gregorio/picture", here), picture(FAULTY))
        self.change(SCORE)
        self.assertEqual(self.ask("gregorio/picture", here), picture(SCORE))
        self.change("")
        self.assertEqual(self.ask("gregorio/picture", here), picture(""))

    def test_page(self) -> None:
        """The editor is asked to open a page that leads to the syllable at the cursor."""
        self.assertEqual(self.capabilities["executeCommandProvider"], {"commands": [COMMAND]})
        self.open("name: Kyrie;\n%%\n(c4) Ky(f)ri(g5)e(e.) (::)\n")
        for line, character, id in (
            (2, 0, "s1"),
            (2, 5, "s2"),
            (2, 8, "s2"),
            (2, 11, "s3"),
            (2, 99, "s5"),
            (0, 0, "s1"),
            (9, 9, "s5"),
        ):
            asked = self.show(line, character)
            self.assertEqual(
                (asked["method"], asked["params"]["external"]), ("window/showDocument", True)
            )
            page, its = self.page_at(asked["params"]["uri"])
            self.assertEqual(its, id, (line, character))
            read = Page(page.read_text(encoding="utf-8"))
            self.assertIn(id, read.ids)
            self.assertIn("character left out of the notes", read.text)
            self.send({"id": asked["id"], "result": {"success": True}})
        self.assertEqual(stat.S_IMODE(page.parent.stat().st_mode), 0o700)
        self.assertEqual(len({it["id"] for it in self.told if "id" in it}), 7)
        self.change("name: a;\n%%\n(c4) a(f) b(g) c(h")
        page, id = self.page_at(self.show(2, 16)["params"]["uri"])
        self.assertIn(id, Page(page.read_text(encoding="utf-8")).ids)
        self.ask("shutdown", None)
        self.tell("exit", None)
        self.assertEqual(self.server.wait(60), 0)
        self.assertFalse(page.parent.exists())

    def test_refused(self) -> None:
        self.open(FAULTY)
        at = place(0, 0)
        for method, params, code in (
            ("gregorio/picture", {}, BAD_PARAMETERS),
            ("gregorio/picture", {"textDocument": {"uri": "file:///other"}}, BAD_PARAMETERS),
            (
                "workspace/executeCommand",
                {"command": "other", "arguments": [self.uri, at]},
                BAD_PARAMETERS,
            ),
            ("workspace/executeCommand", {"command": COMMAND}, BAD_PARAMETERS),
            (
                "workspace/executeCommand",
                {"command": COMMAND, "arguments": [self.uri]},
                BAD_PARAMETERS,
            ),
            (
                "workspace/executeCommand",
                {"command": COMMAND, "arguments": ["file:///other", at]},
                BAD_PARAMETERS,
            ),
            (
                "workspace/executeCommand",
                {"command": COMMAND, "arguments": [self.uri, {"line": -1, "character": 0}]},
                BAD_PARAMETERS,
            ),
        ):
            self.assertEqual(self.answer(method, params)["error"]["code"], code, (method, params))
        self.change("%%\n(c4)" + " " * 1_000_000)
        self.assertEqual(
            self.answer("gregorio/picture", {"textDocument": {"uri": self.uri}})["error"]["code"],
            FAILED,
        )


class WithoutBrowser(Pictures):
    capabilities_of_client = {}

    def test_page(self) -> None:
        """An editor that opens nothing is told where the page is."""
        self.open(SCORE)
        told = self.show(2, 6)
        self.assertEqual((told["method"], told["params"]["type"]), ("window/showMessage", 3))
        (uri,) = re.findall(r"file://\S+", told["params"]["message"])
        self.assertEqual(self.page_at(uri)[1], "s2")
