"""Tries what the language server offers for a score: actions, outline, completion, hover,
formatting of lines, kinds of parts."""
from __future__ import annotations

import tempfile
import unittest
from pathlib import Path
from typing import Any, cast

from client import Served, Told, applied, place, span
from support import EXAMPLES, FAULTY, scores_of_tables

from gregorio_chant.server.actions import actions
from gregorio_chant.server.document import Document, File
from gregorio_chant.server.protocol import Params
from gregorio_chant.server.text import Text
from gregorio_chant.work.settings import Settings

STYLES = "name: a;\n%%\n(c4) <i>Ky(f)ri</i>(g) e>(h) <x>lei(g)\n"


class Actions(Served):
    def offered(self, *ends: int, **context: object) -> list[Told]:
        whole: dict[str, object] = {"diagnostics": []}
        asked: list[Told] = self.ask_here("codeAction", range=span(*ends), context=whole | context)
        return asked

    def edits_of(self, action: Told) -> list[Told]:
        edits: list[Told] = action["edit"]["changes"][self.uri]
        return edits

    def test_repair(self) -> None:
        self.assertEqual(
            self.capabilities["codeActionProvider"],
            {
                "codeActionKinds": ["quickfix", "source.fixAll.gregorio-chant"],
                "resolveProvider": True,
            },
        )
        shown = self.open(STYLES)
        repair, *others = self.offered(2, 10, 2, 10)
        self.assertEqual(
            (repair["title"][:29], repair["kind"], repair["isPreferred"]),
            ("Close a style over several sy", "quickfix", True),
        )
        self.assertEqual(repair["diagnostics"], [it for it in shown if it["code"] == "W3"][:1])
        self.assertEqual(
            applied(STYLES, self.edits_of(repair)).split("\n")[2],
            "(c4) <i>Ky</i>(f)<i>ri</i>(g) e>(h) <x>lei(g)",
        )
        self.assertEqual(
            [it["title"] for it in others],
            ["Silence W3 on this line", "Silence W3 in this score", "Make all safe repairs"],
        )
        self.assertEqual(self.offered(0, 0, 0, 3), [])
        self.assertEqual(
            self.offered(0, 0, 0, 3, diagnostics=shown[:1])[0]["title"], repair["title"]
        )

    def test_all(self) -> None:
        self.open(STYLES)
        for kind in ("source", "source.fixAll", "source.fixAll.gregorio-chant"):
            (action,) = self.offered(0, 0, 0, 0, only=[kind])
            new = applied(STYLES, self.edits_of(action))
            self.assertEqual(new, "name: a;\n%%\n(c4) <i>Ky</i>(f)<i>ri</i>(g) e$>(h) <x>lei(g)\n")
        self.assertEqual([it["code"] for it in self.change(new)], ["W6"])
        self.assertEqual(self.offered(0, 0, 0, 0, only=["source"]), [])
        self.assertEqual(self.offered(0, 0, 2, 0, only=["refactor"]), [])

    def test_unsafe(self) -> None:
        text = "name: a;\r\n%%\r\n(c4) \U0001d11e(f[ll:1]v)"
        self.open(text)
        repair = self.offered(2, 16, 2, 16)[0]
        self.assertNotIn("isPreferred", repair)
        self.assertIn(
            "(a guess: '\U0001d11e(f[ll:1]v)' becomes '\U0001d11e(fv[ll:1])'; a sign is added)",
            repair["title"],
        )
        self.assertEqual(self.offered(0, 0, 2, 20, only=["source"]), [])
        (edit,) = self.edits_of(repair)
        self.assertEqual(
            edit, {"range": span(2, 9, 2, 16 + 1), "newText": "v[ll:1]"} | {"range": edit["range"]}
        )
        self.assertEqual(
            [it["title"] for it in self.offered(2, 16, 2, 16)][-2:],
            ["Silence E1 on this line", "Silence E1 in this score"],
        )

    def test_silence(self) -> None:
        text = (
            "name: a;\nname: b;\n%%\n(c4) <x>Ky(f) % gregorio: ignore W3\n<y>ri(g) % why\ne(h)"
            " <x>l(g)% gregorio: ignore W6\n"
        )
        self.open(text)
        for line, code, where, new in (
            (3, "W6", 3, "(c4) <x>Ky(f) % gregorio: ignore W3, W6"),
            (4, "W6", 4, "<y>ri(g) % why % gregorio: ignore W6"),
            (1, "W2", 1, "name: b; % gregorio: ignore W2"),
        ):
            here = self.offered(line, 0, line, 40)
            on_line = next(it for it in here if it["title"] == f"Silence {code} on this line")
            made = applied(text, self.edits_of(on_line))
            self.assertEqual(made.split("\n")[where], new)
            self.assertNotIn(line, [it["range"]["start"]["line"] for it in self.change(made)])
            self.change(text)
        in_score = next(
            it for it in self.offered(3, 0, 3, 40) if it["title"] == "Silence W6 in this score"
        )
        made = applied(text, self.edits_of(in_score))
        self.assertEqual(made.split("\n")[2], "%% % gregorio: ignore-file W6")
        self.assertEqual([it["code"] for it in self.change(made)], ["W2"])

    def test_nothing_that_would_change_the_score(self) -> None:
        """A comment cannot silence where the line ends inside something else; and a fault cannot be
        silenced."""
        self.open("name: a;\n%%\n(c4) <x>Ky<v>a\nb</v>(f)\n")
        self.assertEqual(
            [it["title"] for it in self.offered(2, 0, 2, 9)], ["Silence W6 in this score"]
        )
        self.change("name: a;\n%%\n(c4) Ky(f")
        title = (
            "Write the missing ) at the end (a guess: 'Ky(f' becomes 'Ky(f)'; the last notes are"
            " read)"
        )
        self.assertEqual([it["title"] for it in self.offered(2, 0, 2, 9)], [title])


class Versions(Served):
    capabilities_of_client = {"workspace": {"workspaceEdit": {"documentChanges": True}}}

    def test_edit_with_version(self) -> None:
        self.open(FAULTY)
        self.change(STYLES)
        action = self.ask_here("codeAction", range=span(2, 0, 2, 20), context={"diagnostics": []})[
            0
        ]
        (edit,) = action["edit"]["documentChanges"]
        self.assertEqual(edit["textDocument"], {"uri": self.uri, "version": 2})
        self.assertEqual(len(edit["edits"]), 2)


class Resolved(Served):
    capabilities_of_client = {
        "textDocument": {"codeAction": {"resolveSupport": {"properties": ["edit"]}}}
    }

    def test_all_when_chosen(self) -> None:
        """The edits of all repairs are looked for when the action is chosen."""
        self.open(STYLES)
        (action,) = self.ask_here(
            "codeAction", range=span(0, 0, 0, 0), context={"diagnostics": [], "only": ["source"]}
        )
        self.assertNotIn("edit", action)
        chosen = self.ask("codeAction/resolve", action)
        self.assertEqual(
            applied(STYLES, chosen["edit"]["changes"][self.uri]),
            "name: a;\n%%\n(c4) <i>Ky</i>(f)<i>ri</i>(g) e$>(h) <x>lei(g)\n",
        )
        self.assertEqual((chosen["title"], chosen["kind"]), (action["title"], action["kind"]))

    def test_at_most_twenty_messages(self) -> None:
        self.open("name: a;\n%%\n(c4) " + "a>(f) " * 50)
        offered = self.ask_here("codeAction", range=span(0, 0, 9, 0), context={"diagnostics": []})
        self.assertEqual(sum(it.get("isPreferred", False) for it in offered), 20)

    def test_given_up_when_the_score_changes(self) -> None:
        """A long answer is not made to its end once a change waits."""
        self.open("name: a;\n%%\n(c4) " + "a(g[x]&) " * 400)
        self.send(
            {
                "id": 77,
                "method": "textDocument/codeAction",
                "params": {
                    "textDocument": {"uri": self.uri},
                    "range": span(0, 0, 9, 0),
                    "context": {"diagnostics": []},
                },
            }
        )
        self.tell_change("name: a;\n%%\n(c4) a(f)\n")
        answer = self.receive()
        while "id" not in answer:
            answer = self.receive()
        self.assertEqual(answer["id"], 77)
        self.assertTrue("result" in answer or answer["error"]["code"] == -32801)
        self.assertEqual(
            self.answer(
                "textDocument/hover", {"textDocument": {"uri": self.uri}, "position": place(0, 0)}
            )["id"],
            self.number,
        )


class Rules(Served):
    words = ("--rules",)

    def test_repair_of_a_rule(self) -> None:
        text = "name: a;\n%%\n(c4) <sp>Rx</sp>(::)\n"
        self.open(text)
        here = self.ask_here("codeAction", range=span(2, 5, 2, 5), context={"diagnostics": []})
        self.assertEqual(
            applied(text, here[0]["edit"]["changes"][self.uri]).split("\n")[2],
            "(c4) <sp>R/</sp>(::)",
        )


class Outline(Served):
    def test_symbols(self) -> None:
        self.open(
            "name: a;\nmode:1;\n%%\n(c4) Ky(f)ri(g)\ne(h) <b>le</b>(i)i$[(j) (::) 2."
            " <sp>V/</sp>(::)\nson(g[cs::])"
        )
        found = self.ask_here("documentSymbol")
        self.assertEqual(
            [it["name"] for it in found],
            ["name: a", "mode: 1", "1. Kyri e lei[", "2. 2. \u2123", "3. son"],
        )
        self.assertEqual(found[2]["range"], span(3, 0, 4, 28))
        self.assertEqual(
            [(it["name"], it["range"]) for it in found[2]["children"]],
            [("Kyri", span(3, 5, 3, 15)), ("e", span(4, 0, 4, 4)), ("lei[", span(4, 5, 4, 23))],
        )
        self.assertEqual(
            self.ask_here("foldingRange"),
            [{"startLine": 0, "endLine": 1}, {"startLine": 3, "endLine": 4}],
        )

    def test_symbols_with_a_fault(self) -> None:
        self.open("name: a;\n%%\n(c4) Ky(f)ri(g")
        self.assertEqual(
            [it["name"] for it in self.ask_here("documentSymbol")], ["name: a", "1. Ky"]
        )
        self.change("no colon\n%%\n")
        self.assertEqual([it["name"] for it in self.ask_here("documentSymbol")], ["no colon"])
        self.change("")
        self.assertEqual((self.ask_here("documentSymbol"), self.ask_here("foldingRange")), ([], []))

    def test_kinds_of_parts(self) -> None:
        self.open(
            "name: a;\nnabc-lines: 1; % b\n%%\n(c4) <i>K</i>$<(f.[x]|viS1/pu|g)%c\n\U0001d11e(;)"
        )
        kinds = self.capabilities["semanticTokensProvider"]["legend"]["tokenTypes"]
        data, found, line, character = self.ask_here("semanticTokens/full")["data"], [], 0, 0
        for down, right, length, kind, _ in zip(*[iter(data)] * 5):
            line, character = line + down, right if down else character + right
            found.append((line, character, length, kinds[kind]))
        self.assertEqual(
            found,
            [
                (0, 0, 4, "property"),
                (1, 0, 10, "property"),
                (1, 15, 3, "comment"),
                (3, 1, 2, "class"),
                (3, 5, 3, "keyword"),
                (3, 9, 4, "keyword"),
                (3, 16, 2, "variable"),
                (3, 18, 3, "parameter"),
                (3, 22, 4, "function"),
                (3, 27, 2, "function"),
                (3, 30, 1, "variable"),
                (3, 32, 2, "comment"),
                (4, 3, 1, "operator"),
            ],
        )


class Completion(Served):
    def labels(self, text: str) -> dict[str, Any]:
        """Returns what is offered where `^` stands in the text, by its label."""
        before, after = text.split("^")
        self.change(before + after)
        lines = before.split("\n")
        items = self.ask_here("completion", position=place(len(lines) - 1, len(lines[-1])))
        for it in items:
            self.assertEqual(
                applied(before + after, [it["textEdit"]]).count("\n"), text.count("\n")
            )
        return {
            it["label"]: (
                it.get("detail"),
                applied(before + after, [it["textEdit"]]).split("\n")[len(lines) - 1],
            )
            for it in items
        }

    def test_completion(self) -> None:
        self.open("")
        head = "name: a;\nnabc-lines: 1;\n%%\n(c4) "
        self.assertEqual(self.labels("na^\n%%\n")["name"][1], "name: ")
        self.assertIn("def-m3", self.labels("^"))
        self.assertEqual(self.labels("name: a^;\n%%\n"), {})
        self.assertEqual(self.labels("% na^\n%%\n"), {})
        self.assertEqual(self.labels(f"{head}<^")["<sp>"], ("special character", "(c4) <sp>"))
        self.assertEqual(self.labels(f"{head}<i>a</^>(f)")["</i>"][1], "(c4) <i>a</i>(f)")
        self.assertEqual(self.labels(f"{head}<sp>^(f)")["R/"][1], "(c4) <sp>R/</sp>(f)")
        self.assertEqual(self.labels(f"{head}<sp>'a^</sp>(f)")["'ae"][1], "(c4) <sp>'ae</sp>(f)")
        self.assertEqual(self.labels(f"{head}a(f|p^)")["pe"], ("pes", "(c4) a(f|pe)"))
        self.assertEqual(self.labels(f"{head}a(f|pe^|g")["cl"], ("clivis", "(c4) a(f|pecl|g"))
        self.assertEqual(len(self.labels(f"{head}a(f|pe!^)")), 31)
        self.assertEqual(self.labels(f"{head}a(f|pe%|x\nc^)")["cl"][1], "cl)")
        for nothing in ("a$<^", "a$<sp>^", "<v>\\x<^", "<v><sp>^", "a[<^", "<sp>a(^", "a<>^"):
            self.assertEqual(self.labels(head + nothing), {}, nothing)
        for nothing in ("a(^f)", "a(f|pe|g^)", "a(f[|^])", "a^(f)", "a(f)^", "% <^", "a(f % |^\n)"):
            self.assertEqual(self.labels(head + nothing), {}, nothing)
        self.assertEqual(self.labels("name: a;\n%%\n(c4) a(f|^)"), {})
        two = "name: a;\nnabc-lines: 2;\n%%\n(c4) "
        self.assertEqual(self.labels(f"{two}a(f|pe|v^")["vi"][1], "(c4) a(f|pe|vi")
        self.assertEqual(self.labels(f"{two}a(f|pe|vi|g^)"), {})


class Hover(Served):
    def test_hover(self) -> None:
        self.open(
            "nabc-lines: 1;\nname: a;\n%%\n(cb3@f4) \U0001d11e<i>a</i>(fg|pe!clS1) (::) <x>(;)\n"
        )
        for line, character, told in (
            (0, 3, "nabc-lines: lines of NABC, 0 to 4; 0 without it\n"),
            (0, 13, None),
            (1, 0, "name: name of the piece, in most cases its first words; each score has one\n"),
            (3, 1, "cb3@f4: ut on line 3, with a flat si and fa on line 4\n"),
            (3, 12, "<i>: italic\n"),
            (3, 16, "</i>: italic\n"),
            (3, 14, None),
            (3, 20, "f: la, punctum\n\nfg: pes\n"),
            (3, 21, "g: si flat, punctum\n\nfg: pes\n"),
            (3, 24, "pe!clS1: pes, clivis\n"),
            (3, 33, "::: bar finalis\n"),
            (3, 41, ";: bar minor\n"),
        ):
            self.assertEqual(self.hover(line, character), told, (line, character))
        self.assertEqual(
            self.hover(3, 37),
            (
                "W6: tag not known\nthere is no tag '<x>'; it is kept\nWrong:\n   "
                " <it>Ky</it>(f)\nRight:\n    <i>Ky</i>(f)\ngregorio-chant explain W6 says more\n"
            ),
        )


class Markdown(Served):
    capabilities_of_client = {
        "textDocument": {"hover": {"contentFormat": ["markdown", "plaintext"]}}
    }

    def test_hover(self) -> None:
        self.open("nabc-lines: 1;\nname: a;\n%%\n(c4) <i>a</i>(fg) (`) <x>(;)\n")
        self.assertEqual(self.hover(3, 6), "`<i>`: italic\n")
        self.assertEqual(self.hover(3, 14), "`f`: fa, punctum\n\n`fg`: pes\n")
        self.assertEqual(self.hover(3, 19), "`` ` ``: bar virgula\n")
        shown = self.ask_here("hover", position=place(3, 22))["contents"]
        self.assertEqual(shown["kind"], "markdown")
        self.assertEqual(
            shown["value"],
            (
                "**W6**: tag not known\n\nthere is no tag '\\<x\\>'; it is"
                " kept\n\nWrong:\n\n```gabc\n<it>Ky</it>(f)\n```\n\n"
                "Right:\n\n```gabc\n<i>Ky</i>(f)\n```\n\n[All about"
                " W6](file:///usr/share/doc/gregorio-canonical/docs/LANGUAGE.md#errors-and-warnings)\n"
            ),
        )


class Lines(Served):
    def formatted(self, text: str, *ends: int) -> str:
        return applied(
            text,
            self.ask_here(
                "rangeFormatting", range=span(*ends), options={"tabSize": 2, "insertSpaces": True}
            ),
        )

    def test_lines(self) -> None:
        text = "name:a;\n%%\n(c4)  Ky(f)\n   ri(g)\ne(h)   le(i) %  \n\n\n\nson(g)"
        self.open(text)
        self.assertEqual(self.formatted(text, 3, 0, 3, 2), text.replace("   ri", "ri"))
        self.assertEqual(
            self.formatted(text, 2, 0, 4, 0), text.replace("   ri", "ri").replace("(c4)  ", "(c4) ")
        )
        self.assertEqual(
            self.formatted(text, 0, 0, 99, 0),
            "name: a;\n%%\n(c4) Ky(f)\nri(g)\ne(h) le(i) %\n\nson(g)",
        )
        self.assertEqual(self.formatted(text, 8, 0, 8, 0), text)
        self.change("name: a")
        self.assertEqual(self.formatted("name: a", 0, 0, 0, 1), "name: a")
        self.assertIn("it is not whole", self.told[-1]["params"]["message"])

    def test_canonical_lines(self) -> None:
        with tempfile.TemporaryDirectory() as folder:
            Path(folder, "gregorio-chant.toml").write_text("[format]\ncanonical = true\n")
            self.uri = Path(folder, "a.gabc").as_uri()
            text = "name: a;\n%%\n(c4) a(f) b(g)\nc(h)  d(i)\n"
            self.open(text)
            self.assertEqual(
                self.formatted(text, 2, 0, 2, 1), "name: a;\n%%\n(c4)\na(f)\nb(g)\nc(h)\nd(i)\n"
            )


class WhatActionsDo(unittest.TestCase):
    def test_each_action_of_each_score(self) -> None:
        """Each action does what it says: its message goes, and to silence one changes no canonical
        form."""
        number = 0
        for data in sorted(set(scores_of_tables()))[::4]:
            document = Document(
                File("file:///a", "a", Settings(), False, False),
                Text(data.decode("utf-8", "replace")),
                1,
            )
            asked = {"range": span(0, 0, 10**6, 0), "context": {}}
            for action in cast("list[Told]", actions(document, Params(asked))):
                text = document.text
                for it in sorted(
                    action["edit"]["changes"]["file:///a"],
                    key=lambda it: tuple(it["range"]["start"].values()),
                    reverse=True,
                ):
                    text = text.changed(Params(it["range"]).range(), it["newText"])
                made = Document(document.file, text, 2)
                for told in action.get("diagnostics", []):
                    codes = [
                        [it.code for it in them.messages].count(told["code"])
                        for them in (document, made)
                    ]
                    self.assertLess(codes[1], codes[0], (action["title"], document.text.raw))
                if action["title"].startswith("Silence"):
                    self.assertEqual(
                        made.compiled.canonical,
                        document.compiled.canonical,
                        (action["title"], document.text.raw),
                    )
                number += 1
        self.assertGreater(number, 500)


class Everything(Served):
    def test_each_request_of_each_score(self) -> None:
        """No request fails on a score of the tables and the examples."""
        self.open("")
        for data in [
            *sorted(set(scores_of_tables()))[::9],
            *(it.read_bytes() for it in sorted(EXAMPLES.glob("*.gabc"))),
        ]:
            text = data.decode("utf-8", "replace")
            self.change(text)
            line = min(2, text.count("\n"))
            for method in (
                "documentSymbol",
                "foldingRange",
                "semanticTokens/full",
                "hover",
                "completion",
                "codeAction",
                "formatting",
                "rangeFormatting",
            ):
                answer = self.answer(
                    f"textDocument/{method}",
                    {
                        "textDocument": {"uri": self.uri},
                        "position": place(line, 7),
                        "range": span(line, 0, line, 9),
                        "options": {},
                        "context": {"diagnostics": []},
                    },
                )
                self.assertIn("result", answer, (method, text))


if __name__ == "__main__":
    unittest.main()
