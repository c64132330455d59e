"""Tries comments that silence messages."""
from __future__ import annotations

import json
import unittest

from support import InFolder, command

from gregorio_chant.linting.checking import found_in
from gregorio_chant.objects.compiled import Compiled


def told(score: str, with_rules: bool = False) -> list[tuple[int, str]]:
    """Returns the line and the code of each message of a score, but for those of the rule on
    comments."""
    return [
        (it.line, it.code)
        for it in found_in(Compiled(score.encode()), with_rules)
        if it.code != "comment"
    ]


class Ignores(unittest.TestCase):
    def test_on_a_line(self) -> None:
        score = "name: a;\n%%\n(c4) <it>a</it>(h5)) {}\n<it>b</it>(g5) (h){}\n"
        faults = [(3, "E1"), (3, "E2"), (3, "W6"), (3, "W6")]
        self.assertEqual(sorted(told(score))[:4], faults)
        for words, left in (
            ("W6", faults[:2]),
            ("W6, E2", faults[:1]),
            ("W6 E2,E1", []),
            ("E", faults[2:]),
            ("W,E", []),
            ("W1", faults),
            ("", faults),
        ):
            ignored = score.replace(") {}\n", f") {{}} % here % gregorio: ignore {words}\n")
            self.assertEqual([it for it in sorted(told(ignored)) if it[0] == 3], left, words)
            self.assertEqual(
                [it for it in sorted(told(ignored)) if it[0] == 4],
                [(4, "E1"), (4, "W6"), (4, "W6")],
                words,
            )

    def test_in_the_score(self) -> None:
        score = (
            "name: a;\nmode: 1;\nmode: 2; % gregorio: ignore W2\n%% % gregorio: ignore-file"
            " W6\n(c4) <it>a</it>(g5)\n<it>b</it>(g5)\n"
        )
        self.assertEqual(told(score), [(5, "E1"), (6, "E1")])
        self.assertEqual(told("% gregorio: ignore-file E\n" + score), [])
        self.assertEqual(told(score + "%gregorio:ignore-file E1"), [])

    def test_what_is_none(self) -> None:
        for comment in (
            "% gregorio: ignored E1",
            "% ignore E1",
            "$% gregorio: ignore E1",
            "% gregorio: ignore-files E1",
            "[% gregorio: ignore E1]",
        ):
            self.assertIn((3, "E1"), told(f"name: a;\n%%\n(c4) a(g5) b{comment}\n(g)"), comment)

    def test_fatal_faults(self) -> None:
        score = (
            "name: a; % gregorio: ignore-file F, F6, E1\n%%\n(c4) a(g5) b(g % gregorio: ignore F6"
        )
        self.assertEqual(told(score), [(3, "F6")])
        self.assertEqual(told(score, True), [(3, "F6")])

    def test_unused(self) -> None:
        score = (
            "name: a; % gregorio: ignore-file W3, W6\n%%\n(c4) <it>a</it>(g5) % gregorio: ignore"
            " E1, E2, W99 F1\n(n) % gregorio: ignore rules\n% gregorio: ignore\n"
        )
        messages = [
            it for it in found_in(Compiled(score.encode()), True) if it.code == "unused-ignore"
        ]
        self.assertEqual(
            [(it.line, it.column, it.text) for it in messages],
            [
                (1, 34, "there is no W3 in the score to silence"),
                (3, 44, "there is no E2 on this line to silence"),
                (3, 48, "W99 is no code, so it silences nothing"),
                (3, 52, "F1 is fatal, so it cannot be silenced"),
                (5, 1, "this names no code, so it silences nothing"),
            ],
        )
        self.assertEqual(told(score), [])
        self.assertNotIn((4, "outside-staff"), told(score, True))


class Command(InFolder):
    def test_statuses(self) -> None:
        words = ["check", "--output-format", "json", "--quiet"]
        self.put("a.gabc", "name: a;\n%%\n(c4) a(g5)\n")
        self.put("b.gabc", "name: a;\n%%\n(c4) a(g5n) % gregorio: ignore E1\n")
        self.assertEqual(command(*words, "a.gabc").returncode, 1)
        ran = command(*words, "b.gabc")
        self.assertEqual((ran.returncode, json.loads(ran.stdout)), (0, []))
        self.assertEqual(
            [it["code"] for it in json.loads(command(*words, "--rules", "b.gabc").stdout)],
            ["outside-staff"],
        )
        self.assertEqual(command("format", "--check", "b.gabc").returncode, 0)


if __name__ == "__main__":
    unittest.main()
