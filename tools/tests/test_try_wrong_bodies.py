"""What `tools/try_wrong_bodies` says of the edits of a small crate, with a prover that a test
stands in for."""

from __future__ import annotations

import os
from unittest import mock

from false_kit import FalseCrate, FalseKit
from fixture import Ran, RepositoryTest
from house import try_wrong_bodies
from house.refused_record import Sums

SOURCE = """#[inline]
pub fn one() -> u64
    ensures one { result ≡ 1 }
{
    1
}

pub fn two() -> u64
    ensures { result ≡ 2 }
{
    1 + 1
}

impl First {
    fn same(&self) {
        first()
    }
}

impl Second {
    fn same(&self) {
        second()
    }
}
"""
EDITS = """[one_is_two]
file = 'src/lib.rt'
in = 'one'
old = "    1\\n"
new = "    wrong 2\\n"
refused = 'one'

[one_is_three]
file = 'src/lib.rt'
old = "{\\n    1\\n}"
new = "{\\n    wrong 3\\n}"

[two_is_one]
file = 'src/lib.rt'
old = '1 + 1'
new = 'wrong 1'
refused = 'ensures'
"""
GOALS = {"wrong 2": "returns-clause-one", "wrong 3": "loop-1-clause-below", "wrong 1": "returns"}
# The checksums of these edits, which no change of the tools may change: all records would be void.
SUMS = (
    "2d3a8edd410d369cd28fe361944c0f116af928181e008db55b0bc7ef7979a0c5",
    "f404fb2851a276d14ee9e80c873bc7b11db8a7cd58ea408c5b4f7e32ab8e5b50",
)
TREE = "e669817c82cefe61a997acae0231264f1d6a0f47c702ad148bd6c62e7539b82b"


class WrongBodiesTest(RepositoryTest):
    FILES = {
        "crates.txt": "low:\n",
        "crates/low/src/lib.rt": SOURCE,
        "crates/low/specs/It.antt": "it : ℕ\nit = 1\n",
        "crates/low/wrong_bodies.toml": EDITS,
    }

    def setUp(self) -> None:
        super().setUp()
        self.addCleanup(os.chdir, os.getcwd())
        self.low = FalseCrate(self.root, "low")
        self.kit = FalseKit([self.low])
        self.kit.goals = dict(GOALS)

    def ran(self, *words: str) -> Ran:
        """Runs the tool over the crate."""
        tool = try_wrong_bodies
        self.kit.tried.clear()
        with mock.patch.object(tool, "load", lambda name: self.kit):
            with mock.patch.object(tool, "version", lambda: "kit-1 of a test"):
                return self.run_tool(tool.main, *words)

    def record(self) -> list[str]:
        """Returns the lines of the record: what stands after the checksum of each."""
        lines = self.text("crates/low/wrong_bodies.lock").splitlines()[1:]
        return sorted(it.partition(" ")[2] for it in lines)

    def add(self, name: str, *lines: str) -> None:
        """Adds an edit of this name."""
        self.put("crates/low/wrong_bodies.toml", "\n".join([EDITS, f"[{name}]", *lines, ""]))

    def test_finds_edits_that_cannot_be_applied(self) -> None:
        self.assertEqual(self.ran("--check"), (0, "3 edits, 0 cannot be applied\n", ""))
        file, old = "file = 'src/lib.rt'", "old = '()'\nnew = '{}'"
        for lines, why in (
            (
                (file, "old = 'none'\nnew = '1'"),
                "an old text is in src/lib.rt 0 times, and not once",
            ),
            ((file, old), "an old text is in src/lib.rt 4 times, and not once"),
            ((file, "in = 'same'", old), "src/lib.rt has 2 functions same, and not one"),
            ((file, "in = 'none'", old), "src/lib.rt has 0 functions none, and not one"),
            (("file = 'src/none.rt'", old), "it names no file below src/, or changes nothing"),
            ((file, "old = []\nnew = []"), "it names no file below src/, or changes nothing"),
            (
                (file, "by = 'laws::it'\nold = 'first()'\nnew = 'second()'"),
                "it names by what it is refused, and changes a function",
            ),
        ):
            with self.subTest(why):
                self.add("another", *lines)
                ran = self.ran("--check")
                said = f"try_wrong_bodies: low/another: cannot be applied: {why}"
                self.assertEqual(ran.out.splitlines(), [said, "4 edits, 1 cannot be applied"])
                self.assertEqual((ran.status, self.kit.tried), (1, []))
        ran = self.ran()
        self.assertEqual(ran.status, 1)
        self.assertEqual(ran.out.splitlines()[-1], "wrong bodies: 3 passed, 1 failed")

    def test_tries_no_two_edits_of_one_function_at_once_and_notes_what_was_refused(self) -> None:
        self.assertEqual(self.ran(), (0, "wrong bodies: 3 passed, 0 failed\n", ""))
        self.assertEqual(self.kit.tried, [["wrong 2", "wrong 1"], ["wrong 3"]])
        self.assertEqual(self.record(), ["1 one_is_three kit-1", "2 one_is_two kit-1"])
        ran = self.ran()
        self.assertEqual(len(self.kit.tried), 1)
        self.assertRegex(
            ran.out, "[12] edits are not tried: their records say .*: the batch of low/"
        )
        self.assertEqual(self.ran("--all").status, 0)
        self.assertEqual(len(self.kit.tried), 2)
        self.change("crates/low/specs/It.antt", "it = 1", "it = 2")
        self.assertEqual(self.ran().out, "wrong bodies: 3 passed, 0 failed\n")

    def test_finds_an_edit_that_is_not_refused(self) -> None:
        del self.kit.goals["wrong 1"]
        ran = self.ran()
        self.assertIn("try_wrong_bodies: low/two_is_one: not refused: still proved\n", ran.out)
        self.assertEqual(ran.out.splitlines()[-1], "wrong bodies: 2 passed, 1 failed")
        self.assertEqual((ran.status, self.record()), (1, ["1 one_is_three kit-1"]))

    def test_finds_an_edit_that_another_clause_refuses(self) -> None:
        self.kit.goals["wrong 2"] = "clear-requires"
        said = "low/one_is_two: refused by requires of clear, and not by one\n"
        ran = self.ran()
        self.assertIn(said, ran.out)
        self.assertEqual(ran.status, 0)
        ran = self.ran("--all", "--strict")
        self.assertIn(said, ran.out)
        self.assertEqual(ran.status, 1)
        self.assertEqual(ran.out.splitlines()[-1], "wrong bodies: 2 passed, 1 failed")

    def test_writes_the_clause_where_none_stands(self) -> None:
        self.assertEqual(self.ran("--write").status, 0)
        new = 'new = "{\\n    wrong 3\\n}"\n'
        wanted = EDITS.replace(new, f"{new}refused = 'invariant'\n")
        self.assertEqual(self.text("crates/low/wrong_bodies.toml"), wanted)

    def test_finds_a_record_that_is_not_true(self) -> None:
        self.assertEqual(self.ran().status, 0)
        self.kit.goals.clear()
        ran = self.ran()
        self.assertEqual(ran.status, 1)
        self.assertRegex(ran.out, "tried in spite of its record: the batch of low/one_is_t")
        self.assertRegex(ran.out, "low/one_is_t.*: not refused: still proved\n")
        self.assertEqual(len(self.record()), 1)

    def test_tries_nothing_if_the_crate_is_not_proved_without_the_edit(self) -> None:
        self.kit.goals, self.kit.is_proved = {}, False
        ran = self.ran()
        said = "low/one_is_two: not tried, since the crate itself is not proved\n"
        self.assertIn(said, ran.out)
        self.assertEqual((ran.status, self.record()), (1, []))

    def test_tries_nothing_of_crates_without_edits(self) -> None:
        ran = self.ran("none")
        self.assertEqual((ran.status, ran.out), (2, ""))
        self.assertIn("nothing tried", ran.errors)

    def test_checksums_are_those_of_before(self) -> None:
        self.assertEqual(self.ran().status, 0)
        lines = self.text("crates/low/wrong_bodies.lock").splitlines()[1:]
        self.assertEqual(tuple(it.split()[0] for it in lines), SUMS)
        tree = Sums(self.root, "kit-1 of a test").of_tree([self.low])
        self.assertEqual(tree, TREE)
