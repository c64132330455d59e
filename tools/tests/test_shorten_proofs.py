"""What `tools/shorten_proofs` tries of a small crate, with a prover that a test stands in for."""

from __future__ import annotations

import subprocess
from unittest import mock

from fixture import RepositoryTest
from house import shorten_proofs

LEMMAS = """use Rattle.std.proofs.Common.{cong}

short : ℕ
short = zero

pub long : (n : ℕ) → n ≡ n
long n =
  cong suc
    (short_of n)

short_of : (n : ℕ) → n ≡ n
short_of zero = refl
short_of (suc n) =
  cong suc
    (short_of n)
"""
SHORT = "long n = grind (arith, short_of)"


class ShortenProofsTest(RepositoryTest):
    FILES = {"crates/low/proofs/Lemmas.antt": LEMMAS}

    def tool(self, words: list[str], root: str) -> int:
        """Runs the tool with a prover that refuses the first proof that is tried if it has to."""
        seen: list[str] = []

        def check(*words: str, folder: str) -> subprocess.CompletedProcess[str]:
            self.assertEqual((words, folder), (("check", "--allow-holes"), f"{root}/crates/low"))
            lines = self.text("crates/low/proofs/Lemmas.antt").split("\n")
            seen.append("\n".join(lines))
            at = [number for number, it in enumerate(lines, 1) if it.startswith(self.refused)]
            told = [f"proofs/Lemmas.antt:{it}:1: error: not proved" for it in at]
            return subprocess.CompletedProcess([], 1, "\n".join([*told, "modules loaded=1"]), "")

        with mock.patch.object(shorten_proofs, "run_rt", check):
            status = shorten_proofs.main(words, root)
        self.tried = seen
        return status

    def test_tries_what_has_more_than_one_line(self) -> None:
        self.refused = "nothing"
        ran = self.run_tool(self.tool, "low")
        where = "proofs/Lemmas.antt"
        self.assertEqual(
            ran.out.splitlines(),
            [
                f"{where}:7: long is shorter by 2: {SHORT}",
                f"{where}:13: short_of is shorter by 2:"
                " short_of (suc n) = grind (arith, short_of n)",
                "2 proofs tried, 2 are shorter, by 4 lines",
            ],
        )
        self.assertEqual(len(self.tried), 1)
        self.assertIn("\nlong-tried_0 n = grind (arith, short_of)\n", self.tried[0])
        self.assertEqual(self.text("crates/low/proofs/Lemmas.antt"), LEMMAS)

    def test_leaves_what_is_refused_and_writes_the_rest(self) -> None:
        self.refused = "short_of-tried_1 (suc"
        ran = self.run_tool(self.tool, "--write", "low")
        self.assertEqual(len(self.tried), 2)
        self.assertIn("2 proofs tried, 1 are shorter, by 2 lines\n", ran.out)
        text = self.text("crates/low/proofs/Lemmas.antt")
        self.assertIn(f"\n{SHORT}\n\nshort_of : ", text)
        self.assertTrue(text.startswith("use Rattle.std.proofs.Common.{cong, arith}\n"))
        self.assertTrue(text.endswith(LEMMAS[LEMMAS.index("short_of (suc") :]))

    def test_ends_if_the_crate_is_not_proved(self) -> None:
        self.refused = "long n"
        with self.assertRaisesRegex(SystemExit, "the crate is not proved"):
            self.run_tool(self.tool, "low")
        self.assertEqual(self.text("crates/low/proofs/Lemmas.antt"), LEMMAS)

    def test_prints_its_usage(self) -> None:
        for words in ((), ("--write",), ("none",)):
            self.assertEqual(self.run_tool(shorten_proofs.main, *words).status, 2)
