"""What `tools/believe` says of a small repository, and what it finds when that is changed."""

from __future__ import annotations

import os

from fixture import RepositoryTest
from house import listing
from house.believe import main

SIZE = """use Rattle.std.specs.Prelude.{ℕ, List, length, ◌+◌}

-- a list with a limit
pub record Bounded : Type 0 where
  pub items : List ℕ
  pub limit : ℕ

-- how long it is
pub size_of : Bounded → ℕ
size_of b = counted b.items

pub counted : List ℕ → ℕ
counted xs = length xs
"""
ROOM = """//! A room for numbers.
//!
//! More of it.

ghost use Rattle.std.specs.Prelude.{◌≡◌};
ghost use Rattle.low.specs.Size.{size_of};
use std::alloc::{AllocError, Global};

/// A room.
pub struct Room {
    items: Vec<u64>,
}

impl Model for Room {
    ghost use Rattle.low.specs.Size.{Bounded};

    ghost Value = { Bounded };
}

impl Room {
    /// Returns how many
    /// there are.
    pub fn len(&self) -> usize
        ensures length { result ≡ size_of self.now }
    {
        self.items.len()
    }

    /// Makes a room.
    pub fn new(alloc: Global) -> Result<Room, AllocError> {
        Room::inner(alloc)
    }
}

/// Empties a room.
pub fn clear(room: &mut Room)
    ensures { size_of room.later ≡ 0 }
{
}
"""
PROMISES = """# Promises

- `Room` and `clear`: as they say.

<!-- believe: begin -->

old

<!-- believe: end -->
"""
PAGE = """# `low`

A room for numbers.

Printed from the sources by `tools/believe --write-contracts`.

## Calls

### `Room::len`

Returns how many there are.

    fn len(&self) -> usize
        ensures length { result ≡ size_of self.now }

### `Room::new`

Makes a room.

*Promises nothing.*

    fn new(alloc: Global) -> Result<Room, AllocError>

### `clear`

Empties a room.

    fn clear(room: &mut Room)
        ensures { size_of room.later ≡ 0 }
"""


class BelieveTest(RepositoryTest):
    FILES = {
        "crates.txt": "# all crates\nlow:\nhigh: low\n",
        "README.md": "",
        "CONTRIBUTING.md": "",
        "docs/PROMISES.md": PROMISES,
        "crates/low/specs/Size.antt": SIZE,
        "crates/low/src/lib.rt": ROOM,
        "crates/high/src/lib.rt": "//! Nothing yet.\n",
        "crates/try_memory/data/calls.tsv": "low::Room::new\twords\n",
        "c/tests/memory.c": "",
    }

    def says(self, flag: str, *lines: str) -> None:
        """Asserts that a check finds these lines, in what it writes, and nothing if there is none;
        what else it may write is how many there are."""
        ran = self.run_tool(main, flag)
        self.assertEqual(ran.status, 1 if lines else 0, ran)
        told = [it for it in ran.out.splitlines() if it.removeprefix("believe: ") in lines]
        self.assertEqual(len(told), len(lines), ran)
        self.assertLessEqual(len(ran.out.splitlines()), len(lines) + 1, ran)

    def test_counts_what_a_call_rests_on(self) -> None:
        for call in ("low::clear", "clear", "low::Room::len"):
            told = self.run_tool(main, call).out.splitlines()
            self.assertIn(": 1 module, 3 definitions, 7 lines; and 1 type of the source,", told[0])
            rest = [
                "  low specs/Size: 7 lines: Bounded, size_of, counted",
                "  crates/low/src/lib.rt: 3 lines: Room",
            ]
            self.assertEqual(told[1:], rest)

    def test_lists_the_definitions(self) -> None:
        ran = self.run_tool(main, "--list", "clear")
        for part in ("/// Empties a room.\n", "-- how long it is\n", "ghost Value = { Bounded };"):
            self.assertIn(part, ran.out)
        self.assertIn("\nRattle.std.specs.Prelude: List length ℕ ◌≡◌\n", ran.out)

    def test_names_calls_that_it_cannot_find(self) -> None:
        self.put("crates/high/src/lib.rt", "pub fn clear() {}\n")
        for call, said in (
            ("none", "no public call is named none"),
            ("clear", "clear may be one of: high::clear, low::clear"),
        ):
            ran = self.run_tool(main, call)
            self.assertEqual((ran.status, ran.out), (1, ""))
            self.assertEqual(ran.errors, f"believe: {said}\n")

    def test_prints_its_usage(self) -> None:
        for words in ((), ("--list",), ("--what",), ("--table", "--list"), ("--write-contracts",)):
            ran = self.run_tool(main, *words)
            self.assertEqual((ran.status, ran.out), (2, ""))
            self.assertIn("\nUsage:\n", ran.errors)

    def test_finds_what_nothing_cites(self) -> None:
        self.says("--check-dead")
        self.put("crates/low/specs/Size.antt", f"{SIZE}\npub unused : ℕ\nunused = counted []\n")
        self.says("--check-dead", "crates/low/specs/Size.antt:15: nothing cites unused")
        self.put("README.md", "The number `unused` is for readers.\n")
        self.says("--check-dead")

    def test_finds_what_only_such_cite(self) -> None:
        proofs = "use Rattle.low.specs.Size.{counted}\n\nlemma : counted [] ≡ 0\nlemma = refl\n"
        self.put("crates/low/proofs/Lemmas.antt", f"{proofs}\nother : lemma\nother = lemma\n")
        self.says(
            "--check-dead",
            "crates/low/proofs/Lemmas.antt:3: nothing cites lemma",
            "crates/low/proofs/Lemmas.antt:6: nothing cites other",
        )
        self.put(
            "crates/low/proofs/clear/Answers.antt",
            "use Rattle.low.proofs.clear.Goals as goal\nuse Rattle.low.proofs.Lemmas.{other}\n\n"
            "pub returns : goal.returns\nreturns = other\n",
        )
        self.says("--check-dead")

    def test_finds_helpers_that_nothing_cites(self) -> None:
        self.put("crates/low/specs/Size.antt", f"{SIZE}  where\n    more : ℕ\n    more = 1\n")
        where = "crates/low/specs/Size.antt:15"
        self.says("--check-dead", f"{where}: counted does not cite its helper more")

    def test_finds_a_comment_that_lacks_and_a_name_of_nothing(self) -> None:
        self.says("--check-promises")
        self.change("crates/low/src/lib.rt", "/// Empties a room.\n", "")
        self.change("docs/PROMISES.md", "and `clear`", "and `empty`")
        line = "docs/PROMISES.md: empty heads a line, and is no public function or type"
        self.says("--check-promises", line, "low.md: `clear` has no comment")

    def test_finds_what_a_clause_should_not_name(self) -> None:
        self.says("--check-machine")
        self.put("crates/low/specs/machine/Step.antt", "pub step : ℕ\nstep = 1\n")
        self.put("crates/high/specs/Up.antt", "use Rattle.low.specs.machine.Step.{step}\n")
        self.change("crates/low/src/lib.rt", "low.specs.Size.{size_of}", "low.specs.machine.Step")
        self.change("crates/low/src/lib.rt", "size_of room.later", "Step.step")
        self.says(
            "--check-machine",
            "crates/high/specs/Up.antt:1: high cites the machine of low",
            "crates/low/src/lib.rt: the clause  of clear names Step of the machine",
            "crates/high/specs/Up.antt: names Rattle.low.specs.machine.Step",
            "crates/high/specs/Up.antt: names Rattle.low.specs.machine.Step.step",
        )

    def test_finds_calls_whose_want_of_memory_is_not_tried(self) -> None:
        self.says("--check-memory")
        self.put("crates/try_memory/data/calls.tsv", "low::Room::old\twords\n")
        old = "low::Room::old is tried, and is no public call that wants memory"
        self.says("--check-memory", "low::Room::new is not tried", old)

    def test_writes_the_contracts_and_says_which_has_no_clause(self) -> None:
        folder = os.path.join(self.root, "made", "contracts")
        self.assertEqual(self.run_tool(main, "--write-contracts", folder).status, 0)
        self.assertEqual(sorted(os.listdir(folder)), ["README.md", "low.md"])
        self.assertEqual(self.text("made/contracts/low.md"), PAGE)
        self.assertIn("\n\n- [`low`](low.md)\n", self.text("made/contracts/README.md"))

    def test_writes_the_table_and_finds_that_it_is_another(self) -> None:
        self.addCleanup(setattr, listing, "MAIN", listing.MAIN)
        setattr(listing, "MAIN", ("clear",))
        self.assertEqual(self.run_tool(main, "--check-table").status, 1)
        self.assertEqual(self.run_tool(main, "--write-table").status, 0)
        self.assertIn("\n| `low::clear` | 1 | 3 | 7 | 1 |\n\n<!--", self.text("docs/PROMISES.md"))
        self.assertEqual(self.run_tool(main, "--check-table").status, 0)
        self.put("docs/PROMISES.md", "no place\n")
        self.assertIn("has not one line", self.run_tool(main, "--check-table").errors)
