"""What the record of refused edits says after each kind of change, and which batch is drawn in
spite of it."""

from __future__ import annotations

import os
from types import SimpleNamespace
from typing import Any

from false_kit import FalseCrate
from fixture import RepositoryTest
from house.refused_record import NAME, Record, Sums, drawn

LOW = """ghost use Rattle.low.specs.One.{one};
ghost use Rattle.low.specs.Inner.{held};

/// Returns the first number.
pub fn first() -> u8
    ensures { result ≡ one }
{
    // It is asked for by `second`.
    second()
}

fn second() -> u8
    ensures { result ≡ held }
{
    1
}

/// The last number.
pub const LAST: u8 = 2;

/// Returns the number after the last one.
pub const fn past() -> u8 {
    LAST + 1
}
"""
HIGH = """use Rattle.low.proofs.Lemma.{one_is_two}

again : ⊤
again = one_is_two
"""
FILES = {
    "crates.txt": "# crates\nlow: memchr\nhigh: low\n",
    "crates/low/src/lib.rt": LOW,
    "crates/low/specs/One.antt": "use Rattle.low.specs.Deep.{two}\none : ℕ\none = two\n",
    "crates/low/specs/Deep.antt": "two : ℕ\n",
    "crates/low/specs/Inner.antt": "held : ℕ\n",
    "crates/low/proofs/Lemma.antt": "one_is_two : ⊤\n",
    "crates/low/proofs/Own.antt": "held_is_two : ⊤\n",
    "crates/high/src/lib.rt": "pub fn two() -> u8 {\n    low::first() + low::past()\n}\n",
    "crates/high/src/inner/deep.rt": 'fn three() -> &str {\n    "a  b"\n}\n',
    "crates/high/specs/Two.antt": "two : ℕ\n",
    "crates/high/proofs/Lib.antt": HIGH,
    "crates/high/wrong_bodies.toml": "[two_is_lost]\n",
}


def edit(name: str, new: str = "b") -> Any:
    """Returns what a record asks of an edit."""
    pairs = [("a", new)]
    return SimpleNamespace(key=name, file="src/lib.rt", within="", by="", pairs=pairs)


class RecordTest(RepositoryTest):
    FILES = FILES

    def setUp(self) -> None:
        super().setUp()
        self.low = FalseCrate(self.root, "low")
        self.high = FalseCrate(self.root, "high", [self.low])
        self.batch = [edit("two_is_lost"), edit("two_is_late")]

    def record(self, kit: str = "kit-1") -> Record:
        return Record(Sums(self.root, kit), self.high)

    def keep(self, *batches: list[Any]) -> None:
        record = self.record()
        for batch in batches:
            record.note(batch, True)
        record.write(batches)

    def test_has_what_was_refused(self) -> None:
        self.assertFalse(self.record().has(self.batch))
        self.keep(self.batch)
        self.assertTrue(self.record().has(self.batch))
        self.assertFalse(self.record().has(self.batch[:1]))

    def is_kept_with(self, path: str, old: str, new: str) -> bool:
        """Returns whether the record still has the batch after a text in the place of another."""
        self.keep(self.batch)
        self.change(path, old, new)
        found = self.record().has(self.batch)
        self.put(path, FILES[path])
        self.assertTrue(self.record().has(self.batch))
        return found

    def test_is_stale_after_a_change_of_what_proofs_rest_on(self) -> None:
        for path, old, new in (
            ("crates/low/src/lib.rt", "result ≡ one", "result ≡ LAST"),
            ("crates/low/src/lib.rt", "pub fn first() -> u8", "pub fn first() -> u16"),
            ("crates/low/src/lib.rt", "u8 = 2", "u8 = 3"),
            ("crates/low/src/lib.rt", "LAST + 1", "LAST + 2"),
            ("crates/low/src/lib.rt", "specs.One.{one}", "specs.Deep.{two as one}"),
            ("crates/low/specs/One.antt", "= two", "= 2"),
            ("crates/low/specs/Deep.antt", "two : ℕ", "two : ℤ"),
            ("crates/low/proofs/Lemma.antt", "⊤", "⊥"),
            ("crates/high/src/lib.rt", "low::first()", "low::first() + 1"),
            ("crates/high/src/inner/deep.rt", "three", "four"),
            ("crates/high/src/inner/deep.rt", '"a  b"', '"a b"'),
            ("crates/high/specs/Two.antt", "two", "three"),
            ("crates/high/proofs/Lib.antt", "again = one_is_two", "again = tt"),
        ):
            with self.subTest(path, old=old):
                self.assertFalse(self.is_kept_with(path, old, new))

    def test_stays_after_a_change_on_which_no_proof_rests(self) -> None:
        for path, old, new in (
            ("crates/low/src/lib.rt", "    second()", "    1"),
            ("crates/low/src/lib.rt", "\nfn second()", "\npub fn second()"),
            ("crates/low/src/lib.rt", "/// Returns the first number.\n", ""),
            ("crates/low/src/lib.rt", "    // It is asked for by `second`.\n", "\n\n"),
            ("crates/low/src/lib.rt", "result ≡ held", "result ≡ 1"),
            ("crates/low/src/lib.rt", "fn second() -> u8", "#[inline(always)]\nfn third() -> u8"),
            ("crates/low/specs/Inner.antt", "ℕ", "ℤ"),
            ("crates/low/proofs/Own.antt", "⊤", "⊥"),
            ("crates/high/src/lib.rt", "pub fn", "// Another comment.\npub fn"),
            ("crates/high/specs/Two.antt", "two", "-- another comment\ntwo"),
        ):
            with self.subTest(path, old=old):
                self.assertTrue(self.is_kept_with(path, old, new))

    def test_is_stale_after_a_new_file_or_a_moved_one(self) -> None:
        self.keep(self.batch)
        os.rename(f"{self.high.folder}/src/inner", f"{self.high.folder}/src/moved")
        self.assertFalse(self.record().has(self.batch))

    def test_is_stale_with_another_kit_or_line_of_crates(self) -> None:
        self.keep(self.batch)
        self.assertFalse(self.record("kit-2").has(self.batch))
        self.put("crates.txt", FILES["crates.txt"].replace("high: low", "high: low memchr"))
        self.assertFalse(self.record().has(self.batch))

    def test_keeps_what_another_kit_has_refused(self) -> None:
        self.keep(self.batch)
        other = self.record("kit-2")
        other.note(self.batch, True)
        other.write([self.batch])
        self.assertTrue(self.record("kit-1").has(self.batch))
        self.assertTrue(self.record("kit-2").has(self.batch))
        last = self.record("kit-2")
        last.note(self.batch, False)
        last.write([self.batch])
        self.assertTrue(self.record("kit-1").has(self.batch))
        self.assertFalse(self.record("kit-2").has(self.batch))

    def test_is_stale_after_a_changed_edit_alone(self) -> None:
        self.keep(self.batch, [edit("other")])
        self.assertFalse(self.record().has([edit("two_is_lost", new="c"), edit("two_is_late")]))
        self.assertTrue(self.record().has([edit("other")]))
        self.put("crates/high/wrong_bodies.toml", "# another comment\n")
        self.assertTrue(self.record().has(self.batch))

    def test_forgets_what_was_not_refused_and_what_is_no_batch(self) -> None:
        self.keep(self.batch, [edit("other")])
        record = self.record()
        record.note(self.batch, False)
        record.write([self.batch])
        self.assertFalse(self.record().has(self.batch))
        self.assertFalse(self.record().has([edit("other")]))
        with open(f"{self.high.folder}/{NAME}", encoding="utf-8") as file:
            self.assertEqual([it for it in file if not it.startswith("#")], [])

    def test_draws_each_batch_for_some_tree(self) -> None:
        batches, seen = ["one", "two", "three"], set[str]()
        for at in range(40):
            self.put("crates/low/src/lib.rt", f"pub fn one() {{}} // {at}\n")
            found = drawn(Sums(self.root, "kit-1"), [self.low, self.high], batches)
            self.assertEqual(found, drawn(Sums(self.root, "kit-1"), [self.low, self.high], batches))
            self.assertEqual(len(found), 1)
            seen.update(found)
        self.assertEqual(seen, {*batches})
        self.assertEqual(drawn(Sums(self.root, "kit-1"), [self.low, self.high], []), [])

    def test_draws_by_the_edits_too(self) -> None:
        batches = [*range(1000)]
        before = drawn(Sums(self.root, "kit-1"), [self.low, self.high], batches)
        self.put("crates/high/wrong_bodies.toml", "[two_is_early]\n")
        self.assertNotEqual(before, drawn(Sums(self.root, "kit-1"), [self.low, self.high], batches))
