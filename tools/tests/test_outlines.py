"""The outlines by which a picture of the core is drawn, and what the crate `gabc_marks` knows of
them: the tables that `tools/make_symbols` makes are as it makes them, each name of an outline has
one, and each size in the crate is that of the outline."""

from __future__ import annotations

import os
import re
import unittest
from collections.abc import Iterator

from fixture import ROOT
from house import outline_tables as tables

# How much a size of the crate may differ from that of the outline, in thousandths of a staff space.
CLOSE = 10


def read(path: str) -> str:
    with open(os.path.join(ROOT, "crates", path), encoding="utf-8") as file:
        return file.read()


def names() -> dict[str, str]:
    """Returns the names of outlines that the core writes, by the names of their variants."""
    arms = re.findall(r'(\w+::\w+) => "([a-z-]+)"', read("gabc_svg/src/outline_names.rt"))
    return dict(arms)


def sizes(path: str, made: str) -> Iterator[tuple[str, tuple[int, ...]]]:
    """Yields the variants of a source of `gabc_marks`, each with its sizes: `made` begins them."""
    arm = rf"((?:\w+::\w+[\s|]*)+)=> {made}\(\s*(\d+),\s*(\d+),\s*(\d+),?\s*\)"
    for variants, *numbers in re.findall(arm, read(path)):
        for variant in re.findall(r"\w+::\w+", variants):
            yield variant, tuple(map(int, numbers))


class OutlinesTest(unittest.TestCase):
    def setUp(self) -> None:
        self.outlines = tables.named_outlines()
        self.names = names()

    def assert_close(self, name: str, told: tuple[int, ...]) -> None:
        """The sizes that are told of an outline are those that it has."""
        for one, other in zip(told, self.outlines[name].thousandths):
            self.assertLessEqual(abs(one - other), CLOSE, name)

    def test_files_are_as_they_are_made(self) -> None:
        made = tables.made_files()
        self.assertEqual(len(made), 6)
        for path, text in made.items():
            self.assertEqual(path.read_text(encoding="utf-8"), text, path)

    def test_families_are_those_of_the_core(self) -> None:
        told = [name for variant, name in self.names.items() if variant.startswith("Family::")]
        self.assertEqual(told, list(tables.NAMES["FAMILIES"]))

    def test_notes_have_their_sizes(self) -> None:
        told = dict(sizes("gabc_marks/src/head.rt", "Metrics::new"))
        wanted = {it for it in self.names if it.startswith("Single::")}
        self.assertGreater(len(wanted), 20)
        self.assertEqual(set(told), wanted)
        for variant, numbers in told.items():
            self.assert_close(self.names[variant], numbers)

    def test_signs_have_their_sizes(self) -> None:
        told = dict(sizes("gabc_marks/src/symbol.rt", ""))
        wanted = {it for it in self.names if it.startswith("Symbol::")}
        self.assertGreater(len(wanted), 15)
        self.assertEqual(set(told), wanted)
        for variant, numbers in told.items():
            self.assert_close(self.names[variant], numbers)

    def test_strokes_have_their_sizes(self) -> None:
        source = "Metrics::new(1460 + 120 * steps, 340, 500 * steps + 340)"
        self.assertIn(source, read("gabc_marks/src/head.rt"))
        for steps in range(1, 6):
            self.assert_close(f"stroke-{steps}", (1460 + 120 * steps, 340, 500 * steps + 340))

    def test_neumes_have_names_and_sizes(self) -> None:
        outlines = tables.neumes()
        source = read("gabc_svg/src/outline_names.rt")
        for table, file, prefix in tables.HANDS:
            with self.subTest(table):
                row = r'\("(\w+)", (-?\d+), (-?\d+), (-?\d+)\)'
                rows = re.findall(row, read(f"gabc_marks/src/{file}.rt"))
                names = [name for name, *_ in rows]
                self.assertGreater(len(names), 300)
                self.assertEqual(names, sorted(names))
                self.assertIn(f'"{prefix}"', source)
                for name, *numbers in rows:
                    told = tuple(map(int, numbers))
                    self.assertEqual(told, outlines[prefix + name].thousandths, name)
        self.assertEqual(len(outlines), sum(len(tables.outlines_of(it[0])) for it in tables.HANDS))

    def test_joined_outlines_have_names(self) -> None:
        rows = re.findall(r"\((\d+), \d+, \d+, \d+\)", read("gabc_marks/src/outlines.rt"))
        self.assertEqual([int(it) for it in rows], [key for key, _ in tables.joined_outlines()])


if __name__ == "__main__":
    unittest.main()
