"""The kinds of nodes are the same, with the same numbers, wherever they are listed. The list of
`crates/gabc_nodes/src/kind.rt` counts."""

from __future__ import annotations

import re
import unittest
from collections.abc import Iterable

from fixture import ROOT
from house import files


def read(path: str) -> str:
    return files.read(f"{ROOT}/{path}")


def declared(pattern: str, path: str) -> str:
    """Returns what a group of the pattern finds in a file, over lines, or nothing."""
    found = re.search(pattern, read(path), re.DOTALL)
    return found[1] if found else ""


def words_of(name: str) -> list[str]:
    """Returns the words of a name as `HeaderName`, in small letters."""
    return [it.lower() for it in re.findall(r"[A-Z][a-z]*", name)]


def numbered(names: Iterable[str]) -> list[tuple[int, str]]:
    return list(enumerate(names))


def kinds() -> list[str]:
    """Returns the names of the kinds, in the order of their numbers."""
    text = declared(r"pub enum Kind \{\n(.*?)\n\}", "crates/gabc_nodes/src/kind.rt")
    return re.findall(r"(?m)^    ([A-Z]\w*),$", text)


def pairs(pattern: str, text: str) -> list[tuple[int, str]]:
    """Returns the numbers and names that a pattern finds, in their order."""
    return [(int(number), name) for name, number in re.findall(pattern, text)]


class KindsTest(unittest.TestCase):
    def setUp(self) -> None:
        self.kinds = kinds()
        self.assertGreater(len(self.kinds), 30)
        self.upper = ["_".join(words_of(it)).upper() for it in self.kinds]
        self.camel = [it[0].lower() + it[1:] for it in self.kinds]

    def test_definitions_have_their_numbers(self) -> None:
        found = pairs(
            r"(?m)^number_of kind\.(\w+) = (\d+)$", read("crates/gabc_nodes/specs/Kind.antt")
        )
        self.assertEqual(found, numbered(self.kinds))

    def test_the_header_for_c_lists_them(self) -> None:
        found = pairs(r"(?m)^  GREGORIO_KIND_(\w+) = (\d+),?$", read("c/gregorio.h"))
        self.assertEqual(found, numbered(self.upper))

    def test_the_crate_for_rust_lists_them(self) -> None:
        found = pairs(r"(?m)^    (\w+) = (\d+),$", read("rust/src/kind.rs"))
        self.assertEqual(found, numbered(self.kinds))

    def test_the_python_package_lists_them(self) -> None:
        found = pairs(
            r"(?m)^    (\w+) = (\d+)$", read("python/gregorio_chant/_native/node_kinds.py")
        )
        self.assertEqual(found, numbered(self.upper))

    def test_the_package_for_javascript_lists_them(self) -> None:
        self.assertEqual(re.findall(r'(?m)^  "(\w+)",$', read("js/src/kinds.js")), self.camel)
        text = declared(r"export type NodeKind =\n(.*?);", "js/index.d.ts")
        self.assertEqual(re.findall(r'"(\w+)"', text), self.camel)

    def test_the_page_of_formats_lists_them(self) -> None:
        found = pairs(r"(?m)^\| `([A-Z]\w*)` \| (\d+) \|", read("docs/FORMATS.md"))
        self.assertEqual(found, numbered(self.kinds))


if __name__ == "__main__":
    unittest.main()
