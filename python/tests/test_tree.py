"""Tries the views of a tree: what lies in a node, its bytes and its places; trees of all kinds of
scores, and what no tree is made of."""
from __future__ import annotations

import doctest
import threading
import unittest

from pages import block
from support import EXAMPLES, ROOT
from tree_form import own_parts

from gregorio_chant import Node, NodeKind, Tree, check, tree
from gregorio_chant._native import memory, trees
from gregorio_chant._native.nodes import RECORD
from gregorio_chant._native.trees import _LEAST, _TIMES
from gregorio_chant.dump import Score
from gregorio_chant.text.source import Place

_DEGREES = ("ut", "re", "mi", "fa", "sol", "la", "si")
_ALTERATIONS = ("none", "flat", "natural", "sharp")
SCORE = "name: Kyrie;\n%%\n(c4) K\u00fd(h5g.)ri(h) % end\n"
TWO_BY_TWO = "%%\r\n\ufeff(c4) \u00e9(f&)a(g\r\nh\ri)"


def first(made: Tree, kind: NodeKind) -> Node:
    return next(made.of_kind(kind))


def spelled(made: Tree, *kinds: NodeKind) -> list[str]:
    return [it.kept for it in made.of_kind(*kinds)]


class Nodes(unittest.TestCase):
    def setUp(self) -> None:
        self.tree = tree(SCORE)

    def test_what_lies_in_a_node(self) -> None:
        root = self.tree.root
        self.assertEqual(
            (root.kind, root.begin, root.end, len(root)),
            (NodeKind.FILE, 0, len(SCORE.encode()), len(self.tree) - 1),
        )
        self.assertEqual(list(root), list(self.tree)[1:])
        header = first(self.tree, NodeKind.HEADER)
        self.assertEqual(
            [it.kind for it in header.children()], [NodeKind.HEADER_NAME, NodeKind.HEADER_VALUE]
        )
        self.assertEqual([it.text for it in header.children(NodeKind.HEADER_VALUE)], ["Kyrie"])
        self.assertEqual(header.text, "name: Kyrie;")
        syllables = list(root.children(NodeKind.SYLLABLE))
        self.assertEqual(len(syllables), 3)
        self.assertTrue(all(it in list(root) for it in syllables))

    def test_what_is_kept(self) -> None:
        """The bytes of a node, its own bytes, and what was kept of it."""
        snippet = list(self.tree.of_kind(NodeKind.SNIPPET))[1]
        self.assertEqual((snippet.text, snippet.kept, snippet.source), ("h5g.", "hg.", b"h5g."))
        self.assertEqual(spelled(self.tree, NodeKind.NOTE), ["h", "g.", "h"])
        self.assertEqual(spelled(self.tree, NodeKind.CHARACTERS), ["K\u00fd", "ri"])
        file = self.tree.root
        self.assertEqual(
            b"".join(self.tree.source[begin:end] for begin, end in file.own_spans()), file.own
        )
        self.assertEqual(sum(len(it.own) for it in self.tree), len(SCORE.encode()))

    def test_a_note_with_more_in_it(self) -> None:
        made = tree("%%\n(f&\ufeff.g)")
        note = first(made, NodeKind.NOTE)
        self.assertEqual(
            (note.text, note.kept, note.own, note.b >> 7 & 3), ("f&\ufeff.", "f.", b"f.", 1)
        )
        self.assertEqual([it.kind for it in note], [NodeKind.LEFT_OUT, NodeKind.SILENT])

    def test_places(self) -> None:
        """Places are those of messages, and offsets count characters."""
        (message,) = check(SCORE).messages
        left_out = first(self.tree, NodeKind.LEFT_OUT)
        self.assertEqual((left_out.line, left_out.column), (message.line, message.column))
        self.assertEqual(str(left_out), "3:10")
        self.assertEqual(
            (left_out.begin, left_out.place),
            (SCORE.encode().index(b"5"), Place(SCORE.index("5"), 3, 10)),
        )
        self.assertEqual(left_out.end_place, Place(SCORE.index("5") + 1, 3, 11))
        for node in self.tree:
            self.assertEqual(SCORE[node.place.offset : node.end_place.offset], node.text)

    def test_places_after_other_line_ends(self) -> None:
        made = tree(TWO_BY_TWO)
        found = [(it.line, it.column) for it in check(TWO_BY_TWO).messages if it.code == "E1"]
        self.assertEqual([(it.line, it.column) for it in made.of_kind(NodeKind.LEFT_OUT)], found)
        self.assertEqual(
            [(it.text, it.line, it.column) for it in made.of_kind(NodeKind.SILENT)],
            [("\n", 2, 1), ("\ufeff", 2, 1), ("\n", 3, 1)],
        )
        self.assertEqual(
            [(it.kept, it.line) for it in made.of_kind(NodeKind.NOTE)],
            [("f", 2), ("g", 2), ("h", 3), ("i", 4)],
        )
        for node in made:
            self.assertEqual(TWO_BY_TWO[node.place.offset : node.end_place.offset], node.text)

    def test_places_of_a_long_line(self) -> None:
        score = "%%\n" + "\u00e9(f)" * 10_000
        notes = list(tree(score).of_kind(NodeKind.NOTE))
        self.assertEqual((len(notes), notes[-1].place), (10_000, Place(len(score) - 2, 2, 39_999)))

    def test_the_node_of_a_byte(self) -> None:
        source = SCORE.encode()
        self.assertEqual(self.tree.at(source.index(b"g.")).kept, "g.")
        self.assertEqual(self.tree.at(source.index(b"5")).kind, NodeKind.LEFT_OUT)
        self.assertEqual(self.tree.at(source.index(b": ")).kind, NodeKind.HEADER)
        for offset in range(len(source)):
            node = self.tree.at(offset)
            self.assertTrue(any(begin <= offset < end for begin, end in node.own_spans()), offset)
        for wrong in (-1, len(source)):
            self.assertRaises(IndexError, self.tree.at, wrong)

    def test_the_list(self) -> None:
        self.assertEqual([it.number for it in self.tree], list(range(len(self.tree))))
        self.assertEqual(self.tree[-1].number, len(self.tree) - 1)
        self.assertEqual(self.tree[0], self.tree.root)
        self.assertNotEqual(self.tree.root, tree(SCORE).root)
        self.assertEqual(len({self.tree[1], self.tree[1], self.tree[2]}), 2)
        for wrong in (len(self.tree), -len(self.tree) - 1):
            with self.assertRaises(IndexError):
                self.tree[wrong]
        self.assertTrue(self.tree[-1])
        self.assertIn("CHARACTERS", repr(first(self.tree, NodeKind.CHARACTERS)))


class Scores(unittest.TestCase):
    def test_kinds_of_scores(self) -> None:
        """A `str` and bytes have the same tree, and what the caller changes afterwards changes no
        tree."""
        data = bytearray(SCORE.encode())
        all_trees = [tree(SCORE), tree(bytes(data)), tree(memoryview(data)), tree(data)]
        data[:] = bytes(len(data))
        self.assertEqual(
            {
                tuple((it.kind, it.begin, it.end, it.values) for it in made)
                for made in all_trees[1:]
            },
            {tuple((it.kind, it.begin, it.end, it.values) for it in all_trees[0])},
        )
        self.assertEqual({it.source for it in all_trees}, {SCORE.encode()})
        for wrong in (None, 3, ["%%"]):
            self.assertRaises(TypeError, tree, wrong)

    def test_scores_that_are_bad(self) -> None:
        for score, fault in (
            (b"", 302),
            (b"\0", 302),
            (b"\xff", 301),
            (b"%%\n(f)a(\xff", 301),
            (b"name: a", 303),
            (b"%%\n(f", 306),
        ):
            made = tree(score)
            self.assertEqual([it.a for it in made.of_kind(NodeKind.UNREAD)], [fault], score)
            self.assertEqual(b"".join(own_parts(made)), score)
        self.assertEqual(len(tree(b"").root.text), 0)
        self.assertEqual(tree("%%\n(f)a(\ud800").source, b"%%\n(f)a(\xed\xa0\x80")

    def test_a_long_score(self) -> None:
        """A tree of more nodes than its room has at first, and one that is not copied."""
        dense = tree("%%\n" + "(f)" * 30_000)
        self.assertGreater(RECORD * len(dense), _TIMES * len(dense.source) + _LEAST)
        self.assertEqual(len(list(dense.of_kind(NodeKind.NOTE))), 30_000)
        score = ("%%\n" + "Ky(f)ri(g) " * 40_000).encode()
        made = tree(score)
        again = tree(score.replace(b"f", b"g"))
        self.assertEqual(
            [len(list(it.of_kind(NodeKind.NOTE))) for it in (made, again)], [80_000] * 2
        )
        self.assertEqual({it.a & 15 for it in made.of_kind(NodeKind.NOTE)}, {5, 6})
        self.assertEqual({it.a & 15 for it in again.of_kind(NodeKind.NOTE)}, {6})

    def test_rooms_are_used_again(self) -> None:
        """A tree stays as it is when the next one is made in the same room."""
        made = tree(SCORE)
        before = [repr(it) for it in made]
        for _ in range(5):
            tree("%%\n" + "(g)" * 50)
        self.assertEqual([repr(it) for it in made], before)
        self.assertGreater(len(memory.Room._spare), 0)

    def test_threads(self) -> None:
        score = (EXAMPLES / "introit.gabc").read_bytes()
        wanted = [repr(it) for it in tree(score)]
        answers: list[bool] = []

        def work() -> None:
            answers.extend([repr(it) for it in tree(score)] == wanted for _ in range(20))

        threads = [threading.Thread(target=work) for _ in range(4)]
        for it in threads:
            it.start()
        for it in threads:
            it.join()
        self.assertEqual(answers, [True] * 80)


class Objects(unittest.TestCase):
    def test_notes(self) -> None:
        """The notes of the examples are those of `Score.parse`, at the same places, with the same
        spelling, degree and alteration."""
        for path in sorted(EXAMPLES.glob("*.gabc")):
            with self.subTest(path=path.name):
                data = path.read_bytes()
                wanted = [
                    (it.source.place, it.spelling, it.height, it.degree, it.alteration)
                    for it in Score.parse(data).notes
                ]
                found = [
                    (
                        it.place,
                        it.kept,
                        it.a & 15,
                        (*_DEGREES, None)[it.c & 7],
                        _ALTERATIONS[it.c >> 3 & 3],
                    )
                    for it in tree(data).of_kind(NodeKind.NOTE)
                ]
                self.assertEqual(found, wanted)


class Documents(unittest.TestCase):
    def test_example_of_the_call(self) -> None:
        tried = doctest.testmod(trees)
        self.assertEqual((tried.attempted > 0, tried.failed), (True, 0))

    def test_the_page_of_formats(self) -> None:
        """The page has the tree of its score."""
        score = block("docs/FORMATS.md", "test: tree, score")
        depths: list[int] = []
        lines = []
        for node in tree(score):
            while depths and depths[-1] <= node.number:
                depths.pop()
            name = "".join(it.capitalize() for it in node.kind.name.split("_"))
            numbers = " ".join(map(str, node.values))
            lines.append(
                f"{'  ' * len(depths)}{name} {node.begin}:{node.end} {numbers} {node.own.decode()!r}"
            )
            depths.append(node.past)
        self.assertEqual("\n".join(lines) + "\n", block("docs/FORMATS.md", "test: tree, nodes"))

    def test_the_records_of_the_header(self) -> None:
        """The header for C has the record that is read here."""
        header = (ROOT / "c" / "gregorio.h").read_text(encoding="utf-8")
        struct = header[header.index("struct gregorio_node {") :].partition("}")[0]
        fields = [it.strip() for it in struct.partition("{")[2].split(";")]
        self.assertEqual(
            fields[:-1],
            [
                "uint32_t begin",
                "uint32_t end",
                "uint32_t inner",
                *(f"uint16_t {it}" for it in ("kind", "a", "b", "c")),
            ],
        )


if __name__ == "__main__":
    unittest.main()
