"""Compares pictures with what the compiler reads, for the scores of the repository at three widths:
each syllable once, in order, with its clefs, alterations, custodes, and signs of notes; no text
over a text, no head over a head, and nothing beyond the edges. `test_picture` looks at the
heads."""
from __future__ import annotations

import itertools
import unittest
from collections.abc import Iterator

from drawn import THIN, Sign, height_of, rows_of, signs_of, texts_in
from support import EXAMPLES

from gregorio_chant.dump import Alteration, Bar, Clef, Custos, NabcSnippet, Score, Syllable
from gregorio_chant.pictures.alone import MARGIN
from gregorio_chant.pictures.outlines import Outlines
from gregorio_chant.pictures.sheet import Group, Row, heads
from gregorio_chant.rhythm import episemata_of, morae_of

WIDTHS = (360.0, 700.0, 1200.0)
_ALTERATIONS = ("flat", "natural", "sharp")
_ICTUS = 440


class Meaning(unittest.TestCase):
    def test_scores(self) -> None:
        seen = 0
        for file in sorted(EXAMPLES.glob("*.gabc")):
            data = file.read_bytes()
            score = Score.parse(data)
            for width in WIDTHS:
                with self.subTest(file.name, width=width):
                    rows = rows_of(data, width)
                    self.look_at(score, rows, round(100 * width) - 2 * MARGIN)
                    seen += len(score.notes)
        self.assertGreater(seen, 700)

    def look_at(self, score: Score, rows: tuple[Row, ...], width: int) -> None:
        """Compares the rows of a score, whose staves end at `width`."""
        groups: dict[int, list[Group]] = {}
        for row in rows:
            for group in row.groups:
                if group.end:
                    groups.setdefault(group.begin, []).append(group)
            self.look_at_row(row, width)
        begins = [it.node.begin for it in score.syllables]
        self.assertEqual(list(groups), begins, "each syllable once, in order")
        for syllable in score.syllables:
            self.look_at_syllable(syllable, groups[syllable.node.begin])
        self.look_at_custodes(rows)

    def look_at_syllable(self, syllable: Syllable, groups: list[Group]) -> None:
        signs = [it for group in groups for it in signs_of(group.content)]
        items, notes, spelling = syllable.items, syllable.notes, syllable.spelling
        clefs = [
            (f"{it.letter}-clef", -1000 * (it.line - 1))
            for item in items
            if isinstance(item, Clef)
            for it in (item, item.second)
            if it is not None
        ]
        drawn = [(it.name, it.y) for it in signs]
        self.assertEqual([it for it in drawn if it[0].endswith("-clef")], clefs)
        altered = [(it.sign, height_of(it.pitch)) for it in items if isinstance(it, Alteration)]
        self.assertLessEqual(set(altered), {it for it in drawn if it[0] in _ALTERATIONS}, spelling)
        custodes = [it.pitch for it in items if isinstance(it, Custos)]
        found = [it.y for it in signs if it.name.startswith("custos")]
        self.assertEqual(
            [y for y, pitch in zip(found, custodes) if pitch],
            [height_of(it) for it in custodes if it],
        )
        morae = sum(sum(morae_of(it.notes)) for it in syllable.glyphs)
        self.assertEqual(sum(it.name == "mora" for it in signs), morae, spelling)
        bars = [it for it in items if isinstance(it, Bar)]
        rects = [it for it in signs if not it.name]
        self.assertEqual(
            sum((it.width, it.height) == (THIN, _ICTUS) for it in rects),
            sum(it.ictus is not None for it in notes) + sum(it.has_ictus for it in bars),
            spelling,
        )
        covered = bool(episemata_of(items))
        self.assertEqual(any(it.height == THIN for it in rects), covered, spelling)
        nabc = any(isinstance(it, NabcSnippet) and it.spelling.strip() for it in syllable.snippets)
        self.assertEqual(any(_is_nabc(it) for it in groups), nabc, spelling)

    def look_at_row(self, row: Row, width: int) -> None:
        """Looks at what stands beside each other."""
        outlines = Outlines()
        lines: dict[int, list[tuple[int, int]]] = {}
        found = []
        for group in row.groups:
            for x, y, long, _ in texts_in(group.content):
                lines.setdefault(y, []).append((group.x + x, group.x + x + long))
            for head in heads(group.content, outlines):
                found.append((group.x + head.x, head.y, head.width))
        for texts in lines.values():
            for (_, end), (begin, _) in itertools.pairwise(sorted(texts)):
                self.assertGreaterEqual(begin, end - 10, "a text over a text")
            self.assertLessEqual(max(end for _, end in texts), width + 10)
        for x, _, long in found:
            self.assertTrue(0 <= x and x + long <= width + 10, "a head beyond the staff")
        for (x, y, long), (other, at, _) in itertools.pairwise(sorted(found)):
            apart = abs(y - at) > 400 or other - x >= min(long, 350) - 10
            self.assertTrue(apart, "a head over a head")

    def look_at_custodes(self, rows: tuple[Row, ...]) -> None:
        """At the end of a row stands the custos of the next note."""
        outlines = Outlines()
        following: int | None = None
        for row in reversed(rows):
            for sign in _custodes(row):
                self.assertEqual(sign.y, following)
            notes = (it.y for group in row.groups for it in heads(group.content, outlines))
            following = next(notes, following)

    def test_it_can_fail(self) -> None:
        """A score that is not the one that is drawn is found."""
        rows = rows_of("name: x;\n%%\n(c4) a(fg.)\n")
        with self.assertRaises(AssertionError):
            self.look_at(Score.parse("name: x;\n%%\n(c4) a(fg)\n"), rows, 70_000)


def _is_nabc(group: Group) -> bool:
    """Returns whether a group has NABC, in outlines or as a text of its size."""
    return 'class="nabc"' in group.content or 'font-size="900"' in group.content


def _custodes(row: Row) -> Iterator[Sign]:
    return (it for it in signs_of(row.signs) if it.name.startswith("custos"))


if __name__ == "__main__":
    unittest.main()
