"""Tries the signs of notes: what a spelling says, which notes a mora or an episema reaches, and
where ictus, episemata, ledger lines and clefs are drawn."""
from __future__ import annotations

import unittest

from drawn import THIN, Sign, height_of, rows_of, score_with, signs_of, signs_with

from gregorio_chant.dump import Bar, Note, NoteSnippet
from gregorio_chant.objects.signs import Episema
from gregorio_chant.rhythm import episemata_of, morae_of


def snippet_of(notes: str) -> NoteSnippet:
    """Returns a snippet of these notes, under a clef."""
    snippet = score_with(notes).syllables[1].snippets[0]
    assert isinstance(snippet, NoteSnippet)
    return snippet


def rects(notes: str) -> list[Sign]:
    """Returns the rectangles of a syllable with these notes."""
    return [it for it in signs_with(notes) if not it.name]


def lines(notes: str) -> list[Sign]:
    """Returns the episemata that are drawn."""
    return [it for it in rects(notes) if it.height == THIN]


def ictus(notes: str) -> list[Sign]:
    return [it for it in rects(notes) if (it.width, it.height) == (THIN, 440)]


class Spelled(unittest.TestCase):
    def test_signs(self) -> None:
        """Each sign of the manual is a property of its note."""
        for spelling, name, value in (
            ("g.", "morae", 1),
            ("g..", "morae", 2),
            ("g", "morae", 0),
            ("g'", "ictus", "auto"),
            ("g'0", "ictus", "under"),
            ("g'1", "ictus", "over"),
            ("g", "ictus", None),
            ("g_", "episemata", (Episema(),)),
            ("g___", "episemata", (Episema(3),)),
            ("g_0", "episemata", (Episema(1, "under"),)),
            ("g_1", "episemata", (Episema(1, "over"),)),
            ("g_02", "episemata", (Episema(1, "under", is_bridged=False),)),
            ("g_0_1", "episemata", (Episema(1, "over"), Episema(1, "under"))),
            ("H_502", "episemata", (Episema(1, "under", "right", False),)),
            ("g~", "liquescence", "deminutus"),
            ("g<", "liquescence", "augmented"),
            ("g>", "liquescence", "diminished"),
            ("g", "liquescence", None),
            ("-g", "is_initio_debilis", True),
            ("g", "is_initio_debilis", False),
            ("gr", "is_hollow", True),
            ("gr0", "is_lined", True),
            ("gR", "is_lined", True),
            ("Gr", "is_hollow", True),
            ("Gr1", "is_hollow", False),
            ("G'_.r3", "over_staff", ("circle",)),
            ("gv_r7r1", "over_staff", ("accent", "natural")),
            ("go", "points_up", None),
            ("go0", "points_up", False),
            ("gO1", "points_up", True),
        ):
            with self.subTest(spelling=spelling, name=name):
                note = score_with(f"h/{spelling}").notes[-1]
                self.assertEqual((note.spelling, getattr(note, name)), (spelling, value))
        self.assertEqual(
            [it.times for it in score_with("g gvv gss gvvv gsss").notes], [1, 2, 2, 3, 3]
        )

    def test_bars_and_others(self) -> None:
        bars = [
            it for it in score_with(", ,0 ;3 :? :' ,_ ::").syllables[1].items if isinstance(it, Bar)
        ]
        self.assertEqual([it.position for it in bars], [None, 0, 3, None, None, None, None])
        self.assertEqual([it.is_dotted for it in bars].index(True), 3)
        self.assertEqual(
            [(it.has_ictus, it.has_brace) for it in bars[4:6]], [(True, False), (False, True)]
        )

    def test_morae_reach(self) -> None:
        for notes, wanted in (
            ("gf..", [1, 1]),
            ("f..", [2]),
            ("f.g..", [1, 1]),
            ("fg", [0, 0]),
            ("fgh..", [0, 1, 1]),
        ):
            self.assertEqual(morae_of(score_with(notes).notes), wanted, notes)

    def test_episemata_reach(self) -> None:
        """So many `_` cover as many notes, up to anything that is no note."""
        for notes, wanted in (
            ("ghg___", "111"),
            ("jjh__", "011"),
            ("f/g__", "01"),
            ("fG__", "11"),
            ("gg__", "11"),
            ("f_g", "10"),
            ("fixi__", "01"),
            ("f[cs:a]g__", "11"),
            ("f@g__", "11"),
            ("f!g__", "01"),
            ("g_____", "1"),
        ):
            snippet = snippet_of(notes)
            covered = episemata_of(snippet.items)
            here = [it for it in snippet.items if isinstance(it, Note)]
            self.assertEqual("".join(str(int(it in covered)) for it in here), wanted, notes)


class Drawn(unittest.TestCase):
    def test_episemata(self) -> None:
        """An episema goes from the first note that it covers to the last one, and the next one
        joins it, unless it must not."""
        for notes, wanted in (
            ("ghg___", 1),
            ("g_/g_", 1),
            ("g_2/g_", 2),
            ("g_ g_", 2),
            ("g_f_", 1),
            ("f_g_", 2),
            ("g_f_0", 2),
            ("g_0_4", 2),
            ("gg__", 1),
            ("g_3", 1),
        ):
            self.assertEqual(len(lines(notes)), wanted, notes)
        (whole,) = lines("ghg___")
        self.assertGreater(whole.width, 3 * 500)
        (bridged,), apart = lines("g_/g_"), lines("g_2/g_")
        self.assertEqual(bridged.width, apart[1].x + apart[1].width)
        self.assertLess(apart[0].x + apart[0].width, apart[1].x)
        self.assertLess(lines("g_4")[0].width, lines("g_")[0].width)
        self.assertGreater(lines("g_0")[0].y, height_of("g"))

    def test_no_episema_lies_on_a_line(self) -> None:
        for pitch in "defghijk":
            for side in "01":
                (line,) = lines(f"{pitch}_{side}")
                middle = line.y + THIN // 2
                self.assertGreater(abs((middle + 500) % 1000 - 500), THIN, f"{pitch}_{side}")

    def test_ictus(self) -> None:
        """An ictus stands below its note, or over one that stands over another; as it is told if it
        is; clear of a broad stroke and of an episema."""
        for notes, over in (("g'", False), ("fg'", True), ("fg'0", False), ("g'1", True)):
            (line,) = ictus(notes)
            self.assertEqual(line.y < height_of("g"), over, notes)
        (under,) = ictus("gh'gh")
        self.assertGreater(under.y, height_of("g"), "below the stroke")
        (line,), (beside,) = lines("fg_1'"), ictus("fg_1'")
        self.assertLess(beside.y + beside.height, line.y + THIN)

    def test_ledger_lines(self) -> None:
        steps: dict[str, list[int]] = {
            "a": [-2],
            "b": [-2],
            "c": [],
            "k": [],
            "l": [8],
            "m": [8],
            "n": [8, 10],
            "p": [8, 10],
        }
        for notes, wanted in steps.items():
            found = [it.y + 35 for it in rects(notes) if it.height == 70]
            self.assertEqual(found, [-500 * it for it in wanted], notes)

    def test_clefs(self) -> None:
        """A flat stands at the height of si; two clefs stand over one another if there is room."""

        def signs(spelling: str) -> list[tuple[int, int]]:
            (row,) = rows_of(f"name: x;\n%%\n({spelling}) a(f)\n")
            return [(it.x, it.y) for it in signs_of(row.groups[0].content)]

        self.assertEqual([y for _, y in signs("cb3")], [-2000, -1500])
        self.assertEqual([y for _, y in signs("fb3")], [-2000, -3500])
        self.assertEqual(signs("c4@c2"), [(0, -3000), (0, -1000)])
        self.assertGreater(signs("c4@c3")[1][0], 0)

    def test_final_bar(self) -> None:
        """A final bar is two thin lines."""
        self.assertEqual([it.width for it in rects("::")], [THIN, THIN])


if __name__ == "__main__":
    unittest.main()
