"""Tries the pictures with messages: ids, titles, places and heads of syllables, messages at their
places; bad input, hostile text, sizes and times."""
from __future__ import annotations

import doctest
import re
import subprocess
import sys
import time
import unittest
from collections.abc import Callable
from xml.etree import ElementTree as Xml

from drawn import HOSTILE, KINDS, SVG, groups_of, height_of, picture, rows_of, text_with, texts_in
from support import EXAMPLES, MOST_MEMORY, scores_of_tables

import gregorio_chant.pictures.alone
import gregorio_chant.pictures.glyphs
import gregorio_chant.pictures.languages
import gregorio_chant.pictures.shown
from gregorio_chant import check
from gregorio_chant.dump import Score, ScoreError
from gregorio_chant.linting.codes import CODES
from gregorio_chant.pictures.drawing import draw
from gregorio_chant.pictures.look import Look
from gregorio_chant.pictures.names import Names

NAMES = sorted(it.stem for it in EXAMPLES.glob("*.gabc"))


class Heads(unittest.TestCase):
    """Where the heads of notes stand, for who sings the score."""

    def look_at(self, score: bytes, look: Look) -> None:
        """Each note of each syllable has a head, at its height, in order."""
        root = Xml.fromstring(draw(score, (), look=look, names=Names(has_heads=True)).svg)
        found: dict[str, list[list[int]]] = {}
        for it in groups_of(root):
            if it.get("id"):
                heads = [
                    list(map(int, head.split(","))) for head in it.get("data-heads", "").split()
                ]
                found.setdefault(it.get("id", "").partition("-")[0], []).extend(heads)
        for syllable in Score.parse(score).syllables:
            heads = found[f"s{syllable.number}"]
            wanted = [height_of(it.pitch) for it in syllable.notes]
            self.assertEqual([y for _, y, _ in heads], wanted, syllable.spelling)
            self.assertTrue(all(width > 0 for _, _, width in heads))

    def test_kinds(self) -> None:
        """Each kind of neume has a head for each of its notes, at its height; heads stand from left
        to right, or one over the other."""
        for kind, all_notes in KINDS.items():
            for notes in all_notes.split():
                with self.subTest(kind=kind, notes=notes):
                    score = text_with(notes.replace("wg", "fwg")).encode()
                    (glyph,) = Score.parse(score).syllables[1].glyphs
                    self.assertEqual(glyph.kind, kind)
                    self.look_at(score, Look())
                    self.look_at_order(score)

    def look_at_order(self, score: bytes) -> None:
        (group,) = groups_of(Xml.fromstring(draw(score, names=Names(has_heads=True)).svg))[1:2]
        heads = [list(map(int, it.split(","))) for it in group.get("data-heads", "").split()]
        for (x, y, _), (after, other, _) in zip(heads, heads[1:]):
            self.assertTrue(after > x or after == x and other < y, heads)

    def test_all_scores(self) -> None:
        """So it is with the scores of the tables of runs and with the examples, in narrow rows."""
        examples = [(EXAMPLES / f"{it}.gabc").read_bytes() for it in NAMES]
        for score in scores_of_tables() + examples:
            try:
                Score.parse(score)
            except ScoreError:
                continue
            self.look_at(score, Look(width=320.0))
            self.look_at(score, Look(width=320.0, has_initial=False))


class Pictures(unittest.TestCase):
    def test_syllables(self) -> None:
        """Each syllable is a group with an id, its place in the score that the user has, and what
        is sung."""
        score = "name: x;\r\n%%\n(c4)   KY(f)ri % a comment\n  (g&fg)e(e.)"
        groups = [it for it in Xml.fromstring(picture(score)).iter(f"{SVG}g") if it.get("id")]
        self.assertEqual(
            [(it.get("id"), it.get("data-line"), it.get("data-column")) for it in groups],
            [("s1", "3", "1"), ("s2", "3", "8"), ("s3", "3", "13"), ("s4", "4", "9")],
        )
        self.assertEqual(
            [it.findtext(f"{SVG}title") for it in groups],
            [None, "KY: fa", "ri: sol fa sol", "e: mi"],
        )

    def test_each_finding(self) -> None:
        """A score with each code has a picture in which that code stands as text, with its place
        and what it says."""
        for code in CODES.values():
            if not code.is_tried:
                continue
            with self.subTest(code.name):
                score = code.score_with(code.wrong)
                message = next(it for it in check(score).messages if it.code == code.name)
                texts = [
                    it
                    for it in Xml.fromstring(draw(score).svg).iter(f"{SVG}text")
                    if it.get("class") == "code"
                ]
                titles = [
                    it.findtext(f"{SVG}title") or ""
                    for it in texts
                    if (it.text or "").startswith(code.name)
                ]
                self.assertIn(
                    (
                        f"{message.line}:{message.column}: {message.kind.value}: {code.name}:"
                        f" {message.text}"
                    ),
                    titles,
                )

    def test_mark_is_at_its_syllable(self) -> None:
        """A message stands over its syllable, which has a field: a broken line goes around
        warnings alone."""
        root = Xml.fromstring(picture("name: x;\n%%\n(c4) a(f) b(g&) <foo>c(h)\n"))
        fields = {
            group.get("id"): it.get("class")
            for group in root.iter(f"{SVG}g")
            for it in group.findall(f"{SVG}rect")
            if it.get("class") != "staff"
        }
        self.assertEqual(fields, {"s3": "mark", "s4": "mark w"})

    def test_codes_stand_over_their_notes(self) -> None:
        """Characters that were left out before do not move the place of a message."""
        root = Xml.fromstring(
            draw(b"name: x;\n%%\n(c4) a(&&&&&f g h i) b(f g&&&& h&)\n", names=_HEADS).svg
        )
        codes = [int(it.get("x", 0)) for it in root.iter(f"{SVG}text") if it.get("class") == "code"]
        first, second = groups_of(root)[1:]
        notes = [_places_of_heads(it) for it in (first, second)]
        self.assertEqual([len(it) for it in notes], [4, 3])
        self.assertEqual(codes, [notes[0][0]] * 5 + [notes[1][1]] * 4 + [notes[1][2]])

    def test_fatal(self) -> None:
        """What stands before a fatal fault is there, with the messages of that, and the fault at
        the end."""
        root = Xml.fromstring(draw(b"name: x;\n%%\n(c4) a(f&) b(g) c\xff(h)").svg)
        self.assertEqual(
            [it.get("id") for it in root.iter(f"{SVG}g") if it.get("id")], ["s1", "s2", "s3"]
        )
        codes = [it.text or "" for it in root.iter(f"{SVG}text") if it.get("class") == "code"]
        self.assertEqual([it.split()[0] for it in codes], ["E1", "F1"])

        long = draw(b"name: x;\n%%\n(c4) a(f&) b(g) c(" + b"f" * 20_000 + b")").svg
        self.assertEqual(
            [it.get("data-column") for it in Xml.fromstring(long).iter(f"{SVG}g") if it.get("id")],
            ["1", "6", "12"],
        )
        self.assertEqual(re.findall('class="code"[^>]*>([EWF][0-9]*)', long), ["E1", "F5"])

    def test_no_score(self) -> None:
        for score in (
            "",
            "%%",
            "%%\n",
            "name: x;",
            "%%\n(f",
            "%%\nKY",
            "%%\n(c4)",
            "%%\n()",
            "%%\n(|)",
        ):
            with self.subTest(score):
                Xml.fromstring(picture(score))
        self.assertIn("Nothing of this score was read.", picture("name: x;"))

    def test_tables(self) -> None:
        """Each score of the tables of runs has a picture."""
        for score in scores_of_tables():
            Xml.fromstring(draw(score, look=Look(width=300.0)).svg)

    def test_bad_input(self) -> None:
        many = "nabc-lines: 4;\n%%\n(c4) a(f|vi|pu|ta|cl|g|vi|pu)\n"
        for score in (
            f"%%\n(c4) a({'fghgf/ ' * 2200})",
            f"%%\n(c4) {'a' * 15000}(f)",
            f"%%\n(c4) a({'&' * 15000}f)",
            many,
            "staff-lines: 2;\n%%\n(c1) a(abpnm)\n",
            "%%\na(ixi) b(i)\n",
            "%%\r\n(c4) a(f)\r\n",
            f"%%\n(c4) a(f)[{'t' * 15000}] <alt>{'u' * 9000}</alt>b(g)",
            f"%%\n(c4) a(f/[{'9' * 400}]g/[nan]g/[-1e999]g)\n",
            f"%%\n(c4) <nlba>{'la(f) ' * 200}</nlba>(g)\n",
            "name: " + "x" * 5000 + ";\nannotation: " + "y" * 5000 + ";\n%%\n(c4)\n",
        ):
            with self.subTest(score[:40]):
                root = Xml.fromstring(picture(score))
                self.assertTrue(any(it.get("id") for it in root.iter(f"{SVG}g")))
        spelled = draw(many.encode(), (), look=Look(hand="text")).svg
        self.assertEqual(
            [
                it.text
                for it in Xml.fromstring(spelled).iter(f"{SVG}text")
                if it.get("font-size") == "700"
            ],
            ["vi", "pu", "ta", "cl", "vi", "pu"],
        )

    def test_hostile(self) -> None:
        """No text of a score makes an element or leaves its own."""
        root = Xml.fromstring(picture(HOSTILE))
        known = {"svg", "title", "metadata", "style", "defs", "path", "rect", "use", "g", "text"}
        self.assertEqual({it.tag.removeprefix(SVG) for it in root.iter()}, known)
        whole = "".join(root.itertext())
        self.assertIn("<script>alert(1)</script> \" ' ]]> <U+202E> &amp", whole)
        for char in "\u202e\u2066\x01\x1b\x7f\x85":
            self.assertNotIn(char, whole)
        attributes = {name for it in root.iter() for name in it.keys()}
        self.assertEqual([it for it in attributes if it.startswith("on")], [])

    def test_styles(self) -> None:
        texts = {
            it.text: it.attrib
            for it in Xml.fromstring(
                picture(
                    "name: x;\n%%\n(c4) xx(f) <b>bb</b>(f) <i>ii</i>(f) <e>ee</e>(f) <sc>ss</sc>(f)"
                    " <tt>tt</tt>(f) <ul>uu</ul>(f) <c>cc</c>(f) <sp>V/</sp>vv(f)"
                    " <sp>'ae</sp>x(f)\n"
                )
            ).iter(f"{SVG}text")
        }
        for text, name, value in (
            ("bb", "font-weight", "bold"),
            ("ii", "font-style", "italic"),
            ("ee", "font-style", "italic"),
            ("ss", "font-variant", "small-caps"),
            ("tt", "font-family", "monospace"),
            ("uu", "text-decoration", "underline"),
            ("cc", "class", "red"),
        ):
            self.assertEqual(texts[text].get(name), value)
        self.assertIn("ǽ", texts)
        self.assertIn("V", texts)

    def test_centre(self) -> None:
        """The first head stands over the middle of the braces, or of the first vowel, which
        depends on the header `language`."""

        def middle(text: str, language: str = "") -> float:
            header = f"language: {language};\n" if language else ""
            (row,) = rows_of(f"name: x;\ninitial-style: 0;\n{header}%%\n(c4) {text}(f)\n")
            return 263 - texts_in(row.groups[1].content)[0][0]

        self.assertAlmostEqual(middle("llll{l}"), 1600 * 0.264 * 4.5, delta=30)
        self.assertAlmostEqual(middle("llall"), 1600 * (0.264 * 2 + 0.457 / 2), delta=30)
        self.assertAlmostEqual(middle("qui"), 1600 * (0.503 + 0.531 + 0.271 / 2), delta=30)
        self.assertGreater(middle("praise", "English"), middle("praise"))
        self.assertGreater(middle("ia", "latin"), middle("ia", "hu"))
        self.assertEqual(middle("qui", "french"), middle("qui", "la"))

    def test_headers_have_styles(self) -> None:
        """Tags of styles in a header are styles, and all else stands for itself."""
        root = Xml.fromstring(
            picture("name: a <x>;\ncommentary: Ps. 5 <i>s.</i>;\n%%\n(c4) a(f)\n")
        )
        texts = [(it.text, it.get("font-style")) for it in root.iter(f"{SVG}text")]
        self.assertEqual(texts[:3], [("a <x>", None), ("Ps. 5 ", None), ("s.", "italic")])

    def test_staff(self) -> None:
        """A staff has as many lines as the header says."""
        for lines in "2345":
            root = Xml.fromstring(picture(f"name: x;\nstaff-lines: {lines};\n%%\n(c2) a(f)\n"))
            staff = [it for it in root.iter(f"{SVG}rect") if it.get("class") == "staff"]
            self.assertEqual(len(staff), int(lines))

    def test_error_beside_a_warning(self) -> None:
        """A field with an error is that of an error, whatever else stands there."""
        score = b"name: a;\n%%\n(c4) a(f) <i>b(g5)\n"
        self.assertEqual({it.code for it in check(score).messages}, {"W3", "E1"})
        self.assertIn('class="mark"', draw(score).svg)
        self.assertNotIn('class="mark w"', draw(score).svg)

    def test_for_who_cannot_see(self) -> None:
        """A line is a group that is named by its words, in its language; hyphens are left out."""
        root = Xml.fromstring(
            picture("name: x;\n%%\n(c4) KY(f)ri(gfg)e(e.) * e(f)lé(g)ison(h) (::)\n")
        )
        self.assertEqual(
            [
                (it.get("aria-label"), it.get("lang"))
                for it in root.iter(f"{SVG}g")
                if it.get("aria-label")
            ],
            [("KYrie * eléison", "la")],
        )
        self.assertEqual(
            {it.text for it in root.iter(f"{SVG}text") if it.get("aria-hidden")}, {"-"}
        )
        flat = Xml.fromstring(picture("name: x;\nlanguage: de;\n%%\n(c4) a(f) O(ixi)\n"))
        self.assertEqual(
            [it.findtext(f"{SVG}title") for it in flat.iter(f"{SVG}g") if it.get("id")],
            [None, "a: fa", "O: si\u266d"],
        )
        self.assertIn('lang="de"', picture("name: x;\nlanguage: de;\n%%\n(c4) a(f)\n"))

    def test_examples(self) -> None:
        for module in (
            gregorio_chant.pictures.alone,
            gregorio_chant.pictures.glyphs,
            gregorio_chant.pictures.languages,
            gregorio_chant.pictures.shown,
        ):
            tried = doctest.testmod(module)
            self.assertGreater(tried.attempted, 0)
            self.assertEqual(tried.failed, 0)

    def test_not_drawn(self) -> None:
        self.assertIn(
            "Not drawn: 2 attributes and 1 part of raw TeX.",
            picture("name: x;\n%%\n(c4) a(f[nv:x]g[ll:1]) <v>x</v>b(g)\n"),
        )
        self.assertNotIn("Not drawn", picture("name: x;\n%%\n(c4) a(f[ob:1;6mm]g[cs:t])\n"))


class Sizes(unittest.TestCase):
    def test_one_kilobyte(self) -> None:
        score = (EXAMPLES / "introit.gabc").read_bytes()
        body = score.partition(b"%%\n")[2]
        score += body * (1024 // len(body))
        self.assertGreater(len(score), 1024)
        self.assertLess(len(picture(score.decode()).encode()) * 1024 / len(score), 60_000)
        # Twice 20 ms: others work beside a test.
        self.assertLess(_least_time(lambda: picture(score.decode())) * 1024 / len(score), 0.04)

    def test_time_grows_with_the_score(self) -> None:
        """Ten times the score takes no more than some twenty times as long, also one with
        messages alone, on one syllable or each on its own."""
        for body in ("Ky(fgf)ri(gfg/e) ", "a(f&)b ", "<x>a(g) "):
            times = [
                _least_time(lambda: picture(f"name: x;\n%%\n(c4) {body * count}\n"), 2)
                for count in (100, 1000)
            ]
            self.assertLess(times[1], 20 * times[0] + 0.1, body)

    def test_time_grows_with_a_syllable(self) -> None:
        """So it is with one syllable of many items, also where each looks for the next pitch."""
        for notes in ("fo/", "fo", "z0f", "FG", "f@g@", "gfg/"):
            times = [
                _least_time(
                    lambda: picture(f"name: x;\n%%\n(c4) a({notes * (count // len(notes))})\n"), 2
                )
                for count in (1_000, 10_000)
            ]
            self.assertLess(times[1], 20 * times[0] + 0.1, notes)


class Large(unittest.TestCase):
    def test_memory_and_time(self) -> None:
        """A score of 200 kB takes less than 100 MB, and of a processor less than four times what 15
        seconds a megabyte are: others work beside a test."""
        script = (
            "import time\nfrom gregorio_chant.pictures.drawing import draw\n"
            "data = b'name: x;\\n%%\\n(c4) ' + b'Ky(fgf)ri(gfg/e)e(e.) le(gh)i(f) ' * 5500\n"
            "before = time.process_time()\ndraw(data)\ntaken = time.process_time() - before\n"
            f"{MOST_MEMORY}print(len(data), taken, most_memory())"
        )
        size, seconds, kilobytes = (
            float(it)
            for it in subprocess.run(
                [sys.executable, "-c", script], capture_output=True, check=True
            ).stdout.split()
        )
        self.assertGreater(size, 170_000)
        self.assertLess(seconds * 1e6 / size, 60)
        self.assertLess(kilobytes, 100_000)


_HEADS = Names(has_heads=True)


def _places_of_heads(group: Xml.Element) -> list[int]:
    """Returns where the heads of a group stand in its row."""
    (x,) = re.findall(r"translate\((-?[0-9]+),0\)", group.get("transform", ""))
    return [int(x) + int(it.split(",")[0]) for it in group.get("data-heads", "").split()]


def _least_time(work: Callable[[], object], times: int = 5) -> float:
    """Returns the least processor time of some runs, in seconds."""
    found = []
    for _ in range(times):
        before = time.process_time()
        work()
        found.append(time.process_time() - before)
    return min(found)


if __name__ == "__main__":
    unittest.main()
