"""Tries the places in the file that was read: of each object, in whole scores and broken ones, with
comments, line ends, marks and things left out."""
from __future__ import annotations

import re
import unittest
from collections.abc import Iterator

from support import EXAMPLES, ROOT, has, scores_of_tables

from gregorio_chant import Run, compile
from gregorio_chant.dump import Item, Limits, NabcSnippet, NoteSnippet, Score, ScoreError

_COMMENT = re.compile(r"%[^\r\n]*")
_BETWEEN = re.compile("(?:[ \t\r\n\ufeff]|%[^\r\n]*)*")
_BLANKS = re.compile("[ \t\n]")
_LINE_END = re.compile("\r\n|\r")


def repository_scores() -> Iterator[bytes]:
    """Yields the scores of the repository, each with LF, CRLF and CR, with a byte order mark, and
    with a comment after each line."""
    for file in sorted(ROOT.glob("examples/*.gabc")) + sorted(ROOT.glob("crates/*/data/*.gabc")):
        data = file.read_bytes()
        if len(data) < 100_000:
            yield data
            yield data.replace(b"\n", b"\r\n")
            yield b"\xef\xbb\xbf" + data.replace(b"\n", b"\r")
            head, line, notes = data.partition(b"\n%%\n")
            yield head + line + notes.replace(b" ", b" % (c) [d\r\n ").replace(
                b"|", b"|\xef\xbb\xbf"
            )


def counted(text: str) -> str:
    """Returns `text` as the compiler counts it."""
    return _LINE_END.sub("\n", text).replace("\ufeff", "")


class Sources(unittest.TestCase):
    def look_at(self, data: bytes) -> int:
        """Looks at all objects of a score, and returns how many there are."""
        score = Score.parse(data)
        self.assertEqual(score.text, data.decode("utf-8", "replace"))
        self.assertEqual(score.messages, compile(data).messages)
        gone = {at for it in score.left_out for at in range(it.source.place.offset, it.source.end)}
        number = 0
        for number, it in enumerate([*score.headers, *score.syllables], 1):
            self.look_at_place(score, it)
        for header in score.headers:
            again = Score.parse(f"{header.source.spelling}\n%%\n")
            self.assertEqual(again.headers[0].spelling, header.spelling, data)
        self.look_at_syllables(score, data, gone)
        for syllable in score.syllables:
            for snippet in syllable.snippets:
                number += self.look_at_snippet(score, snippet, gone)
        return number

    def look_at_place(self, score: Score, it: Item) -> None:
        """The spelling is what stands at the place, and the line and the column are those of the
        characters before."""
        source = it.source
        self.assertEqual(score.text[source.place.offset : source.end], source.spelling, it)
        before = counted(score.text[: source.place.offset])
        self.assertEqual(
            (source.line, source.column),
            (before.count("\n") + 1, len(before) - before.rfind("\n")),
            it,
        )

    def look_at_syllables(self, score: Score, data: bytes, gone: set[int]) -> None:
        """Between syllables stand blanks, comments and what was left out, and each by itself is
        compiled to what it is in the score."""
        at = None
        for it in score.syllables:
            if at is not None:
                between = enumerate(score.text[at : it.source.place.offset], at)
                kept = "".join(c for place, c in between if place not in gone)
                self.assertRegex(kept, f"^{_BETWEEN.pattern}$", data)
            at = it.source.end
            alone = compile(
                f"nabc-lines:{score.header('nabc-lines') or 0};\n%%\n{it.source.spelling}"
            ).canonical
            written = alone.partition("%%\n")[2].removesuffix("\n")
            self.assertEqual(written.removeprefix(" "), it.spelling.removeprefix(" "), data)

    def look_at_snippet(
        self, score: Score, snippet: NoteSnippet | NabcSnippet, gone: set[int]
    ) -> int:
        """What stands at the place of an item is its spelling, with comments and what was left out;
        with blanks in NABC."""
        for it in (snippet, *snippet.items):
            self.look_at_place(score, it)
        for it in snippet.items:
            spelling = it.source.spelling if "[" in it.spelling else blanked(it.source.spelling)
            kept = counted(
                "".join(
                    c for at, c in enumerate(spelling, it.source.place.offset) if at not in gone
                )
            ).replace("\0", "")
            self.assertEqual(
                _BLANKS.sub("", kept) if isinstance(snippet, NabcSnippet) else kept, it.spelling
            )
        if snippet.items:
            begin, end = snippet.items[0].source, snippet.items[-1].source
            self.assertEqual((snippet.source.place, snippet.source.end), (begin.place, end.end))
        for element in snippet.elements if isinstance(snippet, NoteSnippet) else ():
            self.assertEqual(
                (element.source.place, element.source.end),
                (element.items[0].source.place, element.items[-1].source.end),
            )
            for glyph in element.glyphs:
                self.assertEqual(
                    (glyph.source.place, glyph.source.end),
                    (glyph.notes[0].source.place, glyph.notes[-1].source.end),
                )
        return len(snippet.items)

    def test_scores_of_the_repository(self) -> None:
        self.assertGreater(sum(self.look_at(it) for it in repository_scores()), 5_000)

    def test_scores_of_the_tables(self) -> None:
        read = 0
        for data in scores_of_tables():
            with self.subTest(data):
                try:
                    self.look_at(data)
                    read += 1
                except ScoreError:
                    self.assertEqual(compile(data).output, "")
        self.assertGreater(read, 300)

    @unittest.skipUnless(has("hypothesis"), "there is no hypothesis")
    def test_made_scores(self) -> None:
        from hypothesis import HealthCheck, given, settings
        from made import SCORES

        @settings(
            max_examples=400,
            deadline=None,
            derandomize=True,
            suppress_health_check=list(HealthCheck),
        )
        @given(SCORES)
        def look(data: bytes) -> None:
            try:
                self.look_at(data)
            except ScoreError:
                self.assertEqual(compile(data).output, "")

        look()

    def test_values(self) -> None:
        score = Score.parse("\ufeffname:Kyrie ; % c\r\n%%\r\n(c4) % c\r\n KY(f.&')ri( gfg \r\n)")
        note = score.syllables[1].notes[0]
        self.assertEqual(
            (str(note.source), note.source.spelling, note.spelling), ("4:5", "f.&'", "f.'")
        )
        self.assertEqual(
            (str(note.place), note.place.line), ("Place(offset=24, line=4, column=4)", 4)
        )
        self.assertEqual(score.headers[0].source.spelling, "name:Kyrie ;")
        self.assertEqual(score.syllables[2].items[-1].source.spelling, " \r\n")
        self.assertEqual(
            [(it.code, str(it.source), it.source.spelling) for it in score.left_out],
            [("E1", "4:7", "&")],
        )


def blanked(text: str) -> str:
    """Returns `text` with a NUL for each character of a comment."""
    return _COMMENT.sub(lambda it: "\0" * len(it[0]), text)


class LeftOut(unittest.TestCase):
    def left_out(self, text: str) -> list[tuple[str, str, str]]:
        return [(it.code, str(it.source), it.source.spelling) for it in Score.parse(text).left_out]

    def test_codes(self) -> None:
        self.assertEqual(
            self.left_out("name: a;\nname: b;\nno colon\nnabc-lines: 9;\n%%\n)a(f&)"),
            [
                ("W2", "1:1", "name: a;"),
                ("E4", "3:1", "no colon"),
                ("E5", "4:1", "nabc-lines: 9;"),
                ("E2", "6:1", ")"),
                ("E1", "6:5", "&"),
            ],
        )
        self.assertEqual(
            self.left_out("nabc-lines: 1;\n%%\n<i><i>a</b>{b}{[x][y\nz](g|vi.)"),
            [
                ("W3", "3:4", "<i>"),
                ("W3", "3:8", "</b>"),
                ("W4", "3:15", "{"),
                ("W5", "3:19", "[y\nz]"),
                ("E3", "4:8", "."),
            ],
        )
        self.assertEqual(
            self.left_out("nabc-lines: 1;\n%%\na(fg -|vip %c\ne!c)"),
            [("E6", "3:6", "-"), ("E6", "4:2", "!c")],
        )

    def test_nothing_but_left_out(self) -> None:
        """Less what was left out, and with no comment, each score of the tables is compiled to the
        same, with none of these messages."""
        tried = 0
        for data in scores_of_tables():
            try:
                score = Score.parse(data)
            except ScoreError:
                continue
            gone = {
                at
                for it in score.left_out
                if it.code in ("E1", "E2", "E3", "E6", "W4", "W5")
                for at in range(it.source.place.offset, it.source.end)
            }
            if gone and score.is_whole and "%" not in score.text.partition("%%")[2]:
                again = compile("".join(c for at, c in enumerate(score.text) if at not in gone))
                self.assertEqual(again.canonical, score.canonical, data)
                self.assertFalse({it.code for it in again} & {"E1", "E2", "E3", "E6", "W5"}, data)
                tried += 1
        self.assertGreater(tried, 40)

    def test_none(self) -> None:
        self.assertEqual(Score.parse((EXAMPLES / "introit.gabc").read_bytes()).left_out, ())


class OfRuns(unittest.TestCase):
    def test_limits(self) -> None:
        score = Score.parse(f"%%\n(c4) {'a' * 70}(f) b(g)", Limits(syllable=64))
        self.assertEqual(
            (score.is_whole, len(score.syllables), score.messages[-1].code), (False, 1, "F5")
        )
        same = Score.parse("%%\n(c4) a(f)", Limits(64, 64, 64))
        self.assertEqual((same.is_whole, same.canonical), (True, "%%\n(c4)\na(f)\n"))
        for wrong in (
            Limits(63),
            Limits(syllable=16_777_217),
            Limits(input=-1),
            Limits(input=1 << 32),
        ):
            with self.subTest(wrong), self.assertRaisesRegex(ValueError, "limits out of range"):
                Score.parse("%%\n", wrong)
        self.assertEqual(Run(limits=Limits(input=64)).feed(b"%" * 65).status, 2)
