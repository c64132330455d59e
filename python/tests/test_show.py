"""Tries `show`: one page, pages in a folder with an index, one picture; links, hostile text,
what cannot be read or written."""
from __future__ import annotations

import base64
import hashlib
import re
import shutil
import subprocess
import time
import unittest
from html.parser import HTMLParser
from pathlib import Path
from subprocess import CompletedProcess
from urllib.parse import unquote_to_bytes
from xml.etree import ElementTree as Xml

from drawn import HOSTILE
from pages import block
from support import EXAMPLES, FAULTY, SCORE, InFolder, command, in_terminal

from gregorio_chant.pictures.drawing import draw
from gregorio_chant.pictures.look import Look
from gregorio_chant.pictures.names import Names
from gregorio_chant.pictures.page import Shown, page_of
from gregorio_chant.report.reports import Checked

WARNED = "name: b;\n%%\n(c4) <x>Ky(g)ri(g)\n"
FATAL = "name: c;\n%%\n(c4) Ky(g)ri(g\n"
_VOID = ("meta", "br", "link", "input", "img")
# Elements whose end may be left out.
_CELLS = ("tr", "td", "th")


class Page(HTMLParser):
    """Reads a page: its elements, ids, links, and text; what is not closed in its place is a
    fault."""

    def __init__(self, text: str) -> None:
        super().__init__()
        self.tags: list[str] = []
        self.ids: list[str] = []
        self.links: list[str] = []
        self.attributes: set[str] = set()
        self.words: list[str] = []
        self._open: list[str] = []
        self.feed(text)
        self.close()
        assert not self._open, self._open

    def handle_starttag(self, tag: str, attrs: list[tuple[str, str | None]]) -> None:
        self.tags.append(tag)
        for name, value in attrs:
            self.attributes.add(name)
            if name == "id":
                self.ids.append(value or "")
            if name in ("href", "src") and tag != "use":
                self.links.append(value or "")
        if tag not in (*_VOID, *_CELLS):
            self._open.append(tag)

    def handle_startendtag(self, tag: str, attrs: list[tuple[str, str | None]]) -> None:
        self.handle_starttag(tag, attrs)
        self._open.pop()

    def handle_endtag(self, tag: str) -> None:
        if tag not in _CELLS:
            assert self._open and self._open[-1] == tag, (tag, self._open)
            self._open.pop()

    def handle_data(self, data: str) -> None:
        self.words.append(data)

    @property
    def text(self) -> str:
        return "".join(self.words)


class OnePage(InFolder):
    def show(self, *words: str, data: bytes = b"", status: int = 0) -> Page:
        ran = command("show", *words, data=data)
        self.assertEqual((ran.returncode, ran.stderr), (status, b""))
        return Page(ran.stdout.decode())

    def test_page(self) -> None:
        """A page has a picture, the messages and the source, whose lines have numbers."""
        self.put("a.gabc", FAULTY)
        page = self.show("a.gabc", status=1)
        self.assertEqual(
            (page.tags.count("section"), page.tags.count("li"), page.tags.count("details")),
            (1, 1, 1),
        )
        self.assertIn("character left out of the notes", page.text)
        self.assertIn(FAULTY.split("\n")[2], page.text)
        self.assertEqual(
            [it for it in page.ids if re.fullmatch("p1-l[0-9]+", it)], ["p1-l1", "p1-l2", "p1-l3"]
        )

    def test_links(self) -> None:
        """Each link leads to what is there, each id stands once, and each message leads into the
        picture and back."""
        self.put("a.gabc", FAULTY)
        self.put("b.gabc", WARNED)
        self.put("c.gabc", FATAL)
        for page in (
            self.show("a.gabc", "b.gabc", "c.gabc", str(EXAMPLES / "every-finding.gabc"), status=2),
            self.show(str(EXAMPLES / "every-finding.gabc"), status=1),
        ):
            self.assertEqual(len(page.ids), len(set(page.ids)))
            self.assertEqual(
                [it for it in page.links if it[:1] != "#" or it[1:] not in page.ids], []
            )
            messages = [it for it in page.ids if re.fullmatch(r"p\d+-m\d+", it)]
            for it in messages:
                self.assertIn(f"{it}-at", page.ids)
                self.assertIn(f"#{it}-at", page.links)
                self.assertIn(f"#{it}", page.links)
            self.assertGreaterEqual(len(messages), 20)

    def test_nothing_from_elsewhere(self) -> None:
        """A page has no script and asks for nothing; its policy forbids both."""
        page = self.show(str(EXAMPLES / "kyrie.gabc"))
        self.assertEqual(
            {"script", "link", "img", "iframe", "object", "form"} & set(page.tags), set()
        )
        self.assertEqual([it for it in page.links if not it.startswith("#")], [])
        whole = command("show", str(EXAMPLES / "kyrie.gabc")).stdout.decode()
        self.assertEqual(
            set(re.findall(r"https?://[^\"' ]*", whole)), {"http://www.w3.org/2000/svg"}
        )
        self.assertNotRegex(whole, r"url\(|@import")
        self.assertIn("default-src 'none'", whole)

    def test_hostile(self) -> None:
        """No text of a score, and no name of a file, makes an element."""
        name = "<script>alert(1)</script>\u202e\x1b\"'.gabc".replace("/", "_")
        self.put(name, HOSTILE)
        self.put(b"\xff<b>.gabc", SCORE)
        for words in ((), ("--rules",)):
            self._look_at(command("show", *words, name, b"\xff<b>.gabc"))

    def _look_at(self, ran: CompletedProcess[bytes]) -> None:
        page = Page(ran.stdout.decode())
        self.assertEqual(ran.returncode, 1)
        self.assertEqual({"script", "b", "foo", "img"} & set(page.tags), set())
        self.assertEqual([it for it in page.attributes if it.startswith("on")], [])
        self.assertIn("<script>alert(1)</script> \" ' ]]> <U+202E> &amp", page.text)
        for char in "\u202e\u2066\x01\x1b\x7f\x85":
            self.assertNotIn(char, ran.stdout.decode())

    def test_standard_input(self) -> None:
        page = self.show("-", data=SCORE.encode())
        self.assertIn("<stdin>", page.text)
        self.assertIn("Nothing was found.", page.text)

    def test_folder_shows_what_has_messages(self) -> None:
        self.put("scores/a.gabc", FAULTY)
        self.put("scores/b.gabc", SCORE)
        self.put("c.gabc", SCORE)
        self.assertEqual(self.show("scores", "c.gabc", status=1).tags.count("section"), 2)
        self.assertEqual(self.show("scores", "scores/b.gabc", status=1).tags.count("section"), 3)
        self.assertEqual(self.show("--exclude", "a.gabc", "scores").tags.count("section"), 0)

    def test_at_most_two_hundred(self) -> None:
        for number in range(203):
            self.put(f"scores/{number}.gabc", FAULTY)
        page = self.show("scores", status=1)
        self.assertEqual(page.tags.count("section"), 200)
        self.assertIn("3 scores more with messages: -o FOLDER/ writes a page for each.", page.text)

    def test_rules(self) -> None:
        self.put("a.gabc", "name: x;\nmode: 9;\n%%\n(c4) a(f)\n")
        self.assertNotIn("unknown-mode", self.show("a.gabc").text)
        self.assertIn("unknown-mode", self.show("--rules", "a.gabc").text)
        self.put("gregorio-chant.toml", "rules = true\n")
        self.assertIn("unknown-mode", self.show("a.gabc").text)
        self.assertNotIn("unknown-mode", self.show("--no-config", "a.gabc").text)


class Output(InFolder):
    def test_file(self) -> None:
        self.put("a.gabc", SCORE)
        ran = command("show", "-o", "page.html", "a.gabc")
        self.assertEqual((ran.returncode, ran.stdout, ran.stderr), (0, b"", b""))
        self.assertEqual(Path("page.html").read_bytes(), command("show", "a.gabc").stdout)

    def test_terminal(self) -> None:
        """A page is not written to a terminal: the command says where to write it."""
        status, shown = in_terminal("show", self.put("a.gabc", SCORE))
        self.assertEqual(
            (status, shown),
            (
                3,
                (
                    "gregorio-chant: a page is not for a terminal: write it into a file, as with -o"
                    " page.html\n"
                ),
            ),
        )

    def test_score_is_not_written_over(self) -> None:
        self.put("a.gabc", SCORE)
        Path("b.html").symlink_to("a.gabc")
        for words in (
            ("-o", "a.gabc", "a.gabc"),
            ("-o", "b.html", "a.gabc"),
            ("--svg", "-o", "b.html", "a.gabc"),
            ("-o", "a.gabc", "."),
        ):
            self.assertEqual(command("show", *words).returncode, 3, words)
        self.put("index.html", SCORE)
        self.put("a.gabc.html", SCORE)
        for words in (("-o", "./", "index.html"), ("-o", "./", "a.gabc", "a.gabc.html")):
            self.assertEqual(command("show", *words).returncode, 3, words)
        for name in ("a.gabc", "index.html", "a.gabc.html"):
            self.assertEqual(Path(name).read_text(), SCORE)

    def test_folder(self) -> None:
        """A folder has a page for each score, also for those of one name, and an index that
        leads to them: those with errors first."""
        self.put("scores/good.gabc", SCORE)
        self.put("scores/in/bad one.gabc", FAULTY)
        self.put("scores/in/fatal#?.gabc", FATAL)
        self.put(b"scores/\xffname.gabc", WARNED)
        self.put("good.gabc", SCORE)
        ran = command("show", "-o", "pages/", "scores", "good.gabc")
        self.assertEqual(ran.returncode, 2)
        self.assertIn(b"5 files: 1 fatal fault, 1 error, ", ran.stderr)
        index = Page(Path("pages/index.html").read_text())
        pages = [
            Path("pages/" + unquote_to_bytes(it).decode("utf-8", "surrogateescape"))
            for it in index.links
        ]
        self.assertEqual(len(set(pages)), 5)
        for it in pages:
            page = Page(it.read_text())
            self.assertEqual(page.tags.count("section"), 1)
            (back,) = [link for link in page.links if not link.startswith("#")]
            self.assertTrue((it.parent / back).samefile("pages/index.html"))
        names = [it for it in index.words if it.endswith(".gabc")]
        self.assertEqual(names[:2], ["scores/in/fatal#?.gabc", "scores/in/bad one.gabc"])
        self.assertRegex(index.text, r"E1\s*1")
        self.assertEqual(command("show", "-o", "pages", "scores", "good.gabc").returncode, 2)

    def test_svg(self) -> None:
        """One picture is a file of its own, and as wide as it is wanted."""
        self.put("a.gabc", FAULTY)
        ran = command("show", "--svg", "--width", "300", "a.gabc")
        self.assertEqual(ran.returncode, 1)
        root = Xml.fromstring(ran.stdout)
        self.assertEqual(root.get("width"), "300")
        self.assertTrue(any(it.tag.endswith("}style") for it in root))
        self.assertEqual(ran.stdout.decode(), draw(FAULTY.encode(), look=Look(width=300.0)).svg)
        self.put("b.gabc", SCORE)
        for words in (("a.gabc", "b.gabc"), ("-o", "./", "a.gabc"), (".", "--exclude", "*")):
            self.assertEqual(command("show", "--svg", *words).returncode, 3, words)

    def test_clean(self) -> None:
        """`--no-messages` leaves out messages, their marks, and what is not drawn; the status
        stays."""
        self.put("a.gabc", "name: a;\n%%\n(c4) <x>Ky(g[nv:x]5)ri(g)\n")
        for words in (("--svg",), ()):
            with_them, without = (
                command("show", *words, *more, "a.gabc") for more in ((), ("--no-messages",))
            )
            self.assertEqual((with_them.returncode, without.returncode), (1, 1))
            for it in ('class="code"', 'class="mark', "Not drawn"):
                self.assertIn(it, with_them.stdout.decode())
                self.assertNotIn(it, without.stdout.decode())
        self.assertNotIn(
            "character left out", command("show", "--no-messages", "a.gabc").stdout.decode()
        )

    def test_play(self) -> None:
        """`--play` has a button, the notes and one script, which the policy lets through by its
        hash; a score without height has no button, and a page without `--play` no script."""
        self.put("a.gabc", SCORE)
        self.put("b.gabc", "%%\na(f)\n")
        whole = command("show", "--play", "a.gabc", "b.gabc").stdout.decode()
        self.assertEqual(whole.count('class="sing"'), 1)
        (script,) = re.findall("(?s)<script>(.*?)</script>", whole)
        name = base64.b64encode(hashlib.sha256(script.encode()).digest()).decode()
        self.assertIn(f"script-src 'sha256-{name}'", whole)
        self.assertIn(
            'data-sounds="[[2,0,53,1.0],[3,0,55,1.0],[3,1,53,1.0],[3,2,55,1.0],[4,0,52,2.0],[5,0,null,2.0]]"',
            whole,
        )
        self.assertNotIn("data-heads", command("show", "a.gabc").stdout.decode())
        self.assertNotIn("<script", command("show", "--play", "b.gabc").stdout.decode())

    def test_looks(self) -> None:
        """Faces, hands and the initial are chosen by words."""
        self.put("a.gabc", "name: a;\nnabc-lines: 1;\n%%\n(c4) Ky(fg|vi)\n")
        for words, shapes in (
            ((), {"c-clef", "pes-100", "stgall-vi"}),
            (("--face", "plain", "--neumes", "text"), {"c-clef", "pes-100"}),
            (("--neumes", "laon"), {"c-clef", "pes-100", "laon-vi"}),
        ):
            root = Xml.fromstring(command("show", "--svg", *words, "a.gabc").stdout)
            self.assertEqual(
                {it.get("id") for defs in root if defs.tag.endswith("}defs") for it in defs}, shapes
            )
        sizes = [
            b'font-size="4600"' in command("show", "--svg", *words, "a.gabc").stdout
            for words in ((), ("--no-initial",))
        ]
        self.assertEqual(sizes, [True, False])

    def test_phone(self) -> None:
        """A page has a picture for a desk and one for a phone; each message leads into both, and a
        narrow picture stands alone."""
        self.put("a.gabc", FAULTY)
        page = Page(command("show", "a.gabc").stdout.decode())
        self.assertEqual(page.tags.count("svg"), 2)
        self.assertEqual(
            [it for it in page.links if it.endswith("-at")], ["#p1-m1-at", "#p1-n-m1-at"]
        )
        self.assertEqual([it for it in page.links if it[1:] not in page.ids], [])
        self.assertEqual(
            Page(command("show", "--width", "300", "a.gabc").stdout.decode()).tags.count("svg"), 1
        )

    @unittest.skipUnless(shutil.which("rsvg-convert"), "there is no rsvg-convert")
    def test_pdf(self) -> None:
        """The line of the page makes a PDF."""
        self.put("score.gabc", SCORE)
        first, second = (it.split() for it in block("docs/PYTHON.md", "test: pdf").split("|"))
        drawn = command(*first[1:])
        subprocess.run(second, input=drawn.stdout, check=True)
        self.assertEqual(Path("score.pdf").read_bytes()[:5], b"%PDF-")

    def test_words_refused(self) -> None:
        for words in ((), ("--width", "0", "a.gabc"), ("--width", "x", "a.gabc"), ("--font",)):
            self.assertEqual(command("show", *words).returncode, 3, words)

    def test_what_cannot_be_read_or_written(self) -> None:
        self.put("a.gabc", SCORE)
        self.put("file", "")
        ran = command("show", "no.gabc", "a.gabc")
        self.assertEqual((ran.returncode, Page(ran.stdout.decode()).tags.count("section")), (4, 1))
        self.assertIn(b"cannot read no.gabc: No such file or directory", ran.stderr)
        for output in ("file/page.html", "file/pages/"):
            ran = command("show", "-o", output, "a.gabc")
            self.assertEqual((ran.returncode, b"Traceback" in ran.stderr), (4, False), output)

    def test_nothing_can_be_read(self) -> None:
        """If no score can be read, as one that is too long for its tree, nothing is written, and
        what was there stays; if one of several cannot, the others are shown."""
        self.put("long.gabc", b"%%\n" + b"(g)" * 2_700_000)
        self.put("old.html", "old")
        reason = b"cannot read long.gabc: it has 8,100,003 bytes, and the limit for this is 8,000,"
        for name, told in (("long.gabc", reason), ("no.gabc", b"cannot read no.gabc: No such")):
            for words in (("-o", "page.html"), ("-o", "pages/"), ("--svg", "-o", "old.html"), ()):
                ran = command("show", *words, name)
                self.assertEqual((ran.returncode, ran.stdout), (4, b""), words)
                self.assertIn(told, ran.stderr)
        self.assertEqual(sorted(it.name for it in Path(".").iterdir()), ["long.gabc", "old.html"])
        self.assertEqual(Path("old.html").read_text(), "old")
        self.put("a.gabc", SCORE)
        ran = command("show", "-o", "page.html", "long.gabc", "a.gabc")
        self.assertEqual((ran.returncode, reason in ran.stderr), (4, True))
        self.assertEqual(Page(Path("page.html").read_text()).tags.count("section"), 1)


class Times(unittest.TestCase):
    def test_one_kilobyte(self) -> None:
        """A page of a score of some 1 kB takes no more than 50 ms of a processor, once all is
        loaded."""
        data = (EXAMPLES / "introit.gabc").read_bytes()
        data += data.partition(b"%%\n")[2] * 2
        least = 1.0
        for _ in range(5):
            before = time.process_time()
            shown = Shown(Checked("a"), "a", draw(data, names=Names(links=True)), data.decode())
            "".join(page_of([shown], "a"))
            least = min(least, time.process_time() - before)
        self.assertLess(least * 1024 / len(data), 0.05)


if __name__ == "__main__":
    unittest.main()
