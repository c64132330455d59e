"""Asks of each block of code of each page who runs it, and runs those that no other test does."""
from __future__ import annotations

import contextlib
import io
import os
import re
import shlex
import unittest
from collections import Counter

from pages import Block, block, blocks_of, pages
from support import EXAMPLES, ROOT, InFolder, command, has

from gregorio_chant import compile


def texts(folder: str, pattern: str, comment: str) -> str:
    """Returns the files of a folder of the repository, without their comments."""
    files = (
        it.read_text(encoding="utf-8")
        for it in sorted((ROOT / folder).glob(pattern))
        if it.is_file()
    )
    return re.sub(comment, "", "\n".join(files), flags=re.MULTILINE)


def text_of_script(name: str) -> str:
    """Returns the text of a script, and of the module of `tools/house` that it starts, if so."""
    text = (ROOT / name).read_text(encoding="utf-8")
    module = re.search(r'"house\.(\w+)"', text)
    started = ROOT / "tools" / "house" / f"{module[1]}.py" if module else None
    return text + started.read_text(encoding="utf-8") if started else text


class Claims(unittest.TestCase):
    """A block is taken by a script of `tools` or a trial of `tools/trials`, by the name of its mark
    `recipe`, or by its language where it is fenced; by a test of the package, by its whole mark; or
    by none, and then the page says so."""

    def setUp(self) -> None:
        self.scripts = texts("tools", "*", "^ *#.*$")
        self.trials = texts("tools/trials", "test_*.py", "^ *#.*$")
        self.tests = texts("python/tests", "test_*.py", "^ *#.*$")

    def is_claimed(self, it: Block) -> bool:
        kind, _, name = it.mark.partition(": ")
        page = it.place.partition(":")[0]
        if it.mark == "not run":
            return "no test runs" in " ".join(it.words.lower().split())
        if kind == "recipe":
            by_script = rf"(?:recipe|recipe {re.escape(page)}|name=) ?{re.escape(name)}(?![\w-])"
            by_trial = rf'(?:(?:recipe|text)\((?:\w+, )?"|"name=){re.escape(name)}"'
            taken = (re.search(by_script, self.scripts), re.search(by_trial, self.trials))
            return any(taken)
        if kind == "score":
            return f'scores_of("{page}")' in self.tests
        if it.mark:
            return f'block("{page}", "{it.mark}")' in self.tests
        return f"lines_of {it.language} {page}" in self.scripts

    def test_each_block(self) -> None:
        blocks = [it for page in pages() for it in blocks_of(page)]
        self.assertGreater(len(blocks), 60)
        self.assertEqual([f"{it.place}: {it.mark}" for it in blocks if not self.is_claimed(it)], [])

    def test_what_is_no_claim(self) -> None:
        for mark, words in (
            ("", ""),
            ("recipe: none", ""),
            ("test: none", ""),
            ("test: none", "No test runs it."),
            ("not run", "It is run."),
        ):
            self.assertFalse(self.is_claimed(Block("docs/USE.md:1", "", mark, "", words)), mark)
        self.assertTrue(
            self.is_claimed(Block("docs/USE.md:1", "", "not run", "", "No test\nruns it."))
        )

    def test_marks(self) -> None:
        """Each block of a page has a mark of its own, and each recipe of all pages, since scripts
        take it by its name."""
        marks = Counter(
            (it.mark, "" if it.mark.startswith("recipe") else page)
            for page in pages()
            for it in blocks_of(page)
        )
        self.assertEqual(
            [it for it, count in marks.items() if count > 1 and it[0] not in ("", "not run")], []
        )


class Scores(InFolder):
    def test_readme(self) -> None:
        score = block("README.md", "test: score")
        made = compile(score)
        self.assertEqual(made.canonical, block("README.md", "test: canonical form"))
        self.assertEqual(made.messages_text, block("README.md", "test: message"))

    def test_dumps(self) -> None:
        self.assertEqual(
            compile("%%\n(c4) a(ixi) b(i)", "dump").dump, block("docs/FORMATS.md", "test: flat")
        )

    def test_lines_of_dumps(self) -> None:
        """The first words of the page, and those of its tables of items, are those of the
        examples."""
        page = (ROOT / "docs" / "FORMATS.md").read_text(encoding="utf-8")
        items = page.split("The items of a GABC snippet, in order:")[1].partition("\n## ")[0]
        first = re.compile(r"^[a-z]+", re.MULTILINE)
        awaited = {
            *first.findall(block("docs/FORMATS.md", "test: lines of a dump")),
            *re.findall(r"^\| `([a-z]+)", items, re.MULTILINE),
            "descriptor",
        }
        self.assertEqual(
            set(
                first.findall(
                    "".join(it.read_text(encoding="utf-8") for it in EXAMPLES.glob("*.dump"))
                )
            ),
            awaited,
        )

    def test_messages(self) -> None:
        form = re.escape(block("docs/FORMATS.md", "test: message")[:-1])
        for word, its in (
            ("NAME", "<stdin>"),
            ("LINE", r"\d+"),
            ("COLUMN", r"\d+"),
            ("KIND", "(warning|error|fatal)"),
            ("CODE", r"[EWF]\d+"),
            ("TEXT", ".+"),
        ):
            form = form.replace(word, its)
        lines = "".join(
            it.read_text(encoding="utf-8") for it in EXAMPLES.glob("*.messages")
        ).splitlines()
        self.assertGreater(len(lines), 20)
        self.assertEqual([it for it in lines if not re.fullmatch(form, it)], [])

    def test_python(self) -> None:
        with contextlib.redirect_stdout(io.StringIO()) as written:
            exec(block("python/README.md", "test: Python"), {})
        self.assertEqual(
            written.getvalue().split("\n")[:3], ["%%", "Ky(f)ri(//)", "1 1 W1 no name header"]
        )

    @unittest.skipUnless(has("pathspec"), "there is no pathspec")
    def test_find(self) -> None:
        self.put("scores/a.gabc", "name: a;\n%%\n(c4) Ký(fhi)ri(fgf)e(f) e(f)léi(g)son(g)")
        for line in block("docs/OBJECTS.md", "test: find").splitlines():
            name, *words = shlex.split(line)
            found = command(*words, "--quiet")
            self.assertEqual(
                (name, found.returncode, found.stderr), ("gregorio-chant", 0, b""), line
            )
            self.assertIn(b"scores/a.gabc", found.stdout, line)

    def test_silenced(self) -> None:
        """The comments of the page silence what is reported without them."""
        first, second = block("docs/PYTHON.md", "test: ignore").splitlines()
        score = f"name: a;\n{second}\n(c4) <i>a</b>(f)\n{first}\n"
        codes = [
            re.findall(
                rb" ([EWF]\d+): ",
                command("check", "--output-format", "lines", "-", data=it.encode()).stdout,
            )
            for it in (score, score.replace("%% %", "%%").replace("ignore", ""))
        ]
        self.assertEqual([sorted(set(it)) for it in codes], [[], [b"W3", b"W6"]])

    def test_what_stays(self) -> None:
        self.put("a.gabc", "name: a;\n%%\n(c4) abcdef</b>(f)\nKy(f)  % c\n")
        ran = command("format", "--canonical", "--quiet", "a.gabc")
        self.assertEqual(
            (ran.returncode, ran.stderr.decode()), (1, block("docs/PYTHON.md", "test: canonical"))
        )


class Lists(unittest.TestCase):
    def test_tools(self) -> None:
        """Each script of CONTRIBUTING.md is there and has the options that the list says, and the
        list has each."""
        named: dict[str, str] = {}
        name = ""
        for line in block("CONTRIBUTING.md", "test: tools").splitlines():
            name = name if line[0] == " " else line.split()[0]
            named[name] = named.get(name, "") + line
        for name, lines in named.items():
            if name != "rt":
                self.assertTrue(os.access(ROOT / name, os.X_OK), name)
                text = text_of_script(name)
                self.assertEqual(
                    [it for it in re.findall(r"--[a-z][a-z-]+", lines) if it not in text], [], name
                )
        scripts = {
            f"tools/{it.name}"
            for it in (ROOT / "tools").iterdir()
            if it.is_file() and os.access(it, os.X_OK)
        }
        self.assertEqual(scripts - set(named), set())

    def test_types(self) -> None:
        """In the picture of docs/CODE.md each type is named where the one that it stands in is
        declared."""
        sources = [
            it.read_text(encoding="utf-8") for it in sorted((ROOT / "crates").glob("*/src/*.rt"))
        ]
        above: list[str] = []
        for line in block("docs/CODE.md", "test: types").splitlines():
            depth = (len(line) - len(line.lstrip())) // 4
            name = line.split()[0]
            declared = [
                it
                for it in sources
                if re.search(rf"^pub(?:\(crate\))? struct {name}\b", it, re.MULTILINE)
            ]
            self.assertEqual(len(declared), 1, name)
            self.assertTrue(not depth or re.search(rf"\b{name}\b", above[depth - 1]), line)
            above[depth:] = declared

    def test_folders(self) -> None:
        """The list of docs/CODE.md has each folder of crates with code or proofs, and the files of
        wrong bodies."""
        named = {line.split()[0] for line in block("docs/CODE.md", "test: folders").splitlines()}
        there = {f"{it.name}/" for it in (ROOT / "crates").glob("*/*") if it.is_dir()} | {
            f"specs/{it.name}/" for it in (ROOT / "crates").glob("*/specs/*") if it.is_dir()
        }
        self.assertEqual(
            named,
            there - {"data/", "out/"}
            | {it.name for it in (ROOT / "crates").glob("*/wrong_bodies.*")},
        )
