"""Tries patterns of paths beside those of `pathspec`, each matched by itself, and what a stranger's
patterns cost."""
from __future__ import annotations

import os
import resource
import time
import unittest

from hypothesis import HealthCheck, given, settings
from hypothesis import strategies as st
from support import FAULTY, InFolder, command, has

from gregorio_chant.work.patterns import MOST, NoPattern, Patterns
from gregorio_chant.work.settings import NAME

_WORDS = (
    "a",
    "b",
    "ab",
    "a.b",
    "*",
    "*",
    "**",
    "/",
    "?",
    "[ab]",
    "!",
    "\\*",
    " ",
    "#",
    "\u00e9",
    "\U0001d11e",
    "\n",
    "\r",
    "\u2028",
)
_LINES = st.lists(
    st.lists(st.sampled_from(_WORDS), min_size=1, max_size=6).map("".join), max_size=3
)
_NAME = st.lists(
    st.sampled_from(("a", "b", "c", ".", " ", "*", "\u00e9", "\U0001d11e", "\n", "\r", "\u2028")),
    min_size=1,
    max_size=7,
).map("".join)
_PATHS = st.builds(
    "{}{}".format, st.lists(_NAME, min_size=1, max_size=4).map("/".join), st.sampled_from(("", "/"))
)


@unittest.skipUnless(has("pathspec"), "there is no pathspec")
class Alike(unittest.TestCase):
    @settings(
        max_examples=20_000 if os.environ.get("GREGORIO_LONG") else 400,
        deadline=None,
        suppress_health_check=[HealthCheck.too_slow],
    )
    @given(_LINES, st.lists(_PATHS, min_size=1, max_size=5))
    def test_beside_pathspec(self, lines: list[str], paths: list[str]) -> None:
        from pathspec.patterns.gitwildmatch import GitWildMatchPattern

        try:
            patterns = Patterns(lines)
        except NoPattern:
            return
        them = [GitWildMatchPattern(it) for it in lines if it.strip() and not it.startswith("#")]
        for path in paths:
            # Its expressions have a line end end a name.
            if "\n" in path or any("\n" in it for it in lines):
                continue
            said = [it.include for it in them if it.include is not None and it.match_file(path)]
            self.assertEqual(patterns.verdict(path), said[-1] if said else None, (lines, path))

    def test_what_is_taken_back(self) -> None:
        patterns = Patterns(("drafts/", "!drafts/kept.gabc", "*.old", "!kept.old"))
        self.assertEqual(
            [
                it
                for it in ("drafts/kept.gabc", "a/x.old", "a/kept.old", "b", "a\nb.old")
                if patterns.has(it)
            ],
            ["drafts/kept.gabc", "a/x.old", "a\nb.old"],
        )


@unittest.skipUnless(has("pathspec"), "there is no pathspec")
class Strangers(InFolder):
    """What lies in a stranger's folder costs little, and is refused with its line."""

    def refused(self, *words: str) -> list[str]:
        before = resource.getrusage(resource.RUSAGE_CHILDREN)
        ran = command("check", "--output-format", "lines", "--quiet", *words)
        after = resource.getrusage(resource.RUSAGE_CHILDREN)
        # Others work beside a test: what the command costs is its time of a processor.
        taken = after.ru_utime + after.ru_stime - before.ru_utime - before.ru_stime
        self.assertLess(taken, 10)
        return ran.stderr.decode().removesuffix("\n").split("\n")

    def test_ignore_lists(self) -> None:
        self.put("s/a.gabc", FAULTY)
        self.put(f"s/{'a' * 60}.gabc", FAULTY)
        lists = {
            "*a" * 8 + "b\n*?" + "*[ab]" * 6 + "c\n": [""],
            "x\n\n"
            + "*a" * 9: ["cannot read s/.gitignore: line 3: a pattern has at most 8 * and 2 **"],
            "**/" * 3
            + "x": ["cannot read s/.gitignore: line 1: a pattern has at most 8 * and 2 **"],
            "# c\n"
            + "x\n"
            * (MOST + 1): [
                f"cannot read s/.gitignore: line {MOST + 2}: there are at most 5,000 patterns, with"
                " those of the folders above"
            ],
            "x" * (1 << 18) + "y": ["cannot read s/.gitignore: it is longer than 262,144 bytes"],
        }
        for text, told in lists.items():
            self.put("s/.gitignore", text)
            self.assertEqual(
                self.refused("s"), [f"gregorio-chant: {it}" if it else "" for it in told]
            )
        os.unlink("s/.gitignore")
        os.symlink("/dev/zero", "s/.gitignore")
        self.assertEqual(
            self.refused("s"),
            ["gregorio-chant: cannot read s/.gitignore: Too many levels of symbolic links"],
        )
        os.unlink("s/.gitignore")
        os.mkfifo("s/.gitignore")
        self.assertEqual(
            self.refused("s"), ["gregorio-chant: cannot read s/.gitignore: it is no plain file"]
        )

    def test_deep_folders(self) -> None:
        self.put("s/" + "d/" * 100 + "a.gabc", FAULTY)
        self.assertEqual(self.refused("s"), [""])
        self.put("s/" + "d/" * 101 + "b.gabc", FAULTY)
        self.assertEqual(
            self.refused("s"),
            [f"gregorio-chant: cannot read s/{'d/' * 100}d: it lies more than 100 folders deep"],
        )

    def test_settings(self) -> None:
        self.put("a.gabc", FAULTY)
        files = {
            ".".join("a" * 20_000) + " = 1": ":1: a key has at most 8 dots",
            "rules = true\n[" + " . ".join(["'a'"] * 9_000) + "]": ":2: a key has at most 8 dots",
            'a = """\n.........\n"""\nx.' + "y." * 8 + "z = 1": ":4: a key has at most 8 dots",
            "exclude = ['"
            + "*a" * 9
            + "']": f":1: exclude: {'*a' * 9}: a pattern has at most 8 * and 2 **",
            "exclude = ["
            + "'x'," * (MOST + 1)
            + "]": ":1: exclude: there are at most 5,000 patterns",
            "exclude = ['!']": ":1: exclude: !: this is no pattern",
            "[per-file-ignores]\n'!a' = ['W3']": (
                ":2: !a: a pattern of files in which codes are ignored takes nothing back"
            ),
        }
        for text, told in files.items():
            self.put(NAME, text)
            self.assertEqual(
                self.refused("a.gabc"), [f"gregorio-chant: {self.room.resolve()}/{NAME}{told}"]
            )
        self.put(NAME, "exclude = ['a.b.c.d.e.f.g.h.i.j.k']  # a.b.c.d.e.f.g.h.i.j.k\n")
        self.assertEqual(self.refused("a.gabc"), [""])

    def test_many_patterns(self) -> None:
        """5,000 patterns over 10,000 files."""
        for kind in ("x{:04}", "*.x{:04}", "*x{:04}*", "/d{}/*.old{}.gabc"):
            begin = time.process_time()
            patterns = Patterns(kind.format(it, it) for it in range(MOST))
            self.assertEqual(
                [it for it in range(10_000) if patterns.has(f"s/aa{it // 50}/score{it}.gabc")], []
            )
            self.assertLess(time.process_time() - begin, 5)
            self.assertEqual(
                patterns.verdict(kind.replace("*", "q").lstrip("/").format(77, 77)), True
            )

    def test_one_language(self) -> None:
        """Settings and `--exclude` leave out the same."""
        for name in ("drafts/a.gabc", "s/drafts/b.gabc", "s/c.old.gabc", "d.gabc", "x/y/e.gabc"):
            self.put(name, FAULTY)
        for pattern in (
            "/drafts",
            "**/drafts",
            "drafts/",
            "*.old.gabc",
            "x/*.gabc",
            "x/**",
            "s/*/b.gabc",
            "[cd]*",
            "drafts/a.gabc",
        ):
            self.put(NAME, f"exclude = ['{pattern}']\n")
            by_settings = command("check", "--output-format", "lines", ".").stdout
            by_word = command(
                "check", "--output-format", "lines", "--no-config", "--exclude", pattern, "."
            ).stdout
            self.assertEqual(by_settings, by_word, pattern)


if __name__ == "__main__":
    unittest.main()
