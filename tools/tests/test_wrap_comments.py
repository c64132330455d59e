"""What tools/wrap_comments makes of pages and of comments."""

from __future__ import annotations

from fixture import RepositoryTest
from house.wrap_comments import main, wrapped

LONG = "word " * 30


PAGE = f"# A page\n\n{LONG}\n"
SOURCE = f"//! A crate.\n\n/// {LONG}\nfn f() {{}} // {LONG}\n"
SHORT = "-- what it is\nit : ℕ\n"


class WrapTest(RepositoryTest):
    FILES = {
        "README.md": "A page.\n",
        "docs/LONG.md": PAGE,
        "docs/LONG.txt": LONG,
        "crates/low/src/inner/deep.rt": SOURCE,
        "crates/low/specs/It.antt": SHORT,
        "crates/low/proofs/It.antt": f"-- {LONG}\n",
    }

    def stays(self, text: str, ending: str = ".md") -> None:
        self.assertEqual(wrapped(text, ending), text)

    def test_a_paragraph_is_wrapped_as_a_whole(self) -> None:
        made = wrapped(f"First.\n{LONG}\n\nNext.\n", ".md")
        self.assertEqual([len(it) <= 100 for it in made.split("\n")], [True] * 5)
        self.assertEqual(made.split(), ["First.", *LONG.split(), "Next."])

    def test_what_is_short_stays(self) -> None:
        self.stays("Some\nshort lines.\n\n- an item\n  of two lines\n- another\n")

    def test_what_is_no_words_stays(self) -> None:
        block = f"```\n{LONG}\n```\n\n<!-- {LONG} -->\n"
        self.stays(f"    {LONG}code\n\n| {LONG} |\n![{LONG}](a.svg)\n\n# {LONG}\n\n{block}")

    def test_an_item_hangs_below_its_words(self) -> None:
        for mark in ("- ", "1. ", "   - "):
            hang = " " * len(mark)
            first, second = wrapped(f"{mark}{LONG}".rstrip(), ".md").split("\n")
            self.assertTrue(
                first.startswith(f"{mark}word") and second.startswith(f"{hang}word"), mark
            )
            self.stays(f"{first}\n{second}\n\n{hang}more of it\n\n{hang}    code in it\n")

    def test_code_is_not_broken(self) -> None:
        code = "`a piece of code`"
        self.assertIn(code, wrapped(f"{'x' * 90} {code} and `` ` `` and so on", ".md"))

    def test_comments(self) -> None:
        self.assertEqual(
            wrapped(f"    /// {LONG}\n    fn f() {{}}\n", ".rt").split("\n")[1][:9], "    /// w"
        )
        self.stays(f"    let a = 1; // {LONG}\n///   {LONG}\n", ".rt")
        self.assertEqual(wrapped(f"-- {LONG}\n", ".antt").count("\n-- "), 1)

    def test_finds_what_is_too_long_and_changes_nothing(self) -> None:
        ran = self.run_tool(main, "--check")
        told = ["docs/LONG.md", "crates/low/src/inner/deep.rt"]
        self.assertEqual(ran.out.splitlines(), [f"wrap_comments: {it}" for it in told])
        self.assertEqual(ran.status, 1)
        for path, text in self.FILES.items():
            self.assertEqual(self.text(path), text)

    def test_finds_it_in_the_files_that_are_named(self) -> None:
        ran = self.run_tool(main, "--check", f"{self.root}/docs/LONG.md", f"{self.root}/README.md")
        self.assertEqual((ran.status, ran.out), (1, "wrap_comments: docs/LONG.md\n"))

    def test_wraps_it_and_leaves_all_else(self) -> None:
        self.assertEqual(self.run_tool(main), (0, "", ""))
        self.assertEqual(self.run_tool(main, "--check"), (0, "", ""))
        page, source = self.text("docs/LONG.md"), self.text("crates/low/src/inner/deep.rt")
        self.assertEqual(page.split(), PAGE.split())
        self.assertLessEqual(max(map(len, page.splitlines())), 100)
        self.assertEqual(source.splitlines()[-1], SOURCE.splitlines()[-1])
        self.assertEqual(source.count("\n/// "), 2)
        for path in ("README.md", "docs/LONG.txt", "crates/low/specs/It.antt"):
            self.assertEqual(self.text(path), self.FILES[path])
