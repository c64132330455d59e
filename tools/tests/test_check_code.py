"""What `tools/check_code` finds in sources that are changed."""

from __future__ import annotations

import shutil
import subprocess

from fixture import ROOT, RepositoryTest

DEEP = """fn len_of(n: u64) -> u64
    ensures { result ≡ n }
{
    if n > 0 { len_of(n - 1) } else { 0 }
}

impl Deep {
    fn go(&mut self) {
        self.go()
    }

    fn is_whole(self) -> bool {
        is_whole(self.part)
    }
}
"""


class CheckCodeTest(RepositoryTest):
    def setUp(self) -> None:
        super().setUp()
        left = shutil.ignore_patterns("out", "proofs", "specs", "data")
        shutil.copytree(f"{ROOT}/crates", f"{self.root}/crates", ignore=left)

    def said(self) -> str:
        words = [f"{ROOT}/tools/check_code", self.root]
        ran = subprocess.run(words, capture_output=True, text=True)
        self.assertEqual(ran.returncode, 1 if ran.stdout else 0)
        return ran.stdout

    def test_says_nothing_of_the_crates_as_they_are(self) -> None:
        self.assertEqual(self.said(), "")

    def test_finds_memory_asked_for_in_silence(self) -> None:
        path, old = "gabc_score/src/slot.rt", "let Ok(()) = self.syllable.kept.push(c) else {"
        new = f"let _ = self.syllable.kept.reserve(1024);\n        {old}"
        self.change(f"crates/{path}", old, new)
        self.assertIn(f"{path}: keep drops 2 refusals of memory, and not 1", self.said())

    def test_finds_a_refusal_dropped_elsewhere(self) -> None:
        path, old = (
            "gabc_places/src/room.rt",
            "let Ok(()) = self.items.extend_from_slice(items) else {",
        )
        new = "if self.items.reserve(7).is_err() {\n            return;\n        }\n"
        self.change(f"crates/{path}", old, f"{new}        {old}")
        self.assertIn(f"{path}: append drops 2", self.said())

    def test_finds_a_list_that_is_too_long(self) -> None:
        path, old = (
            "gabc_headers/src/entry_map.rt",
            "let Ok(_) = self.map.insert(key, value) else {",
        )
        new = "match self.map.insert(key, value) { Ok(_) => {} Err(_) => {"
        self.change(f"crates/{path}", old, new)
        self.assertIn(f"{path}: put drops 0 refusals of memory, and not 1", self.said())

    def test_finds_functions_that_name_themselves(self) -> None:
        self.put("crates/gabc_text/src/deep.rt", DEEP)
        where = "check_code: gabc_text/src/deep.rt:"
        told = [f"{where} {name} names itself" for name in ("len_of", "go")]
        self.assertEqual(self.said().splitlines(), told)
