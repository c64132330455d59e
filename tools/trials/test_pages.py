"""Compares the pages of the program with what it says, and lets a formatter read its man page."""

from __future__ import annotations

import os
import re
import shutil
import subprocess

import pytest
from house.files import ROOT, files_below, read

from .work import HELP

PAGE = os.path.join(ROOT, "docs", "gregorio.1")
TEXT = read(PAGE)
VERSION = read(os.path.join(ROOT, "VERSION")).strip()
# A line of the table of codes in the sources, of docs/LANGUAGE.md, and of a file of messages.
CODE = re.compile(r'(?m)^    \(Severity::[A-Za-z]*, "([EWF][0-9]*)", "(.*)"\),$')
ROW = re.compile(r"(?m)^\| ([EWF][0-9]*) \| `([^`]*)` \|")
MESSAGE = re.compile(r"(?m)^[^:\n]*:[0-9]*:[0-9]*: [a-z]*: ([EWF][0-9]*): (.*)$")
CODES = CODE.findall(read(os.path.join(ROOT, "crates", "gabc_places", "src", "codes.rt")))
REFUSALS = [
    "O0: no memory",
    "O1: arguments not understood",
    r"O2: \-F is needed",
    r"O3: \-F takes gabc or dump",
    r"O4: \-s and a file",
    "O5: no input",
    r"O6: \-o and \-S",
    r"O7: a file needs \-o or \-S",
]


def test_a_formatter_takes_the_man_page() -> None:
    if shutil.which("groff"):
        words = ["groff", "-man", "-ww", "-Tutf8"]
    elif shutil.which("mandoc"):
        words = ["mandoc", "-T", "lint", "-W", "warning"]
    else:
        pytest.skip("there is neither groff nor mandoc")
    ran = subprocess.run([*words, PAGE], capture_output=True, text=True)
    found = ran.stderr if words[0] == "groff" else ran.stdout
    assert (ran.returncode, found) == (0, "")


def test_the_help_of_the_wrapper_is_that_of_the_program() -> None:
    words = [os.path.join(ROOT, "bin", "gregorio"), "-h"]
    assert subprocess.run(words, capture_output=True).stdout == HELP


def test_the_man_page_has_the_usage() -> None:
    lines = re.findall(r"(?m)^usage: .*\n", TEXT.replace("\\", ""))
    assert lines == [HELP.decode()]


def test_the_man_page_has_the_version() -> None:
    assert re.search(rf'(?m)^\.TH .* "Zendovyi {re.escape(VERSION)}" ', TEXT)


def test_the_first_pages_have_the_version_and_no_other() -> None:
    pages = [os.path.join(ROOT, "README.md"), os.path.join(ROOT, "docs", "INSTALL.md")]
    named = r"[Vv]ersion ([0-9]+\.[0-9.]*[0-9])|canonical[-_]([0-9.]*[0-9])"
    found = {"".join(it) for page in pages for it in re.findall(named, read(page))}
    assert found == {VERSION}


def test_the_page_of_the_language_has_the_codes_with_their_texts() -> None:
    rows = ROW.findall(read(os.path.join(ROOT, "docs", "LANGUAGE.md")))
    assert CODES and sorted({*rows}) == sorted(CODES)


def test_the_man_page_has_the_codes() -> None:
    assert re.findall(r"(?m)^\.B ([EWF][0-9]*)$", TEXT) == [code for code, _ in CODES]


def test_the_program_prints_these_texts() -> None:
    """The messages of the examples, which the program wrote, have no other."""
    texts = [read(it) for it in files_below(os.path.join(ROOT, "examples"), ".messages")]
    lines = [line for text in texts for line in text.splitlines()]
    found = [MESSAGE.match(line) for line in lines]
    assert lines and all(found)
    assert {it.groups() for it in found if it} <= {*CODES}


@pytest.mark.parametrize("refusal", REFUSALS)
def test_the_man_page_has_the_refusal(refusal: str) -> None:
    assert f".B gregorio: {refusal}" in TEXT.splitlines()
