"""Runs the program as a shell does, and compares its output, messages, files and exit statuses with
what they should be."""

from __future__ import annotations

import pytest

from .runs import Ran
from .work import CANONICAL, DUMP, FAULTY, HELP, LEFT_OUT, MENDED, NO_LINE, NO_NAME, SCORE, Work

OLD = b"old and longer than all that the run writes, so that a file that is not emptied shows it\n"

# ---- the limits that a run has


def lettered(count: int) -> bytes:
    """Returns a score with a text of `count` letters, and a note after it."""
    return b"%%%%\n%b(f)" % (b"a" * count)


def headed(count: int) -> bytes:
    """Returns a score with a header whose canonical line has `count` bytes and one more."""
    return b"a:%b;\n%%%%\n(f)" % (b"b" * (count - 4))


# The canonical text of the syllable, with the LF before it, has 16,384 bytes. The canonical line of
# the headers has 65,536.
@pytest.mark.parametrize("given", [lettered(16380), headed(65535)], ids=["syllable", "headers"])
def test_within_limits(work: Work, given: bytes) -> None:
    work.given = given
    assert work.run("-F", "gabc", "-s", "-S").status == 0


@pytest.mark.parametrize(
    "given, output, fault",
    [
        (lettered(16381), b"%%\n", b"2:16384: fatal: F5: syllable limit"),
        (headed(65536), b"", b"2:1: fatal: F4: header limit"),
        # The text before the line %% has 65,537 bytes itself.
        (headed(65537), b"", b"1:65537: fatal: F4: header limit"),
    ],
    ids=["syllable", "canonical headers", "headers"],
)
def test_beyond_limits(work: Work, given: bytes, output: bytes, fault: bytes) -> None:
    work.given = given
    assert work.run("-F", "gabc", "-s", "-S") == Ran(2, output, b"<stdin>:%b\n" % fault)


# ---- words


@pytest.mark.parametrize(
    "words, output",
    [
        ("-F gabc -s -S", CANONICAL),
        ("-h -F gtex", HELP),
        ("-h", HELP),
        ("-F dump -s", DUMP),
        ("-sS -Fgabc", CANONICAL),
        ("-F=gabc -s -S", CANONICAL),
    ],
)
def test_words(work: Work, words: str, output: bytes) -> None:
    work.given = SCORE
    assert work.run(*words.split()) == Ran(0, output, b"")


NOT_UNDERSTOOD = b"O1: arguments not understood"


@pytest.mark.parametrize(
    "words, refusal",
    [
        ("-S x.gabc", b"O2: -F is needed"),
        ("-F gtex -s", b"O3: -F takes gabc or dump"),
        ("-F gabc -s x.gabc", b"O4: -s and a file"),
        ("-F gabc", b"O5: no input"),
        ("-F gabc -S --", b"O5: no input"),
        ("-F gabc -s -o y -S", b"O6: -o and -S"),
        ("-F gabc x.gabc", b"O7: a file needs -o or -S"),
        ("", b"O2: -F is needed"),
        # The first of two refusals counts.
        ("-F gabc -s x.gabc -o y -S", b"O4: -s and a file"),
        ("-Q", NOT_UNDERSTOOD),
        ("-V", NOT_UNDERSTOOD),
        ("--help", NOT_UNDERSTOOD),
        ("-F", NOT_UNDERSTOOD),
        ("-F gabc -s -W -W", NOT_UNDERSTOOD),
        ("-F gabc -F gabc -s", NOT_UNDERSTOOD),
        ("-F gabc -S x.gabc y.gabc", NOT_UNDERSTOOD),
        ("-h -Q", NOT_UNDERSTOOD),
        ("-F gabc -S x\udcff.gabc", NOT_UNDERSTOOD),
    ],
    ids=ascii,
)
def test_words_are_refused(work: Work, words: str, refusal: bytes) -> None:
    work.given = SCORE
    assert work.run(*words.split()) == Ran(3, b"", b"gregorio: %b\n" % refusal)
    assert not work.names()


# ---- scores, warnings, messages


@pytest.mark.parametrize(
    "given, words, wanted",
    [
        (b"name: Kyrie;\n%%\n", "", Ran(0, b"name: Kyrie;\n%%\n", b"")),
        (b"%%", "", Ran(0, b"%%\n", b"")),
        (b"%%", "-W", Ran(0, b"%%\n", b"<stdin>:" + NO_NAME)),
        (b"", "", Ran(2, b"", NO_LINE)),
        (FAULTY, "", Ran(1, MENDED, b"<stdin>:" + LEFT_OUT)),
        (FAULTY, "-W", Ran(1, MENDED, b"<stdin>:%b<stdin>:%b" % (NO_NAME, LEFT_OUT))),
        (b"%%\nA(f) b(g\xff", "", Ran(2, b"%%\nA(f)\n", b"<stdin>:2:9: fatal: F1: not UTF-8\n")),
    ],
    ids=[
        "no syllable",
        "without -W no warning",
        "with -W warnings",
        "the empty input",
        "an error",
        "an error and a warning",
        "a fatal fault",
    ],
)
def test_score(work: Work, given: bytes, words: str, wanted: Ran) -> None:
    work.given = given
    assert work.run("-F", "gabc", "-s", *words.split()) == wanted


def test_messages_go_to_a_file(work: Work) -> None:
    work.given = FAULTY
    work.put("list", OLD)
    assert work.run("-F", "gabc", "-s", "-W", "-l", "list") == Ran(1, MENDED, b"")
    assert work.held("list") == b"<stdin>:%b<stdin>:%b" % (NO_NAME, LEFT_OUT)


# ---- files


def test_a_file_to_a_file(work: Work) -> None:
    work.put("x.gabc", FAULTY)
    work.put("y.gabc", OLD)
    assert work.run("-F", "gabc", "-o", "y.gabc", "x.gabc") == Ran(1, b"", b"x.gabc:" + LEFT_OUT)
    assert (work.held("y.gabc"), work.held("x.gabc")) == (MENDED, FAULTY)


def test_messages_have_the_name_as_given(work: Work) -> None:
    work.put("x.gabc", FAULTY)
    assert work.run("-F", "gabc", "-S", "./x.gabc") == Ran(1, MENDED, b"./x.gabc:" + LEFT_OUT)


def test_files_for_output_and_messages(work: Work) -> None:
    work.put("x.gabc", FAULTY)
    words = ["-F", "gabc", "-W", "-l", "list", "-o", "z.gabc", "x.gabc"]
    assert work.run(*words) == Ran(1, b"", b"")
    assert work.held("list") == b"x.gabc:%bx.gabc:%b" % (NO_NAME, LEFT_OUT)
    assert work.held("z.gabc") == MENDED


def test_the_empty_input_to_a_file(work: Work) -> None:
    assert work.run("-F", "gabc", "-s", "-o", "w.gabc") == Ran(2, b"", NO_LINE)
    assert work.held("w.gabc") == b""


def test_a_name_with_blanks_and_letters_beyond_ascii(work: Work) -> None:
    name = "Kyri\u00e9 \u00f0e  Lent \u2013 \u8056\u6b4c.gabc"
    work.put(name, FAULTY)
    ran = work.run("-F", "gabc", "-o", f"out of {name}", name)
    assert ran == Ran(1, b"", name.encode() + b":" + LEFT_OUT)
    assert work.held(f"out of {name}") == MENDED


@pytest.mark.parametrize("name, words", [("-", "-"), ("-s", "-- -s")])
def test_a_name_that_begins_like_a_flag(work: Work, name: str, words: str) -> None:
    work.put(name, FAULTY)
    ran = work.run("-F", "gabc", "-S", *words.split())
    assert ran == Ran(1, MENDED, name.encode() + b":" + LEFT_OUT)
