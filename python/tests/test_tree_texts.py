"""Writes the dump and the canonical text of scores from their trees alone, and compares them with
the compiler's: for all runs of the tables, the examples, the scores of GREGORIO_FOLDER, and scores
that are damaged at random (GREGORIO_MUTANTS=N makes N). In each the own bytes of all nodes join to
the score, what was left out stands where its message says, and the numbers of a node say what its
spelling does."""
from __future__ import annotations

import os
import random
import unittest
from collections import Counter
from collections.abc import Iterable, Sequence
from concurrent.futures import ProcessPoolExecutor
from multiprocessing import get_context

from mutants import mutants
from support import files_of_scores, scores_of_tables
from tree_form import check_form
from tree_texts import canonical_of, dump_of
from tree_values import check_values

from gregorio_chant import Format, Message, NodeKind, Report, Status, Tree, check, compile, tree

MUTANTS = int(os.environ.get("GREGORIO_MUTANTS", "5000"))
SEED = 11
_BATCH = 250
_FIRST_NUMBERS = {"E": 100, "W": 200, "F": 300}
_LEFT_OUT = ("E1", "E2", "E3")


def number_of(code: str) -> int:
    """Returns the number of a code, as C has it."""
    return _FIRST_NUMBERS[code[0]] + int(code[1:])


# ---- what was found


def places(messages: Iterable[Message]) -> Counter[tuple[int, int, int]]:
    """Returns the codes and places of the messages at which a character was left out."""
    return Counter(
        (number_of(it.code), it.line, it.column) for it in messages if it.code in _LEFT_OUT
    )


def check_findings(made: Tree, report: Report) -> None:
    """Raises `ValueError` unless each character that is left out has its message, and each message
    its node. After a fault some stand in what is unread."""
    found = Counter(
        (it.a, it.line, it.column) for it in made.of_kind(NodeKind.LEFT_OUT) if it.a <= 103
    )
    wanted = places(report.messages)
    if report.status != Status.FATAL and found != wanted or found - wanted:
        raise ValueError(f"left out are {found - wanted}, messages alone have {wanted - found}")
    unread = [it.a for it in made.of_kind(NodeKind.UNREAD)]
    faults = [number_of(it.code) for it in report.messages if it.code[0] == "F"]
    if unread != faults:
        raise ValueError(f"unread by {unread}, and not by {faults}")
    headers = Counter(
        it.a for it in made.of_kind(NodeKind.HEADER, NodeKind.HEADER_LEFT_OUT) if it.a
    )
    told = Counter(number_of(it.code) for it in report.messages if it.code in ("E4", "E5", "W2"))
    if report.status != Status.FATAL and headers != told:
        raise ValueError(f"headers say {headers}, messages {told}")


# ---- a score


def first_difference(got: str, wanted: str) -> str:
    """Returns the first line of two texts that differs."""
    lines = zip([*got.split("\n"), "(end)"], [*wanted.split("\n"), "(end)"])
    return next((f"{one!r}, and not {other!r}" for one, other in lines if one != other), "nothing")


def check_tree(made: Tree) -> None:
    """Compares all that a tree says with the compiler. Raises `ValueError` if something differs."""
    check_form(made)
    check_findings(made, check(made.source))
    check_values(made)
    for written, format in ((dump_of(made), Format.DUMP), (canonical_of(made), Format.GABC)):
        output = compile(made.source, format).output
        if written != output:
            raise ValueError(f"the {format.value} is {first_difference(written, output)}")


def check_all(scores: Sequence[bytes]) -> tuple[Counter[NodeKind], list[str]]:
    """Checks scores. Returns how many nodes of each kind there are, and what differs."""
    kinds: Counter[NodeKind] = Counter()
    wrong = []
    for score in scores:
        try:
            made = tree(score)
            check_tree(made)
            kinds += Counter(it.kind for it in made)
        except ValueError as error:
            wrong.append(f"{score!r}: {error}")
    return kinds, wrong


class Texts(unittest.TestCase):
    def try_all(self, scores: Iterable[bytes]) -> Counter[NodeKind]:
        """Checks scores by as many processes as there are processors."""
        kinds: Counter[NodeKind] = Counter()
        wrong: list[str] = []
        every = list(scores)
        with ProcessPoolExecutor(os.cpu_count(), get_context("spawn")) as pool:
            for more, differing in pool.map(
                check_all, (every[at : at + _BATCH] for at in range(0, len(every), _BATCH))
            ):
                kinds += more
                wrong += differing
        self.assertEqual((len(wrong), wrong[:5]), (0, []))
        return kinds

    def test_tables_and_examples(self) -> None:
        scores = dict.fromkeys(
            [*scores_of_tables(), *(it.read_bytes() for it in files_of_scores())]
        )
        self.assertGreater(len(scores), 900)
        kinds = self.try_all(scores)
        self.assertEqual(set(kinds), set(NodeKind))

    def test_damaged_scores(self) -> None:
        self.try_all(mutants([it.read_bytes() for it in files_of_scores()], MUTANTS, SEED))

    def test_bad_scores(self) -> None:
        """Each fault in turn, limits that are passed, and what ends in the middle of something."""
        self.try_all(
            [
                b"",
                b"\0",
                b"\xff",
                b"\xef\xbb\xbf",
                b"\r",
                b"\n\r\n",
                b"%%",
                b"%",
                b"%%\0",
                b"%%\n\0(\0)",
                b"name: a;",
                b"name: a",
                b"name: a;\n%%",
                b"%%\n(f)a(\xff",
                b"%%\n(f)\xc3",
                b"%%\n(f",
                b"%%\n(f)a[b",
                b"%%\n(f)<v>a",
                b"%%\n(f)<a",
                b"%%\n(f|",
                b"%%\na$",
                b"%%\n$(",
                b"%%\na$(f)",
                b"%%\n()",
                b"%%\n(f)a",
                b"%%\n(f)a%",
                b"%%\n(f) \n\n",
                b"%%\n<b>a<i>b</b>c</i>d(f)",
                b"nabc-lines: 4;\n%%\n(f|vi|pu|ta|gr|g|cl|pe|po|to)",
                b"%%\n{}(f){}",
                b"%%\n" + b"a" * 20_000 + b"(f)",
                b"%%\n(f)" + b"a" * 20_000,
                b"%%\n(f)a(" + b"f" * 20_000 + b")",
                b"name: " + b"a" * 70_000 + b";\n%%\n(f)",
                b"%" + b"a" * 100_000 + b"\n%%\n(f)",
                b"name: a;\n" * 5_000 + b"%%\n(f)",
                b"%%\n(f)%" + b"a" * 100_000,
            ]
        )

    def test_prefixes(self) -> None:
        """A score that ends anywhere, or has a byte that is no UTF-8 anywhere, has a tree."""
        score = next(it.read_bytes() for it in files_of_scores() if it.name == "every-finding.gabc")
        self.try_all(score[:at] for at in range(len(score)))
        drawn = random.Random(SEED)
        self.try_all(
            score[:at] + bytes([drawn.choice((0, 0x80, 0xFF))]) + score[at:]
            for at in range(len(score))
        )


if __name__ == "__main__":
    unittest.main()
