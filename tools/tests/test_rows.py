"""What `tools/try_unproved` makes of rows, and of what `rt try` says of them."""

from __future__ import annotations

import contextlib
import io
import os

from fixture import RepositoryTest
from house.rows import USUAL, Row, spread, unescaped
from house.try_unproved import passed_of, put_cases

LINE = f"-F gabc -S\t{USUAL}\twhole\t%%\\n(f)\t\\xffa\\\\\t1:1: no\\r\t2"


class RowsTest(RepositoryTest):
    def test_escapes(self) -> None:
        self.assertEqual(unescaped("a\\n\\t\\r\\\\n\\x00\\xFFé"), b"a\n\t\r\\n\x00\xff\xc3\xa9")

    def test_a_row_is_read(self) -> None:
        row = Row(LINE)
        self.assertEqual((row.words, row.status), (["-F", "gabc", "-S"], 2))
        self.assertEqual((row.input, row.output), (b"%%\n(f)", b"\xffa\\"))
        self.assertEqual(row.messages, b"1:1: no\r")
        self.assertTrue(row.is_usual())
        self.assertFalse(Row(LINE.replace("whole", "cut")).is_usual())
        self.assertFalse(Row(LINE.replace(USUAL, "1,1,1")).is_usual())

    def test_rows_are_spread(self) -> None:
        self.assertEqual([*spread(range(10), 4)], [0, 3, 6, 9])
        self.assertEqual([*spread(range(3), 4)], [0, 1, 2])

    def test_a_row_has_a_case_for_each_end(self) -> None:
        cases = put_cases(self.root, [("rows-2", Row(LINE))])
        self.assertEqual(list(cases), ["rows-2", "rows-2-messages"])
        self.assertEqual(len(os.listdir(self.root)), 6)
        self.assertEqual(self.text("rows-2.args"), "-F\ngabc\n-S\n")
        self.assertTrue(self.text("rows-2-messages.args").endswith("\n-l\n/dev/stdout\n"))

    def test_counts_what_passed_and_tells_what_differs(self) -> None:
        cases = {"rows-2": Row(LINE), "rows-3": Row(LINE), "rows-4": Row(LINE)}
        told = [
            "case=rows-2 run=ended status=2 steps=1 output=expected\n",
            "- this\n",
            "case=rows-3 run=ended status=2 steps=1 output=other\n",
            "case=rows-4 run=ended status=1 steps=1 output=expected\n",
        ]
        out = io.StringIO()
        with contextlib.redirect_stdout(out):
            self.assertEqual(passed_of(told, cases), 1)
        failed = "try_unproved: failed: rows-{}: status {}, and not 2, or another output"
        wanted = ["- this", failed.format(3, 2), failed.format(4, 1)]
        self.assertEqual(out.getvalue().splitlines(), wanted)
