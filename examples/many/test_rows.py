# SPDX-License-Identifier: MIT OR Apache-2.0
"""Tests of rows.py: names of rows, links, the options that name machines, and the table."""

import contextlib
import io
import os
import tempfile
import time
import unittest
from pathlib import Path
from typing import Tuple

import rows

ODD = ["with space", "it's", 'a "b"', "$HOME", "x=1;y#z%", "caf\u00e9", "*", "-n", "line\nfeed", "a+20b"]


class Rows(unittest.TestCase):
    def setUp(self) -> None:
        room = tempfile.TemporaryDirectory()
        self.addCleanup(room.cleanup)
        self.problems, self.rows = Path(room.name, "my problems"), Path(room.name, "rows")
        self.problems.mkdir()

    def add(self, name: str) -> str:
        (self.problems / f"{name}.kat").write_text(name)
        return rows.row_of(name)

    def table(self) -> Tuple[int, str]:
        printed = io.StringIO()
        with contextlib.redirect_stdout(printed):
            status = rows.table(str(self.problems), self.rows)
        return status, printed.getvalue()

    def test_names_of_rows_are_words_and_differ(self) -> None:
        found = [rows.row_of(it) for it in [*ODD, "a b", "plain-1.x_y"]]
        for row in found:
            self.assertRegex(row, r"^[A-Za-z0-9._+-]+$")
        self.assertEqual(len(set(found)), len(found))
        self.assertEqual(rows.row_of("plain-1.x_y"), "plain-1.x_y")
        self.assertEqual(rows.row_of("a b"), "a+20b")

    def test_links_lead_to_the_problems(self) -> None:
        expected = {self.add(name): name for name in ODD}
        (self.problems / "folder.kat").mkdir()
        (self.problems / ".hidden.kat").touch()
        self.assertEqual(set(rows.link(str(self.problems), self.rows)), set(expected))
        for row, name in expected.items():
            self.assertEqual((self.rows / f"{row}.kat").read_text(), name)

    def test_links_follow_the_folder(self) -> None:
        gone = self.add("gone")
        rows.link(str(self.problems), self.rows)
        (self.problems / "gone.kat").unlink()
        self.add("new")
        self.assertEqual(rows.link(str(self.problems), self.rows), ["new"])
        self.assertFalse(os.path.lexists(self.rows / f"{gone}.kat"))

    def test_a_folder_of_rows_that_make_cannot_read_is_refused(self) -> None:
        for name in ("a b", "a$b", "a:b"):
            with self.assertRaises(ValueError):
                rows.link(str(self.problems), Path(name))
            self.assertFalse(Path(name).exists())

    def test_machines_are_found_among_other_options(self) -> None:
        self.assertEqual(rows.machines(["-S", ":"]), (["-S", ":"], False))
        self.assertEqual(rows.machines(["-S", "4/:"]), (["-S", "4/:"], False))
        self.assertEqual(rows.machines(["--timeout", "60"]), ([], False))
        for options in (["-S", "8/one,:"], ["-S8/one"], ["--sshlogin", "one"], ["--sshlogin=one"], ["--slf", ".."]):
            self.assertEqual(rows.machines(["--retries", "3", *options, "--joblog", "log"]), (options, True))

    def test_table_has_each_answer_beside_what_is_stated(self) -> None:
        self.rows.mkdir()
        for name, row, stated in [("as stated", "equal 10 accepted equal", "equal\n"), ("unstated", "refused 16 -", None),
                                  ("wrong", "different 32 accepted different", "equal"), ("ended", "status-6 0 -", None)]:
            (self.rows / f"{self.add(name)}.row").write_text(row)
            if stated:
                (self.problems / f"{name}.answer").write_text(stated)
        self.add("none")
        (self.rows / rows.DECIDED).write_text(self.add("lost one") + "\n")
        status, printed = self.table()
        lines = {line[:32].strip(): line[32:].split() for line in printed.splitlines()[1:-1]}
        mark = ["<--", "not", "as", "stated"]
        self.assertEqual(lines, {
            "as stated": ["equal", "equal", "10"], "unstated": ["refused", "-", "16"], "wrong": ["different", "equal", "32", *mark],
            "ended": ["status-6", "-", "0", *mark], "none": ["missing", "-", "-", *mark],
            "lost one": ["not-brought-back", "-", "-", *mark]})
        self.assertEqual((status, printed.splitlines()[-1]), (1, "6 problems, 4 not as stated"))

    def test_a_table_of_10000_problems_takes_less_than_two_seconds(self) -> None:
        self.rows.mkdir()
        for at in range(10000):
            (self.rows / f"{self.add(f'problem {at}')}.row").write_text("equal 10 accepted equal")
        began = time.process_time()
        status, printed = self.table()
        self.assertLess(time.process_time() - began, 2)
        self.assertEqual((status, printed.splitlines()[-1]), (0, "10000 problems, 0 not as stated"))

    def test_a_table_of_what_is_stated_ends_with_0(self) -> None:
        self.rows.mkdir()
        (self.rows / f"{self.add('a b')}.row").write_text("equal 10 accepted equal")
        self.assertEqual(self.table()[0], 0)


if __name__ == "__main__":
    unittest.main()
