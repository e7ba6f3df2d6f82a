# SPDX-License-Identifier: MIT OR Apache-2.0
"""Tests of the reader of crates.txt, and of what docs/rooms.py makes of it."""

import sys
import unittest
from pathlib import Path

sys.path.insert(0, str(Path(__file__).resolve().parent.parent))
import crates
import rooms

TEXT = """# NAME: what it is built over.

# Base
model:
io: model   # files

# Program
tool staticlib: io model json
# no title, since no empty line precedes it
kat: tool io

# Tests
tests_tool: tool
"""


class Parsing(unittest.TestCase):
    def test_each_line_is_a_crate_of_its_room(self) -> None:
        found = crates.parse(TEXT)
        self.assertEqual([it.name for it in found], ["model", "io", "tool", "kat", "tests_tool"])
        self.assertEqual(found[2], crates.Crate("tool", "Program", ("staticlib",), ("io", "model", "json")))
        self.assertEqual(found[1].below, ("model",))

    def test_rooms_keep_the_order_of_the_file(self) -> None:
        expected = {"Base": ["model", "io"], "Program": ["tool", "kat"], "Tests": ["tests_tool"]}
        self.assertEqual(crates.by_room(crates.parse(TEXT)), expected)

    def test_crates_before_a_title_have_no_room(self) -> None:
        self.assertEqual(crates.parse("a:\n\n# R\nb: a\n")[0].room, "")

    def test_this_repository_lists_each_crate_once(self) -> None:
        names = [it.name for it in crates.read()]
        self.assertEqual(sorted(names), sorted(it.name for it in (crates.TOP / "crates").iterdir() if (it / "src").is_dir()))


class Rooms(unittest.TestCase):
    def test_an_arrow_that_follows_from_others_is_left_out(self) -> None:
        found = crates.parse("\n# A\na:\n\n# B\nb: a\n\n# C\nc: a b\n")
        self.assertEqual(rooms.arrows(*rooms.tables_of(found)), {"A": [], "B": ["A"], "C": ["B"]})

    def test_a_crate_before_one_that_it_is_built_over_is_found(self) -> None:
        self.assertEqual(rooms.early(*rooms.tables_of(crates.parse("\n# A\nb: a\na:\n"))), ["b"])

    def test_rooms_of_tests_are_not_drawn(self) -> None:
        self.assertNotIn("TESTS", rooms.dot(*rooms.tables_of(crates.parse(TEXT))))


if __name__ == "__main__":
    unittest.main()
