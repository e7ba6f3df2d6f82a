# SPDX-License-Identifier: MIT OR Apache-2.0
"""Tests of what docs/rooms.py reads."""

import sys
import unittest
from pathlib import Path

sys.path.insert(0, str(Path(__file__).resolve().parent.parent))
import rooms


class Sentences(unittest.TestCase):
    def test_the_first_sentence_ends_at_its_full_stop(self) -> None:
        self.assertEqual(rooms.first_sentence("//! Trees of\n//! tests. And more.\n#![tactic(auto)]\n"), "Trees of tests")

    def test_a_full_stop_within_a_word_does_not_end_it(self) -> None:
        self.assertEqual(rooms.first_sentence("//! Reads a `lib.rt` whole.\n\nmod a;\n"), "Reads a `lib.rt` whole")

    def test_a_source_without_a_comment_has_none(self) -> None:
        self.assertEqual(rooms.first_sentence("mod a;\n"), "")


class Rows(unittest.TestCase):
    def test_rows_have_a_crate_and_a_sentence(self) -> None:
        page = "| crate | what it is |\n|---|---|\n| `one`* | First |\n| `two` | Second, with `word` |\n"
        self.assertEqual(rooms.rows(page), {"one": "First", "two": "Second, with `word`"})

    def test_a_row_of_other_words_is_wrong(self) -> None:
        page = "| `kat_text`* | Something else |\n"
        self.assertEqual(rooms.wrong_rows({"Texts": ["kat_text"], "Tests": ["tests_text"]}, page), ["kat_text"])


if __name__ == "__main__":
    unittest.main()
