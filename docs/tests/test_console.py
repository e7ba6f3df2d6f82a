"""Tests of how docs/console.py reads the commands of a page and writes what they print."""

import sys
import unittest
from pathlib import Path

sys.path.insert(0, str(Path(__file__).resolve().parent.parent))

import console  # noqa: E402

PAGE = """# A page

    $ first > file
    $ second
    one

      two
text

    a block that is no command

    $ third
    $ fourth

    $ fifth
    last
"""
FOUND = [(3, "first > file", ""), (4, "second", "one\n\n  two\n"), (12, "third", ""), (13, "fourth", ""), (15, "fifth", "last\n")]


class Pages(unittest.TestCase):
    def test_commands_are_read_with_what_they_print(self) -> None:
        self.assertEqual(console.commands(PAGE), FOUND)

    def test_a_page_without_commands_has_none(self) -> None:
        self.assertEqual(console.commands("text\n\n    block\n"), [])

    def test_the_same_outputs_give_the_same_page(self) -> None:
        self.assertEqual(console.rewritten(PAGE, [printed for _, _, printed in FOUND]), PAGE)

    def test_other_outputs_are_read_back(self) -> None:
        outputs = ["a\n", "", "b\n\n c\n", "$d\n", "\\1\n"]
        self.assertEqual([it.printed for it in console.commands(console.rewritten(PAGE, outputs))], outputs)


if __name__ == "__main__":
    unittest.main()
