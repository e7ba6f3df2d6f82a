# SPDX-License-Identifier: MIT OR Apache-2.0
"""Tests of bench/stack.py, without a program."""

import sys
import unittest
from pathlib import Path

sys.path.insert(0, str(Path(__file__).resolve().parent.parent))
import stack

# The greatest length of a text and the most constructs that may be open at one place of it (docs/language.md).
MOST_BYTES = 1_048_576
MOST_OPEN = 200


def open_at_most(text: str) -> int:
    """The most brackets that are open at one place."""
    depth = deepest = 0
    for letter in text:
        if letter in "([{":
            depth += 1
            deepest = max(deepest, depth)
        elif letter in ")]}":
            depth -= 1
    return deepest


class Bisection(unittest.TestCase):
    def test_finds_the_least_size_to_within_a_step(self) -> None:
        for need in (65, 100, 1_000, 4_095, 4_096):
            found = stack.least(lambda size: size >= need, 64, 4_096, 16)
            self.assertTrue(need <= found <= need + 16, (need, found))

    def test_the_least_size_that_is_tried_may_suffice(self) -> None:
        self.assertEqual(stack.least(lambda size: True, 64, 4_096, 16), 64)


class Texts(unittest.TestCase):
    def test_are_within_the_limits(self) -> None:
        for name, make in {**stack.NESTED, **stack.FLOWS}.items():
            text = make().problem
            self.assertLessEqual(len(text), MOST_BYTES, name)
            self.assertLessEqual(open_at_most(text), MOST_OPEN, name)

    def test_rows_have_as_many_parts_as_stated(self) -> None:
        self.assertEqual(stack.flow_row("&&", "x == y", 5).count("x == y"), 5)
        self.assertEqual(stack.flow_statements("x := x; ", 7).count(":="), 7)
        self.assertEqual(stack.flow_blocks(9).count("block"), 9)
        self.assertEqual(stack.flow_branches(9).count("block"), 9)
        self.assertEqual(stack.stars(3, 4, 5).count("*"), 3)

    def test_each_case_calls_a_command_on_its_files(self) -> None:
        for name, make in {**stack.NESTED, **stack.FLOWS}.items():
            for call in make().calls:
                self.assertEqual(call.words[1], "problem", name)


if __name__ == "__main__":
    unittest.main()
