# SPDX-License-Identifier: MIT OR Apache-2.0
"""Tests that the calls of include/kat.h are those of the headers and packages for other languages, with the same statuses."""

import re
import sys
import unittest
from pathlib import Path
from typing import Set

TOP = Path(__file__).resolve().parent.parent.parent
sys.path.insert(0, str(TOP / "python"))
from kat import _library  # noqa: E402


def found(name: str, pattern: str) -> Set[str]:
    return set(re.findall(pattern, (TOP / name).read_text(), re.MULTILINE))


class Calls(unittest.TestCase):
    def setUp(self) -> None:
        self.calls = found("include/kat.h", r"^uint\d+_t (kat_\w+)\(")
        self.commands = self.calls - {"kat_version"}

    def test_each_language_has_each_call(self) -> None:
        self.assertEqual((len(self.calls), len(self.commands)), (18, 17))
        self.assertEqual(found("include/kat.hpp", r"\b(kat_\w+)[,(]"), self.calls)
        self.assertEqual(found("rust/src/calls.rs", r"pub fn (kat_\w+)\("), self.calls)
        self.assertEqual(found("rust/src/lib.rs", r"\b(kat_\w+)\b"), self.calls)
        self.assertEqual(found("debian/libkat0.symbols", r"^ (kat_\w+)@Base"), self.calls)
        self.assertEqual({f"kat_{it}" for it in _library.CALLS}, self.commands)

    def test_methods_of_python_are_the_calls(self) -> None:
        methods = {it for it in vars(_library.Library) if not it.startswith("_")}
        self.assertEqual({f"kat_{'try' if it == 'try_' else it}" for it in methods}, self.calls)

    def test_statuses_of_python_are_those_of_the_header(self) -> None:
        numbers = dict(re.findall(r"^    KAT_(\w+) = (\d+)", (TOP / "include/kat.h").read_text(), re.MULTILINE))
        python = {it.name: str(int(it)) for it in _library.Status}
        python.update(NO_MEMORY=str(_library.NO_MEMORY), NO_ROOM=str(_library.NO_ROOM))
        self.assertEqual(python, numbers)


if __name__ == "__main__":
    unittest.main()
