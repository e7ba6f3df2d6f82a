# SPDX-License-Identifier: MIT OR Apache-2.0
"""Tests of the tables about packages."""

import sys
import unittest
from pathlib import Path

sys.path.insert(0, str(Path(__file__).resolve().parent.parent))

import llvm_packages  # noqa: E402

TEXT = """define i32 @f(i32 %0) #0 {
  br label %2

2:                                                ; preds = %1
  ret i32 %0
}

define internal void @g.1() {
  ret void
}
"""


class Tables(unittest.TestCase):
    def test_blocks(self) -> None:
        self.assertEqual({"f": 2, "g.1": 1}, llvm_packages.blocks(TEXT))
        self.assertEqual(["1-5", "6-15", "41 and more"], list(map(llvm_packages.size_of, (5, 6, 41))))

    def test_rows(self) -> None:
        found = [{"answer": answer, "seconds": seconds} for answer, seconds in (("equal", 1.0), ("not proved", 3.0), ("equal", 2.0))]
        self.assertEqual("| a | 3 | 2 | 0 | 1 | 0 | 2.00, 2.00, 3.00 |", llvm_packages.row("a", found))
        self.assertEqual(["1-5", "6-15"], list(llvm_packages.grouped(found, ["6-15", "1-5", "6-15"])))


if __name__ == "__main__":
    unittest.main()
