# SPDX-License-Identifier: MIT OR Apache-2.0
"""Tests of the table of bench/gate.py, on rows that it printed for version 0.5.9."""

import collections
import sys
import tempfile
import unittest
from pathlib import Path

sys.path.insert(0, str(Path(__file__).resolve().parent.parent))
import gate

# Process, crate, kind and seconds, as they are read from the processes of a run.
USED = {
    (11, "cert_checker", "proof"): 276.0, (12, "cert_checker", "edits"): 300.0, (13, "cert_checker", "edits"): 295.0,
    (14, "kat_model", "proof"): 92.0, (15, "tests_text", "proof"): 6.0, (16, "tests_text", "tests"): 158.0,
}
TABLE = """\
| crate | proof s | tests s | edits s | all s | all, in units | edits |
|---|---|---|---|---|---|---|
| `cert_checker` | 276 | 0 | 595 | 871 | 9.47 | 5 |
| `tests_text` | 6 | 158 | 0 | 164 | 1.78 | 0 |
| `kat_model` | 92 | 0 | 0 | 92 | 1.00 | 0 |
| all | 374 | 158 | 595 | 1127 | 12.25 | 5 |

A unit is 92 processor seconds, the proof of `kat_model`. In units: 4.1 of proofs, 1.7 of tests, 6.5 of edits, 12.2 in all."""


class Table(unittest.TestCase):
    def test_seconds_and_units_are_of_the_same_run(self) -> None:
        self.assertEqual(gate.table(gate.added(USED), {"cert_checker": 5}), TABLE)

    def test_without_a_proof_of_the_unit_there_are_no_units(self) -> None:
        sums = collections.defaultdict(float, {("cert_checker", "edits"): 595.0})
        text = gate.table(sums, {"cert_checker": 5, "walk_under": 4})
        self.assertIn("| all | 0 | 0 | 595 | 595 | - | 9 |", text)
        self.assertIn("There are no units", text)

    def test_edits_are_the_files_of_must_fail(self) -> None:
        with tempfile.TemporaryDirectory() as room:
            for name in ("a/must-fail/one.edit", "a/must-fail/two.edit", "b/src/lib.rt"):
                path = Path(room, "crates", name)
                path.parent.mkdir(parents=True, exist_ok=True)
                path.write_text("")
            self.assertEqual(gate.edits_of(Path(room)), {"a": 2})


class Processes(unittest.TestCase):
    def test_a_check_is_named_by_its_words_and_its_folder(self) -> None:
        words = ["/opt/rattle/bin/rattle", "check", "--crate-name", "walk_under"]
        self.assertEqual(gate.kind_of(words, "/work/crates/walk_under"), ("walk_under", "proof"))
        self.assertEqual(gate.kind_of([*words, "--test"], "/work/crates/walk_under"), ("walk_under", "tests"))
        self.assertEqual(gate.kind_of(words, "/tmp/rt-edit-4/walk_under"), ("walk_under", "edits"))
        self.assertIsNone(gate.kind_of(["python3", "--crate-name", "x"], "/work"))

    def test_a_line_of_a_check_names_the_function_that_ended(self) -> None:
        self.assertEqual(gate.ended_function("checked kat_report::writing::put, 3 of 40"), "kat_report::writing::put")
        self.assertIsNone(gate.ended_function("proving 40 functions"))


if __name__ == "__main__":
    unittest.main()
