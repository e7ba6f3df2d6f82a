"""Tests of the reader on the committed examples."""

import json
import unittest

from comparing import EXAMPLES, compare, modules  # first, since it says where the modules are
import pairs

PASSES = json.loads((EXAMPLES / "passes.json").read_text())["passes"]


class Examples(unittest.TestCase):
    def test_runs(self):
        """Each text of an example reads as a flow text and runs as the IR does, and right passes change no result."""
        total = 0
        for name, group, *_ in PASSES:
            before, after = modules(group, name)
            for function in pairs.changed(before, after):
                _, text = next(pairs.tries(before, after, function))
                ended, differ = compare(self, before, after, function, text, range(4))
                self.assertEqual(0, differ, f"{name} {function}\n{text}")
                total += ended
        self.assertGreater(total, 300)

    def test_choices(self):
        """Every choice of cuts and copies runs as the first one."""
        for name, group, function in (("loop-unroll", "rotated", "raise"), ("loop-rotate", "plain", "find_pair"),
                                      ("gvn", "plain", "copy_until"), ("loop-peel", "rotated", "locked_steps")):
            before, after = modules(group, name)
            for _, text in pairs.tries(before, after, function):
                compare(self, before, after, function, text, range(2))

    def test_faults(self):
        """Each planted fault is one: some run differs."""
        before, after = modules("plain", "faults")
        for function in pairs.changed(before, after):
            _, text = next(pairs.tries(before, after, function))
            found = any(compare(self, before, after, function, text, [seed])[1] for seed in range(300))
            self.assertTrue(found, function)


if __name__ == "__main__":
    unittest.main()
