# SPDX-License-Identifier: MIT OR Apache-2.0
"""Tests of the texts that the scripts of bench/ make, and of what they read from the program."""

import random
import sys
import unittest
from pathlib import Path

sys.path.insert(0, str(Path(__file__).resolve().parent.parent))
import commands
import families
import flows
import plot
import texts


class Families(unittest.TestCase):
    def test_texts_state_one_goal(self) -> None:
        for name, (make, size) in {**families.FAMILIES, **families.TRIPLES}.items():
            with self.subTest(name):
                self.assertEqual(make(min(size, 8)).count("goal "), 1)

    def test_a_family_is_a_function_of_its_size(self) -> None:
        for name in ("structured", "corners", "moves"):
            self.assertEqual(families.FAMILIES[name][0](8), families.FAMILIES[name][0](8))

    def test_broken_is_chain_without_the_hypothesis_in_the_middle(self) -> None:
        lines = [it for it in families.chain(5).splitlines() if it not in families.broken(5).splitlines()]
        self.assertEqual(lines, ["hyp t2.p2.!t3 = 0;"])

    def test_a_peak_that_was_not_read_is_a_dash(self) -> None:
        self.assertEqual((families.peak_text(0.0), families.peak_text(2.04)), ("-", "2.0"))

    def test_the_plot_measures_known_families(self) -> None:
        self.assertLessEqual(set(plot.SIZES), set(families.FAMILIES))
        self.assertEqual(plot.table({"nest": [(2, 0.001, 0.5)]}).splitlines()[-1], "| nest | 2 | 0.001 | 0.500 |")


class Texts(unittest.TestCase):
    def test_texts_have_about_the_length_that_a_size_gives(self) -> None:
        self.assertEqual(texts.terms(3).count("term "), 3)
        self.assertEqual(texts.parentheses(2).count("(" * 199 + "b"), 2)
        self.assertEqual(texts.ways(12).count("goto c"), 2 * (1 + 1 + 2))

    def test_evidence_begins_with_its_style(self) -> None:
        for make in (texts.chain, texts.mixed, texts.few, texts.listed):
            self.assertRegex(make(20)[1], r"\Akat [12] equal\n(?s:.*)end\n\Z")


class Commands(unittest.TestCase):
    def test_a_log_ends_with_its_steps(self) -> None:
        printed = b"S a\nS b\ndone\nprog P { }\n"
        self.assertEqual(commands.outcome(["optimise", "f", "P"], 0, printed), "2 steps, done")
        self.assertEqual(commands.outcome(["optimise", "f", "P"], 0, printed.replace(b"S b\n", b"")), "1 step, done")
        self.assertEqual(commands.outcome(["bench", "1"], 0, b"problems 1\n"), "problems 1")
        self.assertEqual(commands.outcome(["decide", "f"], 0, b"kat 1 equal\n"), "")

    def test_groups_have_brackets_from_the_left(self) -> None:
        self.assertEqual(commands.grouped(["a", "b", "c", "d"], 3), "((a.b).c).d")


class Flows(unittest.TestCase):
    def setUp(self) -> None:
        self.world = flows.Interpretation(0.5)
        self.sorts = {"x": "u8", "m": "mem"}

    def test_values_wrap_at_the_width_of_their_sort(self) -> None:
        term = ("+", ("variable", "x"), ("number", 2))
        self.assertEqual(flows.value_of(self.world, {"x": 255}, self.sorts, "u8", term), 1)
        self.assertEqual(flows.value_of(self.world, {"x": 255}, self.sorts, "u16", ("convert", "s16", "u8", ("variable", "x"))), 65535)

    def test_signed_comparisons_read_the_sign(self) -> None:
        b = ("slt", "u8", ("variable", "x"), ("number", 0))
        self.assertTrue(flows.holds(self.world, {"x": 128}, self.sorts, b))
        self.assertEqual(flows.condition_text(b), "slt(x, 0)")

    def test_a_change_that_keeps_values_keeps_what_is_returned(self) -> None:
        for seed in range(8):
            chance = random.Random(seed)
            maker = flows.Maker(chance)
            graph = maker.graph()
            other = chance.choice(flows.KEEPING)(chance, graph)
            self.assertIsNone(flows.differing_run(chance, maker.sorts, graph, other)[0])

    def test_a_changed_number_is_found_by_a_run(self) -> None:
        graphs = [flows.Graph([flows.Block("b", [], ("return", [("number", k), ("variable", "m")]))]) for k in (1, 2)]
        found, ended = flows.differing_run(random.Random(1), self.sorts, *graphs)
        self.assertIsNotNone(found)


if __name__ == "__main__":
    unittest.main()
