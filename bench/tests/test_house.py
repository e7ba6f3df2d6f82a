# SPDX-License-Identifier: MIT OR Apache-2.0
"""Tests of bench/house.py, on small sources."""

import sys
import unittest
from pathlib import Path, PurePosixPath

sys.path.insert(0, str(Path(__file__).resolve().parent.parent))
import house

LONG = "x" * 90
SOURCE = f"""// asked for nothing
pub fn asked_by(told: u8) -> u8
    requires short {{ told < 8 }}
    ensures long {{ result ≡ {LONG} }}
    ensures many {{
        result ≡ {LONG}{LONG}
    }}
{{
    let wanted = told;
    AsksFor(wanted)
}}
"""
LEMMAS = """-- a comment
use Rattle.std.proofs.Common.{refl}

pub and_true : (b : Bool) → (b && true) ≡ b
and_true true = refl
and_true false = refl

swap : {A : Type 0} (x y : A)
    → x ≡ y → y ≡ x
swap x y same = sym same

module _ (g : Grammar)
    inner : (b : Bool) → read g b ≡ b
    inner b = refl
"""
OTHER = LEMMAS.replace("(b : Bool) → (b &&", "(c : Bool) → (c &&").replace("≡ b\nand", "≡ c\nand").replace("x y", "a b").replace("x ≡ y → y ≡ x", "a ≡ b → b ≡ a")
ROOMS = {"one": "Base", "two": "Top"}


def texts() -> house.Texts:
    files = {"one/src/lib.rt": SOURCE, "one/specs/Lib.antt": "-- told\nAsks : Type\n", "one/proofs/Lemmas.antt": LEMMAS,
             "two/proofs/Lemmas.antt": OTHER, "two/proofs/f/Answers.antt": LEMMAS}
    return {PurePosixPath(path): text for path, text in files.items()}


class Counting(unittest.TestCase):
    def test_lines_are_added_by_room_and_part(self) -> None:
        rows = house.room_rows(texts(), ROOMS)
        self.assertEqual((rows["Base"]["src"], rows["Base"]["specs"], rows["Base"]["proofs"]), (11, 2, 14))
        self.assertEqual(rows["Top"]["proofs"], 28)

    def test_each_long_line_of_a_clause_counts(self) -> None:
        self.assertEqual(house.long_clauses(SOURCE), 2)
        self.assertEqual(house.long_clauses(f"fn f() {{ {LONG}{LONG} }}\n"), 0)

    def test_identifiers_of_habit_are_counted_without_comments(self) -> None:
        self.assertEqual(house.habits(texts(), ("src", "specs")), {"asked_by": 1, "told": 3, "wanted": 2, "AsksFor": 1, "Asks": 1})
        self.assertFalse(any(map(house.has_habit, ("task", "mask", "understand", "stopwatch", "essay"))))

    def test_long_bodies_and_files_are_found(self) -> None:
        long = "fn f() {\n" + "    g();\n" * 41 + "}\n" + "\n" * 800
        found = {PurePosixPath("one/src/lib.rt"): long}
        self.assertEqual(house.long_bodies(found), [(41, "one/src/lib.rt:1 f")])
        self.assertEqual(house.long_files(found), [(843, "one/src/lib.rt")])
        self.assertEqual(house.long_bodies({PurePosixPath("one/src/lib.rt"): long.replace("    g();\n", "", 1)}), [])


class Twins(unittest.TestCase):
    def test_statements_are_alike_up_to_bound_names(self) -> None:
        found = house.twins(texts())
        self.assertEqual(sorted(sorted(it.name for it in same) for same in found), [["and_true", "and_true"], ["swap", "swap"]])

    def test_a_proof_of_one_line_is_short(self) -> None:
        short = {same[0].name: house.is_short(same) for same in house.twins(texts())}
        self.assertEqual(short, {"and_true": False, "swap": True})

    def test_one_crate_has_no_twins(self) -> None:
        path = PurePosixPath("one/proofs/Lemmas.antt")
        self.assertEqual(house.twins({path: LEMMAS, path.with_name("Other.antt"): LEMMAS}), [])

    def test_unlike_statements_are_not_alike(self) -> None:
        self.assertNotEqual(house.alike("(a b : ℕ) → a ≤ b"), house.alike("(a b : ℕ) → b ≤ a"))
        self.assertEqual(house.alike("(x : ℕ) → (λ y. y) x ≡ x"), house.alike("(n : ℕ) → (λ m. m) n ≡ n"))


class Reporting(unittest.TestCase):
    def test_the_report_has_a_table_and_a_line_for_each_count(self) -> None:
        lines = house.report(texts(), ROOMS)
        self.assertIn("| Base | 11 | 2 | 14 | 2 |", lines)
        self.assertIn("Lemmas in two or more crates: 2, 1 of them with proofs of one line.", lines)
        self.assertIn("Identifiers of habit: 5 in src and specs, with 8 uses; 5 with those of proofs, 8 uses.", lines)


if __name__ == "__main__":
    unittest.main()
