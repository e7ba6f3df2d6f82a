# SPDX-License-Identifier: MIT OR Apache-2.0
"""Tests of bench/rattle.py and bench/clauses.py, on small sources."""

import sys
import unittest
from pathlib import Path, PurePosixPath

sys.path.insert(0, str(Path(__file__).resolve().parent.parent))
import clauses
import rattle

SOURCE = '''//! A file. { "no brace counts here
ghost use Rattle.std.specs.Prelude.{◌≡◌, ℕ, IfOk};
ghost use Rattle.model.specs.Trees.{tree as tree_of, size};
ghost use Rattle.model.specs.Values as value;

impl From<AllocError> for Fault {
    ghost from_gives = { λ _ e. e ≡ NoMemory };

    fn from(_: AllocError) -> Self {
        Fault::Memory
    }
}

impl<'a, T: Row> Table<'a, T> {
    /// Counts the rows.
    pub fn count(&self) -> usize
        requires room { size self < 8 }
        ensures { result ≡ tree_of self.now } // a comment
    {
        let brace = '{';
        self.rows.len()
    }

    fn own(&self) {}
}

pub trait Sink {
    fn put(&mut self, byte: u8) -> Result<(), Failed>
        ensures puts { IfOk result (value.put self.old byte) };
}

pub(crate) fn inner() {}
'''


def texts(**files: str) -> dict[PurePosixPath, str]:
    return {PurePosixPath(crate, "src/lib.rt"): text for crate, text in files.items()}


def compared(old: dict[PurePosixPath, str], new: dict[PurePosixPath, str], names: str = "", is_loose: bool = False) -> clauses.Outcome:
    return clauses.compare(clauses.publics(old, clauses.Names(names, is_loose)), clauses.publics(new, clauses.Names("", is_loose)))


class Reading(unittest.TestCase):
    def test_functions_have_their_owner_and_clauses(self) -> None:
        found = {it.name: it for it in rattle.functions_of(SOURCE)}
        self.assertEqual(list(found), ["from", "count", "own", "put", "inner"])
        self.assertEqual([it.owner for it in found.values()], ["From for Fault", "Table", "Table", "Sink", ""])
        self.assertEqual([it.name for it in found.values() if it.is_public], ["count", "put"])
        self.assertEqual([head for head, _ in found["count"].clauses], ["requires room", "ensures"])
        self.assertEqual(found["count"].clauses[1][1], ["result", "≡", "tree_of", "self", ".", "now"])
        self.assertEqual(found["count"].body_lines, 2)

    def test_the_length_of_an_array_does_not_end_a_signature(self) -> None:
        found = rattle.functions_of("pub fn put(row: [u8; 4]) -> u8\n    ensures { result < 4 }\n{\n}\n")
        self.assertEqual(found[0].clauses, [("ensures", ["result", "<", "4"])])

    def test_imports_are_full_paths(self) -> None:
        found = rattle.imports_of(SOURCE)
        self.assertEqual(found["tree_of"], "Rattle.model.specs.Trees.tree")
        self.assertEqual(found["value"], "Rattle.model.specs.Values")
        self.assertNotIn("◌≡◌", found)

    def test_quotes_and_lifetimes_are_no_braces(self) -> None:
        found = [it.text for it in rattle.tokens_of("""'{' 'a b'\\'' "}\\"" x' // {""")]
        self.assertEqual(found, ["'{'", "'a", "b'\\''", '"}\\""', "x'"])


class Comparing(unittest.TestCase):
    def test_the_same_source_has_no_difference(self) -> None:
        outcome = compared(texts(model=SOURCE), texts(model=SOURCE))
        self.assertFalse(outcome.differs())
        self.assertEqual(outcome.same, 2)

    def test_layout_comments_and_other_imported_names_do_not_count(self) -> None:
        other = SOURCE.replace("tree as tree_of", "tree").replace("tree_of self", "tree\n            self").replace("// a comment", "")
        self.assertFalse(compared(texts(model=SOURCE), texts(model=other)).differs())

    def test_a_changed_clause_is_printed(self) -> None:
        outcome = compared(texts(model=SOURCE), texts(model=SOURCE.replace("< 8", "< 9")))
        self.assertEqual([(a.name, b.name) for a, b in outcome.changed], [("count", "count")])
        lines = clauses.report(outcome).splitlines()
        self.assertIn("  - requires room { Rattle.model.specs.Trees.size self < 8 }", lines)
        self.assertIn("  + requires room { Rattle.model.specs.Trees.size self < 9 }", lines)

    def test_a_lost_clause_is_a_difference(self) -> None:
        other = SOURCE.replace("        requires room { size self < 8 }\n", "")
        self.assertEqual(len(compared(texts(model=SOURCE), texts(model=other)).changed), 1)

    def test_gone_and_new_functions_are_listed(self) -> None:
        outcome = compared(texts(model=SOURCE), texts(model=SOURCE.replace("fn count", "fn length")))
        self.assertEqual([it.title() for it in outcome.gone], ["model::Table::count"])
        self.assertEqual([it.title() for it in outcome.new], ["model::Table::length"])

    def test_renamings_reach_crates_paths_and_names(self) -> None:
        new = SOURCE.replace("Rattle.model", "Rattle.tables").replace("fn count", "fn length").replace("specs.Values", "specs.Words")
        names = "model tables  # a crate\ncount length\nRattle.model.specs.Values Rattle.tables.specs.Words\n"
        self.assertFalse(compared(texts(model=SOURCE), texts(tables=new), names).differs())
        self.assertTrue(compared(texts(model=SOURCE), texts(tables=new), "model tables").differs())

    def test_a_renaming_may_be_of_one_crate(self) -> None:
        new = SOURCE.replace("fn count", "fn length")
        outcome = compared(texts(a=SOURCE, b=SOURCE), texts(a=new, b=SOURCE), "a::count length")
        self.assertFalse(outcome.differs())

    def test_a_function_may_move_to_another_crate(self) -> None:
        outcome = compared(texts(a=SOURCE, b=""), texts(a="", b=SOURCE))
        self.assertFalse(outcome.differs())
        self.assertEqual(len(outcome.moved), 2)

    def test_modules_of_definitions_count_unless_loose(self) -> None:
        new = SOURCE.replace("specs.Trees", "specs.Sizes")
        self.assertTrue(compared(texts(model=SOURCE), texts(model=new)).differs())
        self.assertFalse(compared(texts(model=SOURCE), texts(model=new), is_loose=True).differs())

    def test_a_renaming_has_two_words(self) -> None:
        with self.assertRaises(ValueError):
            clauses.Names("model\n")


if __name__ == "__main__":
    unittest.main()
