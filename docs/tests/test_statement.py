# SPDX-License-Identifier: MIT OR Apache-2.0
"""Tests of what docs/statement.py and docs/definitions.py read from sources."""

import sys
import tempfile
import unittest
from pathlib import Path

sys.path.insert(0, str(Path(__file__).resolve().parent.parent))
import definitions
import statement

SPECS = """-- Trees and their sizes.
use Rattle.std.specs.Prelude.{ℕ, List as Row}

-- ---- Sizes

-- the size of a tree
pub data Tree : Type where
    Leaf : Tree
    Node : Tree → Tree → Tree

abbrev pub size : Tree → ℕ
size Leaf = 0

-- a tree with
-- one node
unfoldable pub IsSmall : Tree → Type
IsSmall t = size t ≡ 1
"""
CODE = """/// Doc.
pub fn decide(text: &[u8]) -> Result<u8, NoMemory>
    requires room { length text < 8 }
    ensures plain { IfOk result (λ r. { r ≡ 0 }) }
    ensures { true }
{
    other { }
}
"""


class Statement(unittest.TestCase):
    def test_imports_have_the_module_and_the_name_there(self) -> None:
        prelude = "Rattle.std.specs.Prelude"
        self.assertEqual(statement.imports(SPECS), {"ℕ": (prelude, "ℕ"), "Row": (prelude, "List")})

    def test_words_leave_out_comments_and_texts(self) -> None:
        self.assertEqual(statement.words('-- a comment\nf (x, "g") ≡ y')[::2], ["f", "x", "≡", "y"])

    def test_braces_end_where_they_close(self) -> None:
        self.assertEqual(statement.braces("{a{b}c}d", 0), 7)
        with self.assertRaises(ValueError):
            statement.braces("{a{b}", 0)

    def test_clauses_are_those_that_are_named(self) -> None:
        start = CODE.index("pub fn")
        self.assertEqual(statement.clauses_of(CODE, start, ["plain"]),
                         ["pub fn decide(text: &[u8]) -> Result<u8, NoMemory>", "    ensures plain { IfOk result (λ r. { r ≡ 0 }) }"])
        self.assertEqual(len(statement.clauses_of(CODE, start, [])), 4)

    def test_definitions_are_read_with_the_comment_over_them(self) -> None:
        specs = statement.Specs.__new__(statement.Specs)
        specs.found, specs.imported = {}, {}
        module = "Rattle.model.specs.Trees"
        with tempfile.TemporaryDirectory() as room:
            path = Path(room, "Trees.antt")
            path.write_text(SPECS)
            specs.read(path, module)
        self.assertEqual(specs.found[module, "Node"].name, "Tree")
        self.assertEqual(specs.found[module, "size"].text(), "abbrev pub size : Tree → ℕ\nsize Leaf = 0")
        self.assertEqual(specs.found[module, "IsSmall"].lines[:2], ["-- a tree with", "-- one node"])
        self.assertEqual(statement.counted([specs.found[module, "IsSmall"]]), (4, 2))


class Definitions(unittest.TestCase):
    def test_a_definition_is_listed_with_its_comment(self) -> None:
        first, found = definitions.definitions(SPECS)
        self.assertEqual(first, "Trees and their sizes.")
        self.assertEqual(found, [("Tree", "the size of a tree"), ("IsSmall", "a tree with one node")])

    def test_a_page_may_name_only_what_specs_have(self) -> None:
        self.assertEqual(definitions.lost("`NoSuchDefinitionAnywhere` and `kat_model`"), ["NoSuchDefinitionAnywhere"])


if __name__ == "__main__":
    unittest.main()
