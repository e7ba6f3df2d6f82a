# SPDX-License-Identifier: MIT OR Apache-2.0
"""Tests that the files at the top name one version and one licence."""

import re
import unittest
from pathlib import Path

TOP = Path(__file__).resolve().parent.parent.parent


def read(name: str) -> str:
    return (TOP / name).read_text()


class Repository(unittest.TestCase):
    def test_the_citation_has_the_version_of_the_changes(self) -> None:
        newest = re.search(r"(?m)^## (\d[\d.]*)", read("CHANGELOG.md"))
        self.assertIsNotNone(newest)
        self.assertIn(f"\nversion: {newest[1]}\n", read("CITATION.cff"))

    def test_the_licence_is_named_by_its_identifiers(self) -> None:
        first = read("LICENSE").splitlines()[0]
        self.assertEqual(first, "SPDX-License-Identifier: MIT OR Apache-2.0")
        for name in re.findall(r"MIT|Apache-2\.0", first):
            self.assertIn(f"https://spdx.org/licenses/{name}.html", read("LICENSE"))


if __name__ == "__main__":
    unittest.main()
