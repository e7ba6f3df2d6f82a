# SPDX-License-Identifier: MIT OR Apache-2.0
"""Tests of release/sources, on a small tree."""

import hashlib
import shutil
import subprocess
import tempfile
import unittest
from pathlib import Path

SCRIPT = Path(__file__).resolve().parent.parent / "sources"
CRATES = """# NAME: the crates that it is built over.

# Base
model:
io:   model # and files

# Program
kat: io
kat_c staticlib: io json

# Tests
tests_kat: kat
"""
FILES = {
    "crates.txt": CRATES, "HANDLES": "none\n", "release/KIT": "kit\n", "crates/model/src/lib.rt": "a\n", "crates/model/proofs/A.antt": "b\n",
    "crates/io/specs/B.antt": "c\n", "crates/kat/src/main.rt": "d\n", "crates/kat/stdin": "e\n", "crates/kat/must-fail/f.edit": "f\n",
    "crates/kat_c/src/lib.rt": "g\n", "crates/tests_kat/src/lib.rt": "h\n",
}
LINES = ["model:", "io: model", "kat: io", "kat_c staticlib: io json"]


class Sources(unittest.TestCase):
    def setUp(self) -> None:
        room = tempfile.TemporaryDirectory()
        self.addCleanup(room.cleanup)
        self.top = Path(room.name, "a folder")
        for name, text in FILES.items():
            path = self.top / name
            path.parent.mkdir(parents=True, exist_ok=True)
            path.write_text(text)
        shutil.copy(SCRIPT, self.top / "release/sources")

    def run_script(self, *words: str) -> str:
        return subprocess.run([self.top / "release/sources", *words], stdout=subprocess.PIPE, text=True, check=True).stdout

    def test_the_list_has_the_lines_of_the_crates_and_a_checksum_of_each_file(self) -> None:
        files = ["HANDLES", "crates/io/specs/B.antt", "crates/kat/src/main.rt", "crates/kat_c/src/lib.rt", "crates/model/proofs/A.antt",
                 "crates/model/src/lib.rt", "release/KIT"]
        sums = [f"{hashlib.sha256(FILES[it].encode()).hexdigest()}  {it}" for it in files]
        self.assertEqual(self.run_script("--list").splitlines(), [*LINES, *sums])

    def test_without_words_it_prints_the_checksum_of_the_list(self) -> None:
        self.assertEqual(self.run_script().strip(), hashlib.sha256(self.run_script("--list").encode()).hexdigest())

    def test_crates_are_those_below_a_crate_and_itself(self) -> None:
        self.assertEqual(self.run_script("--crates", "kat").split(), ["io", "kat", "model"])
        self.assertEqual(self.run_script("--crates", "io kat_c").split(), ["io", "kat_c", "model"])

    def test_a_copy_has_what_a_build_reads_and_what_the_program_is_run_on(self) -> None:
        room = self.top / "copy"
        self.run_script("--copy", "kat", str(room))
        self.assertEqual((room / "crates.txt").read_text().splitlines(), LINES[:3])
        found = sorted(it.relative_to(room).as_posix() for it in room.rglob("*") if it.is_file())
        self.assertEqual(found, ["HANDLES", "crates.txt", "crates/io/specs/B.antt", "crates/kat/src/main.rt", "crates/kat/stdin",
                                 "crates/model/proofs/A.antt", "crates/model/src/lib.rt"])

    def test_other_words_are_refused(self) -> None:
        self.assertEqual(subprocess.run([self.top / "release/sources", "--other"], stderr=subprocess.DEVNULL).returncode, 2)


if __name__ == "__main__":
    unittest.main()
