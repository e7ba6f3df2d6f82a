# SPDX-License-Identifier: MIT OR Apache-2.0
"""Tests of the names that the archive and the shared object of the library define."""

import gzip
import importlib.machinery
import importlib.util
import re
import shutil
import subprocess
import sys
import tempfile
import unittest
from pathlib import Path
from typing import Set

TOP = Path(__file__).resolve().parent.parent.parent
BUILT, RELEASED = TOP / "crates/kat_c/out/libkat.a", TOP / "release/libkat-x86_64-linux.a.gz"
# A program with functions for memory of its own, as a second library of the kit has. They would be called if the names of the
# library were theirs.
PROGRAM = """
#include <stdlib.h>
#include "kat.h"
void *rattle_alloc(size_t size, size_t align) { (void)size; (void)align; abort(); }
void *rattle_realloc(void *old, size_t size) { (void)old; (void)size; abort(); }
void rattle_dealloc(void *old) { (void)old; abort(); }
int main(void) {
    static const char text[] = "test b; goal equal b, b;";
    uint8_t out[4096];
    size_t needed;
    return kat_decide((const uint8_t *)text, sizeof text - 1, out, sizeof out, &needed);
}
"""


def script() -> object:
    """release/archive, which has no suffix, as a module."""
    sys.dont_write_bytecode = True
    loader = importlib.machinery.SourceFileLoader("archive", str(TOP / "release/archive"))
    module = importlib.util.module_from_spec(importlib.util.spec_from_loader("archive", loader))
    loader.exec_module(module)
    return module


def declared() -> Set[str]:
    return set(re.findall(r"^uint\d+_t (kat_\w+)\(", (TOP / "include/kat.h").read_text(), re.MULTILINE))


class Names(unittest.TestCase):
    def setUp(self) -> None:
        self.script = script()
        room = tempfile.TemporaryDirectory()
        self.addCleanup(room.cleanup)
        self.room = Path(room.name)

    def test_a_name_is_changed_once_and_keeps_its_length(self) -> None:
        member = b"..\0rattle_alloc\0other\0rattle_allocate\0"
        self.assertEqual(self.script.with_own_names(member), b"..\0kat_rt_alloc\0other\0rattle_allocate\0")
        with self.assertRaises(ValueError):
            self.script.with_own_names(b"\0rattle_alloc\0" * 2)

    def test_what_is_no_archive_is_refused(self) -> None:
        for text in (b"", b"!<arch>\n", b"\x7fELF" + bytes(100)):
            with self.assertRaises(ValueError):
                self.script.defined_names(text)

    def test_shared_object_shows_the_calls_of_the_header(self) -> None:
        ran = subprocess.run([TOP / "release/share", self.room / "libkat.so.0"], capture_output=True, text=True)
        if ran.returncode == 3:
            self.skipTest(ran.stderr.strip())
        self.assertEqual((ran.returncode, ran.stderr), (0, ""))
        if not shutil.which("nm"):
            self.skipTest("there is no nm")
        listed = subprocess.run(["nm", "-D", "--defined-only", self.room / "libkat.so.0"], capture_output=True, text=True, check=True)
        self.assertEqual({it.split()[2] for it in listed.stdout.splitlines()}, declared())

    def test_another_library_of_the_kit_can_be_linked_beside_it(self) -> None:
        compiler = shutil.which("cc") or shutil.which("gcc") or shutil.which("clang")
        if not compiler:
            self.skipTest("there is no C compiler")
        (self.room / "program.c").write_text(PROGRAM)
        archive = self.own_archive()
        words = [compiler, f"-I{TOP}/include", "-o", "program", "program.c", archive]
        subprocess.run(words, cwd=self.room, check=True)
        self.assertEqual(subprocess.run([self.room / "program"]).returncode, 0)
        self.assertEqual(set(self.script.defined_names(archive.read_bytes())) - declared(),
                         {"kat_rt_alloc", "kat_rt_realloc", "kat_rt_dealloc"})

    def own_archive(self) -> Path:
        """An archive with the own names: that which is there, or one that is made of its members where it is of an older
        release."""
        if not BUILT.is_file() and not RELEASED.is_file():
            self.skipTest("there is no archive of the library")
        found = self.room / "found.a"
        found.write_bytes(BUILT.read_bytes() if BUILT.is_file() else gzip.decompress(RELEASED.read_bytes()))
        if not self.script.foreign_names(found.read_bytes()):
            return found
        if not shutil.which("ar"):
            self.skipTest("there is no ar")
        subprocess.run(["ar", "x", found], cwd=self.room, check=True)
        members = sorted(self.room.glob("*.o"))
        for member in members:
            member.write_bytes(self.script.with_own_names(member.read_bytes()))
        subprocess.run(["ar", "rcs", "own.a", *[it.name for it in members]], cwd=self.room, check=True)
        return self.room / "own.a"


if __name__ == "__main__":
    unittest.main()
