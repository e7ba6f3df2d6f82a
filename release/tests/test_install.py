# SPDX-License-Identifier: MIT OR Apache-2.0
"""Tests of release/install: what it writes below a folder whose name has spaces and quotes, whether that works, and whether
it removes exactly that. Where no program fits the sources this skips itself: installing would then build one."""

import os
import re
import shlex
import shutil
import subprocess
import tempfile
import unittest
from pathlib import Path
from typing import Dict, List, Optional, Set

TOP = Path(__file__).resolve().parent.parent.parent
LISTED = "libexec/kat/installed"
PROGRAM = {"bin/kat", "libexec/kat/kat", "libexec/kat/help.txt", "libexec/kat/KIT", "share/man/man1/kat.1", "share/man/man5/kat.5",
           "share/bash-completion/completions/kat", "share/zsh/site-functions/_kat", "share/fish/vendor_completions.d/kat.fish",
           "share/doc/kat/README.md", "share/doc/kat/language.md", LISTED}
LIBRARY = {"lib/libkat.a", "include/kat.h", "include/kat.hpp", "lib/pkgconfig/kat.pc", "lib/cmake/kat/katConfig.cmake",
           "lib/cmake/kat/katConfigVersion.cmake"}
# A project of two programs, one linked with the shared object and one with the archive, that wants a version of the library.
PROJECT = """
cmake_minimum_required(VERSION 3.13)
project(rewritings C)
find_package(kat ${{kat_WANTED}} REQUIRED)
add_executable(rewritings "{source}")
target_link_libraries(rewritings PRIVATE kat::kat)
add_executable(rewritings_static "{source}")
target_link_libraries(rewritings_static PRIVATE kat::kat_static)
"""


def has_program() -> bool:
    """Whether the script kat runs a program without building one: it cannot build without rt."""
    path = os.pathsep.join(it for it in os.environ["PATH"].split(os.pathsep) if not Path(it, "rt").exists())
    ran = subprocess.run([TOP / "kat", "--program"], capture_output=True, env={**os.environ, "PATH": path})
    return ran.returncode == 0


def installed(folder: Path) -> Set[str]:
    return {str(it.relative_to(folder)) for it in folder.rglob("*") if not it.is_dir()}


@unittest.skipUnless(has_program(), "no program fits the sources")
class Install(unittest.TestCase):
    def setUp(self) -> None:
        room = tempfile.TemporaryDirectory()
        self.addCleanup(room.cleanup)
        self.folder = Path(room.name) / "it's a $folder"

    def call(self, *words: str, environment: Optional[Dict[str, str]] = None) -> subprocess.CompletedProcess:
        # Another folder, so that the words are those of a user somewhere.
        return subprocess.run([TOP / "release/install", *words], cwd=self.folder.parent, capture_output=True, text=True,
                              env={**os.environ, **(environment or {})})

    def install(self, *words: str) -> None:
        ran = self.call(*words, str(self.folder))
        if "the library is left out" in ran.stderr:
            self.skipTest("there is no archive of these sources")
        self.assertEqual((ran.returncode, ran.stderr), (0, ""), ran.stdout)

    def test_program_works_and_is_removed(self) -> None:
        self.install()
        self.assertLessEqual(PROGRAM, installed(self.folder))
        self.assertFalse(LIBRARY & installed(self.folder))
        ran = subprocess.run([self.folder / "bin/kat", "decide", TOP / "examples/holds/twice.kat"], capture_output=True)
        self.assertEqual((ran.returncode, ran.stdout), (0, (TOP / "examples/holds/twice.out").read_bytes()))
        self.assertEqual(self.call("--remove", str(self.folder)).returncode, 0)
        self.assertFalse(self.folder.exists())

    def test_files_of_others_stay(self) -> None:
        own = self.folder / "share/man/own page"
        own.parent.mkdir(parents=True)
        own.write_text("own")
        (self.folder / "lib").mkdir()
        self.install("--library")
        # A second call without the library keeps what the first wrote in the list.
        self.install()
        listed = (self.folder / LISTED).read_text().splitlines()
        self.assertEqual(len(set(listed)), len(listed))
        self.assertEqual({it for it in listed if not it.endswith("/")} | {LISTED, "share/man/own page"}, installed(self.folder))
        self.assertEqual(self.call("--remove", str(self.folder)).returncode, 0)
        self.assertEqual(sorted(self.folder.rglob("*")), sorted([self.folder / "lib", self.folder / "share", own.parent, own]))

    def test_nothing_is_removed_without_a_list(self) -> None:
        self.folder.mkdir()
        self.assertEqual(self.call("--remove", str(self.folder)).returncode, 1)
        for words in (["--other"], ["one", "two"], ["--remove", "--library"]):
            self.assertEqual(self.call(*words).returncode, 2)

    def test_a_relative_folder_and_the_home(self) -> None:
        self.assertEqual(self.call("relative").returncode, 0)
        self.assertLessEqual(PROGRAM, installed(self.folder.parent / "relative"))
        self.assertEqual(self.call(environment={"HOME": str(self.folder)}).returncode, 0)
        self.assertLessEqual(PROGRAM, installed(self.folder / ".local"))

    def flags(self, *words: str) -> List[str]:
        environment = {**os.environ, "PKG_CONFIG_PATH": str(self.folder / "lib/pkgconfig")}
        ran = subprocess.run(["pkg-config", *words, "kat"], env=environment, capture_output=True, text=True, check=True)
        return shlex.split(ran.stdout)

    def test_library_is_found_by_pkg_config(self) -> None:
        compiler = shutil.which("cc")
        if not compiler or not shutil.which("pkg-config"):
            self.skipTest("there is no cc, or no pkg-config")
        # pkg-config escapes spaces and not quotation marks.
        self.folder = self.folder.with_name("a folder")
        self.install("--library")
        self.assertLessEqual(LIBRARY | {"lib/libkat.so", "lib/libkat.so.0"}, installed(self.folder))
        version = re.search(r'KAT_VERSION "(.*)"', (self.folder / "include/kat.h").read_text())[1]
        self.assertEqual(self.flags("--modversion"), [version])
        words = [compiler, "-o", self.folder / "program", TOP / "examples/c/rewritings.c", *self.flags("--cflags", "--libs")]
        subprocess.run(words, check=True)
        ran = subprocess.run([self.folder / "program"], env={"LD_LIBRARY_PATH": str(self.folder / "lib")}, capture_output=True)
        self.assertEqual((ran.returncode, ran.stdout), (0, (TOP / "examples/c/rewritings.out").read_bytes()))
        # Without the folder of the library the loader does not find it: the program was linked with the shared object.
        self.assertNotEqual(subprocess.run([self.folder / "program"], env={}, capture_output=True).returncode, 0)

    def configure(self, version: str) -> "subprocess.CompletedProcess[str]":
        """Runs cmake over a project that wants a version of the library."""
        (self.folder / "project").mkdir(exist_ok=True)
        (self.folder / "project/CMakeLists.txt").write_text(PROJECT.format(source=TOP / "examples/c/rewritings.c"))
        words = ["cmake", "-S", self.folder / "project", "-B", self.folder / f"build {version}", f"-DCMAKE_PREFIX_PATH={self.folder}",
                 f"-Dkat_WANTED={version}"]
        return subprocess.run(words, capture_output=True, text=True)

    def test_library_is_found_by_cmake(self) -> None:
        if not shutil.which("cc") or not shutil.which("cmake") or not shutil.which("make"):
            self.skipTest("there is no cc, no cmake, or no make")
        self.folder = self.folder.with_name("a folder")
        self.install("--library")
        version = re.search(r'KAT_VERSION "(.*)"', (self.folder / "include/kat.h").read_text())[1]
        major = int(version.partition(".")[0])
        for wanted in (f"{major}.999.0", f"{major + 1}.0.0"):
            self.assertNotEqual(self.configure(wanted).returncode, 0, wanted)
        for wanted in ("", version, f"{major}.0"):
            ran = self.configure(wanted)
            self.assertEqual(ran.returncode, 0, ran.stderr)
        built = self.folder / "build "
        subprocess.run(["cmake", "--build", built], stdout=subprocess.DEVNULL, check=True)
        # CMake writes the folder of the shared object into a program of the folder where it was built.
        for name in ("rewritings", "rewritings_static"):
            ran = subprocess.run([built / name], env={}, capture_output=True)
            self.assertEqual((ran.returncode, ran.stdout), (0, (TOP / "examples/c/rewritings.out").read_bytes()))
        (self.folder / "lib/libkat.so.0").rename(self.folder / "moved")
        self.assertNotEqual(subprocess.run([built / "rewritings"], env={}, capture_output=True).returncode, 0)
        self.assertEqual(subprocess.run([built / "rewritings_static"], env={}, capture_output=True).returncode, 0)
        # Where there is no shared object, the archive takes its place.
        self.assertEqual(self.configure("").returncode, 0)
        subprocess.run(["cmake", "--build", built], stdout=subprocess.DEVNULL, check=True)
        self.assertEqual(subprocess.run([built / "rewritings"], env={}, capture_output=True).returncode, 0)

    def test_without_a_linker_the_shared_object_is_left_out(self) -> None:
        tools = self.folder / "tools"
        tools.mkdir(parents=True)
        for name in "sh awk cat chmod cp cut dirname find grep gzip ln mkdir mktemp mv readlink rm rmdir sed sha256sum sort touch uname".split():
            (tools / name).symlink_to(shutil.which(name))
        ran = self.call("--library", str(self.folder / "in"), environment={"PATH": str(tools), "CC": ""})
        if "the library is left out" in ran.stderr:
            self.skipTest("there is no archive of these sources")
        self.assertEqual((ran.returncode, ran.stderr), (0, ""))
        self.assertIn("left out lib/libkat.so.0, since there is neither a C compiler nor the Rattle kit", ran.stdout)
        self.assertLessEqual(LIBRARY, installed(self.folder / "in"))


if __name__ == "__main__":
    unittest.main()
