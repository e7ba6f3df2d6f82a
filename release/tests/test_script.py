# SPDX-License-Identifier: MIT OR Apache-2.0
"""Tests of the script kat, in a small tree with a program that prints its words and ends with the status that it is told."""

import gzip
import hashlib
import os
import platform
import shutil
import signal
import subprocess
import tempfile
import time
import unittest
from pathlib import Path
from typing import Dict, Optional

TOP = Path(__file__).resolve().parent.parent.parent
PROGRAM = """#!/bin/sh
[ $# -ne 0 ] || { echo "refused: words"; exit 7; }
printf '<%s>' "$@"
[ -z "${READ:-}" ] || cat "$2"
[ -z "${SLEEP:-}" ] || exec sleep "$SLEEP"
exit "${STATUS:-0}"
"""
FILE = """# prog no { skip; }
var x;prog before{ x := 1; }
prog
after { skip; } # prog neither
goal equal before, after;
"""
TOOLS = ("awk", "cat", "chmod", "cut", "dirname", "find", "gzip", "mkdir", "mktemp", "mv", "readlink", "rm", "sed", "sh", "sha256sum",
         "sort", "touch", "tr", "uname")


class Script(unittest.TestCase):
    def setUp(self) -> None:
        room = tempfile.TemporaryDirectory()
        self.addCleanup(room.cleanup)
        self.room = Path(room.name)
        self.tree = self.room / "a tree"
        for name, text in {"crates.txt": "kat:\nkat_c staticlib:\n", "HANDLES": "none\n", "crates/kat/src/main.rt": "",
                           "crates/kat/specs/Lib.antt": "", "crates/kat_c/src/lib.rt": "", "release/KIT": "kit\n"}.items():
            path = self.tree / name
            path.parent.mkdir(parents=True, exist_ok=True)
            path.write_text(text)
        for name in ("kat", "release/help.txt", "release/sources"):
            shutil.copy(TOP / name, self.tree / name)
        self.out = self.tree / "crates/kat/out"
        (self.room / "file.kat").write_text(FILE)

    def build(self) -> None:
        """Puts the program where one that was built is, newer than all sources."""
        self.out.mkdir()
        (self.out / "kat").write_text(PROGRAM)
        (self.out / "kat").chmod(0o755)
        later = time.time() + 5
        os.utime(self.out / "kat", (later, later))

    def release(self) -> None:
        """Puts a release of the program beside the sources."""
        data = PROGRAM.encode()
        sources = subprocess.run([self.tree / "release/sources"], capture_output=True, text=True, check=True).stdout.strip()
        (self.tree / "release/kat-x86_64-linux.gz").write_bytes(gzip.compress(data))
        (self.tree / "release/SHA256SUMS").write_text(f"# sources {sources}\n# program {hashlib.sha256(data).hexdigest()}\n")

    def call(self, *words: str, environment: Optional[Dict[str, str]] = None, text: str = "") -> subprocess.CompletedProcess:
        return subprocess.run([self.tree / "kat", *words], cwd=self.room, capture_output=True, text=True, input=text,
                              env={**os.environ, **(environment or {})})

    def says(self, status: int, said: str, *words: str) -> None:
        """The output and the status are the program's, and one line on standard error, the last one, is this."""
        ran = self.call(*words, environment={"STATUS": str(status)})
        self.assertEqual((ran.returncode, ran.stdout), (status, "".join(f"<{it}>" for it in words)))
        self.assertEqual(ran.stderr.splitlines()[-1:], [said] if said else [])


class Words(Script):
    def setUp(self) -> None:
        super().setUp()
        self.build()

    def test_words_and_status_are_passed_on(self) -> None:
        for status in (0, 1, 3):
            self.says(status, "", "decide", "two words", "", "*")

    def test_help_is_on_standard_error_where_it_is_not_a_command(self) -> None:
        text = (self.tree / "release/help.txt").read_text()
        for words in (["help"], ["-h"], ["help", "decide"], ["decide", "-h"]):
            ran = self.call(*words, environment={"STATUS": "7"})
            self.assertEqual((ran.returncode, ran.stderr), (7, text) if words[0] != "decide" else (7, "kat: usage: kat decide FILE [--json]\n"))
        ran = self.call()
        self.assertEqual((ran.returncode, ran.stdout, ran.stderr), (7, "refused: words\n", text))
        ran = self.call("--help")
        self.assertEqual((ran.returncode, ran.stdout, ran.stderr), (0, text, ""))

    def test_usage(self) -> None:
        self.says(7, "kat: usage: kat decide FILE [--json]", "decide")
        self.says(7, "kat: usage: kat try FILE TURNS [EVIDENCE]", "try", "file.kat", "few")
        for word in ("foo", "", "*", "--version"):
            self.says(7, f"kat: there is no command {word}; kat --help lists those that there are", word, "x")

    def test_programs_of_the_file_are_named(self) -> None:
        self.says(7, "kat: file.kat has no program befor; its programs: before after", "run", "file.kat", "befor", "zero", "1")
        self.says(7, "kat: file.kat has no program no; its programs: before after", "oneloop", "file.kat", "no")
        self.says(7, "kat: STORE or TURNS does not fit file.kat, or after has named tests or actions", "run", "file.kat", "after", "y=1", "1")
        self.says(7, "kat: after has named tests or actions", "oneloop", "file.kat", "after")
        self.says(7, "kat: --turns N does not fit", "optimise", "file.kat", "after", "--turns", "x")
        (self.room / "file.kat").write_text("goal equal 1, 1;")
        self.says(7, "kat: file.kat has no program", "optimise", "file.kat", "p")
        self.says(7, "kat: usage: kat oneloop FILE PROG", "oneloop", "nofile", "p")

    def test_a_file_that_cannot_be_read_is_named(self) -> None:
        self.says(4, "kat: there is no file nofile", "decide", "nofile")
        self.says(4, "kat: there is no file nofile", "check", "file.kat", "nofile")
        self.says(4, "kat: there is no file nofile", "try", "file.kat", "5", "nofile")
        self.says(4, "kat: a tree is a folder", "show", "a tree")
        self.says(4, "kat: a file could not be read", "show", "file.kat")

    def test_failed_output_and_memory(self) -> None:
        self.says(5, "kat: the output could not be written", "show", "file.kat")
        self.says(6, "kat: out of memory", "show", "file.kat")

    def test_standard_input(self) -> None:
        folder = self.room / "temporary"
        folder.mkdir()
        ran = self.call("check", "-", "-", environment={"READ": "1", "TMPDIR": str(folder)}, text="the text")
        self.assertRegex(ran.stdout, rf"^<check><{folder}/kat-input-\w+><->the text$")
        self.assertEqual((ran.returncode, ran.stderr, list(folder.iterdir())), (0, "", []))
        self.assertIn("own text", self.call("show", "/dev/stdin", environment={"READ": "1"}, text="own text").stdout)

    def test_a_signal_ends_the_program_too(self) -> None:
        numbers = (signal.SIGTERM, signal.SIGINT, signal.SIGHUP)

        # A shell cannot catch a signal that was ignored when it began, as some are where the tests run in the background.
        def take_signals() -> None:
            for number in numbers:
                signal.signal(number, signal.SIG_DFL)

        for number in numbers:
            began = time.monotonic()
            with subprocess.Popen([self.tree / "kat", "decide"], stdout=subprocess.PIPE, env={**os.environ, "SLEEP": "60"},
                                  preexec_fn=take_signals) as started:
                # The program has begun once it prints. It holds the pipe as long as it runs.
                self.assertEqual(started.stdout.read(1), b"<")
                started.send_signal(number)
                started.stdout.read()
            self.assertEqual(started.returncode, -number)
            self.assertLess(time.monotonic() - began, 30)


@unittest.skipUnless((platform.system(), platform.machine()) == ("Linux", "x86_64"), "the release is for x86-64 Linux")
class Release(Script):
    def setUp(self) -> None:
        super().setUp()
        self.release()

    def path_without(self, left_out: str) -> str:
        folder = self.room / f"without-{left_out}"
        folder.mkdir()
        for tool in TOOLS:
            if tool != left_out:
                (folder / tool).symlink_to(shutil.which(tool))
        return str(folder)

    def test_the_release_is_unpacked(self) -> None:
        ran = self.call("show", "x", environment={"PATH": self.path_without("none")})
        self.assertEqual((ran.returncode, ran.stdout, ran.stderr), (0, "<show><x>", ""))
        self.assertTrue((self.out / "release/kat").exists())

    def test_a_missing_tool_is_named(self) -> None:
        for tool in ("awk", "find", "gzip", "sed", "sha256sum"):
            ran = self.call("show", "x", environment={"PATH": self.path_without(tool)})
            self.assertEqual((ran.returncode, ran.stdout, ran.stderr), (70, "", f"kat: this needs the tool {tool}, which is not on the PATH\n"))

    def test_a_tree_that_cannot_be_written_to_has_its_program_in_the_cache(self) -> None:
        # A file in place of the folder: tests may run as root, who may write to each folder.
        self.out.write_text("")
        cache = self.room / "a cache"
        for environment in ({"XDG_CACHE_HOME": str(cache)}, {"XDG_CACHE_HOME": "", "HOME": str(cache)}):
            ran = self.call("show", "x", environment=environment)
            self.assertEqual((ran.returncode, ran.stdout, ran.stderr), (0, "<show><x>", ""))
        self.assertEqual(len(list(cache.glob("kat/*/release/kat"))), 1)
        self.assertEqual(len(list(cache.glob(".cache/kat/*/release/kat"))), 1)
        self.assertEqual([it for it in cache.rglob("*") if "stamp" in it.name], [])
        # Other sources are found to be others.
        (self.tree / "crates/kat/src/main.rt").write_text("other")
        ran = self.call("show", "x", environment={"XDG_CACHE_HOME": str(cache), "PATH": self.path_without("none")})
        self.assertEqual(ran.returncode, 70)
        self.assertIn("kat: no program fits the sources", ran.stderr)

    def test_no_place_can_be_written_to(self) -> None:
        self.out.write_text("")
        (self.room / "full").write_text("")
        ran = self.call("show", "x", environment={"XDG_CACHE_HOME": str(self.room / "full")})
        self.assertEqual(ran.returncode, 70)
        self.assertRegex(ran.stderr, "^kat: the program is unpacked or built in .*/crates/kat/out, or else in .*/full/kat, and neither can be written to\n$")


if __name__ == "__main__":
    unittest.main()
