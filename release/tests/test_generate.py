# SPDX-License-Identifier: MIT OR Apache-2.0
"""Tests of what release/generate.py makes of a table of commands, and of the completions in the shells that are here."""

import shutil
import subprocess
import sys
import tempfile
import unittest
from pathlib import Path
from typing import List

RELEASE = Path(__file__).resolve().parent.parent
sys.path.insert(0, str(RELEASE))
import generate  # noqa: E402

TRY = generate.Command("try FILE TURNS [EVIDENCE]", "kat", "looks", "looks; each run enters at most TURNS bodies.")
PROBLEM = "prog first { } prog second { }\n# prog no { }\nprog\n  third { }\ngoal equal first, second;\n"


class Texts(unittest.TestCase):
    def test_forms_are_with_and_without_what_is_in_brackets(self) -> None:
        self.assertEqual(TRY.forms(), ["try FILE TURNS", "try FILE TURNS EVIDENCE"])
        self.assertEqual(generate.Command("flow FILE", "flow", "", "").forms(), ["flow FILE"])

    def test_kinds_are_by_place(self) -> None:
        self.assertEqual(list(TRY.kinds()), [(1, "kat"), (3, "file")])
        optimise = generate.Command("optimise FILE PROG [--turns N]", "kat", "", "")
        self.assertEqual(list(optimise.kinds()), [(1, "kat"), (2, "program"), (3, "--turns")])

    def test_words_of_roff(self) -> None:
        self.assertEqual(generate.roff_words("decide FILE [--json]", "kat"), r"\fBkat\fP \fBdecide\fP \fIFILE\fP [\fB\-\-json\fP]")
        self.assertEqual(generate.manual_entry("x N", "N after `--turns`."), ".TP\n\\fBx\\fP \\fIN\\fP\n\\fIN\\fP after \\fB\\-\\-turns\\fP.")

    def test_version_is_the_first_heading(self) -> None:
        self.assertEqual(generate.version_of("# Changes\n\n## 1.2.3\n\n## 1.2.2\n"), "1.2.3")
        for changes in ("# Changes\n", "## 1.1000.0\n", "## 1.0.1000\n"):
            with self.assertRaises(ValueError):
                generate.version_of(changes)

    def test_only_the_lines_of_the_version_change(self) -> None:
        lines = generate.VERSION_LINES["rust/Cargo.toml"]
        self.assertEqual(generate.with_version('name = "a"\nversion = "1.0.0"\n', lines, "2.0.0"), 'name = "a"\nversion = "2.0.0"\n')
        with self.assertRaises(ValueError):
            generate.with_version("none", lines, "2.0.0")

    def test_the_library_has_the_three_numbers_in_its_code_and_its_contract(self) -> None:
        name = "crates/kat_c/src/version.rt"
        text = (RELEASE.parent / name).read_text()
        changed = generate.with_version(text, generate.VERSION_LINES[name], "12.34.56").splitlines()
        self.assertIn("    ensures { result ≡ version_number 12 34 56 }", changed)
        self.assertLess({"const MAJOR: u32 = 12;", "const MINOR: u32 = 34;", "const PATCH: u32 = 56;"}, set(changed))

    def test_quotation_marks_in_descriptions_are_refused(self) -> None:
        with self.assertRaises(ValueError):
            generate.single_quoted("it's")


class Completions(unittest.TestCase):
    def setUp(self) -> None:
        room = tempfile.TemporaryDirectory()
        self.addCleanup(room.cleanup)
        self.room = Path(room.name)
        for name in ("a.kat", "with space.kat", "b.flow", "a.evidence"):
            (self.room / name).write_text(PROBLEM)

    def run_in(self, shell: str, script: str) -> List[str]:
        if not shutil.which(shell):
            self.skipTest(f"there is no {shell}")
        # The shells read no file of the user.
        quiet = {"bash": ["--norc"], "zsh": ["-f"], "fish": ["--no-config"]}[shell]
        ran = subprocess.run([shell, *quiet, "-c", script], cwd=self.room, capture_output=True, text=True, check=True)
        self.assertEqual(ran.stderr, "")
        return ran.stdout.splitlines()

    def bash(self, *words: str) -> List[str]:
        typed = " ".join(f"'{it}'" for it in words)
        return self.run_in("bash", f'. "{RELEASE}/kat.bash"; COMP_WORDS=(kat {typed}) COMP_CWORD={len(words)}; _kat; '
                                   'printf "%s\\n" "${COMPREPLY[@]}"')

    def zsh(self, *words: str) -> List[str]:
        """What the completion gives to the functions of zsh."""
        typed = " ".join(f"'{it}'" for it in words)
        stubs = "_describe() { print -l ${(P)4} }; _files() { print files $@ }; compadd() { [[ $1 == -a ]] && print -l ${(P)2} || print -- $2 }; "
        script = (RELEASE / "kat.zsh").read_text().replace('_kat "$@"', "")
        return self.run_in("zsh", f"{stubs}{script}\nwords=(kat {typed}) CURRENT={len(words) + 1}; _message() {{ }}; _kat")

    def fish(self, line: str) -> List[str]:
        found = self.run_in("fish", f'source "{RELEASE}/kat.fish"; complete -C "{line}"')
        return [it.partition("\t")[0] for it in found]

    def test_bash(self) -> None:
        self.assertEqual(self.bash("de"), ["decide"])
        self.assertIn("--version", self.bash("--"))
        self.assertEqual(sorted(self.bash("decide", "")), ["a.kat", "with space.kat"])
        self.assertEqual(self.bash("flow", ""), ["b.flow"])
        self.assertEqual(self.bash("decide", "a.kat", ""), ["--json"])
        self.assertEqual(self.bash("optimise", "a.kat", "first", "--"), ["--turns"])
        self.assertEqual(self.bash("bench", ""), [""])
        for name in ("a.kat", "with\\ space.kat"):
            self.assertEqual(self.bash("run", name, ""), ["first", "second", "third"])

    def test_zsh(self) -> None:
        self.assertIn("decide:prints a certificate (0) or a string (1)", self.zsh(""))
        self.assertEqual(self.zsh("flow", ""), ["files -g *.flow"])
        self.assertEqual(self.zsh("check", "a.kat", ""), ["files"])
        self.assertEqual(self.zsh("run", "with\\ space.kat", ""), ["first", "second", "third"])
        self.assertEqual(self.zsh("decide", "a.kat", ""), ["--json"])

    def test_fish(self) -> None:
        self.assertEqual(self.fish("kat deci"), ["decide"])
        self.assertEqual([it for it in self.fish("kat flow ") if it.endswith(".flow")], ["b.flow"])
        self.assertEqual(self.fish("kat run a.kat "), ["first", "second", "third"])
        self.assertEqual(self.fish("kat run with\\\\ space.kat "), ["first", "second", "third"])
        self.assertEqual(self.fish("kat decide a.kat --"), ["--json"])
        self.assertIn("a.evidence", self.fish("kat check a.kat "))


if __name__ == "__main__":
    unittest.main()
