# SPDX-License-Identifier: MIT OR Apache-2.0
"""Tests of release/refusals.awk and of its table: where a fault is, and that each hint is given for a text with that slip.
The second half runs the script kat, and is left out where no program fits the sources."""

import os
import subprocess
import tempfile
import unittest
from pathlib import Path
from typing import List

TOP = Path(__file__).resolve().parent.parent.parent
TABLE, AWK = TOP / "release/refusals.txt", TOP / "release/refusals.awk"
TERMS, PROGRAM = "test b, c; action p, q; ", "width 8; var x; prog P { "
# A text that is not one, the command that refuses it, and what the hint for it contains.
SLIPS = (("decide", TERMS + "hyp p.q = q.p;", "that actions commute cannot be said"),
         ("decide", TERMS + "goal b.p <= p.c;", "`equal`, `below`"),
         ("decide", TERMS + "hyp {b} p {c};", "`hyp triple`"),
         ("decide", "action p q;", "`,` or `;` may be missing"),
         ("decide", TERMS + "goal equal b;p, p;", "*and then*"),
         ("decide", TERMS + "term t = b;p;", "begins with a keyword"),
         ("decide", TERMS + "term t = (b.p)*!b;", "`,` or `;` may be missing"),
         ("decide", TERMS + "goal equal b <= c, 1;", "`goal below"),
         ("decide", TERMS + "term t = ~b;", "`!` negates"),
         ("decide", TERMS + "term t = p^;", "`e ^[b]`"),
         ("gkat", TERMS + "equal p^(b), p;", "`e ^[b]`"),
         ("decide", PROGRAM + "if (x = 1) { } }", "`==` compares"),
         ("decide", PROGRAM + "x := x + 1 }", "A `;` may be missing"),
         ("decide", PROGRAM + "if (x == 1) then { } }", "without `then`"),
         ("decide", PROGRAM + "x++; }", "`x := x + 1;`"),
         ("decide", PROGRAM + "if b & !c { } }", "`&&`"),
         ("decide", PROGRAM + "x := x / 2; }", "no division"),
         ("decide", "\ufefftest b;", "byte order mark"))


def hints() -> List[str]:
    return [line.split("\t")[3] for line in TABLE.read_text().splitlines() if line.startswith("hint\t")]


class Places(unittest.TestCase):
    def said(self, text: bytes, word: str, number: str, lines: str = "") -> List[str]:
        """What is printed of a text, where backslashes and blanks are part of its name."""
        with tempfile.TemporaryDirectory() as room:
            path = Path(room, "a text")
            path.write_bytes(text)
            ran = subprocess.run(["awk", "-f", AWK, TABLE, path], capture_output=True, check=True,
                                 env={"PATH": os.environ["PATH"], "LC_ALL": "C", "NAME": r"a\n file", "WORD": word, "NUMBER": number,
                                      "LINES": lines})
        return ran.stdout.decode().splitlines()

    def place(self, text: bytes, offset: int, *rest: str) -> None:
        """The place of an offset, and the token and the lines after it."""
        place, *shown = rest
        printed = self.said(text, "UnknownName", str(offset))
        self.assertEqual(printed[0].split(" This name")[0], rf"a\n file:{place}")
        self.assertEqual(printed[1:], shown)

    def test_places(self) -> None:
        self.place(b"b", 0, "1:1: UnknownName: b:", "  b", "  ^")
        self.place(b"b\n\n  cd ;\n", 5, "3:3: UnknownName: cd:", "    cd ;", "    ^")
        self.place("é := ü\n".encode(), 6, "1:6: UnknownName: ü:", "  é := ü", "       ^")
        self.place(b"\tb :=\tc\r\n", 6, "1:7: UnknownName: c:", "  \tb :=\tc", "  \t    \t^")
        self.place(b"b == c", 2, "1:3: UnknownName: ==:", "  b == c", "    ^")
        long = b"x" * 500 + b" y" + b" z" * 500
        self.assertEqual(self.said(long, "Sort", "501")[1:], ["  ..." + "x" * 59 + " y" + " z" * 46 + " ...", "  " + " " * 63 + "^"])

    def test_the_end_of_a_text(self) -> None:
        self.assertEqual(self.said(b"goal", "Syntax", "4"), [r"a\n file:1:5: Syntax: The text ends too early.", "  goal", "      ^"])
        self.assertEqual(self.said(b"goal\n", "Syntax", "5"), [r"a\n file:2:1: Syntax: The text ends too early."])
        self.assertEqual(self.said(b"", "Syntax", "0"), [r"a\n file:1:1: Syntax: The text ends too early."])

    def test_no_place(self) -> None:
        self.assertEqual(self.said(b"", "NoGoal", ""), [r"a\n file: NoGoal: No item is a goal. Add one."])
        self.assertTrue(self.said(b"x\ny\n", "NotSimple", "1")[0].startswith(r"a\n file: NotSimple: "))
        self.assertTrue(self.said(b"x\ny\n", "Line", "2", "1")[0].startswith(r"a\n file:2: Line: "))
        self.assertTrue(self.said(b"x\ny\n", "NumberTooWide", "2", "1")[0].startswith(r"a\n file:2: NumberTooWide: "))
        self.assertEqual(self.said(b"x", "Unknown", "0"), [])

    def test_too_many(self) -> None:
        names = ", ".join(f"t{k}" for k in range(49))
        self.assertIn("The 49th test", self.said(f"test {names};".encode(), "TooMany", str(5 + names.index("t48")))[0])
        self.assertIn("The 8,193rd", self.said(b"test t; hyp", "TooMany", "8")[0])
        self.assertIn("at most 16 rounds", self.said(b"test t;\nrounds 17;", "TooMany", "15")[0])
        self.assertIn("too many of these", self.said(b"fun f", "TooMany", "4")[0])

    def test_the_token_before_is_on_an_earlier_line(self) -> None:
        hint = self.said(b"hyp p = # no\n\n  # no\n  q;", "Syntax", "23")[0]
        self.assertIn("4:3: Syntax: q: ", hint)
        self.assertIn("that actions commute", hint)

    def test_rows(self) -> None:
        for line in TABLE.read_text().splitlines():
            if not line.startswith("#"):
                self.assertRegex(line, "^(?:(?:place|line|other|many)\t\\w+\t[^\t]+|hint\t\\w+\t[^\t]+\t[^\t]+)$")


def has_program() -> bool:
    """Whether the script kat runs a program without building one: it cannot build without rt."""
    path = os.pathsep.join(it for it in os.environ["PATH"].split(os.pathsep) if not Path(it, "rt").exists())
    return subprocess.run([TOP / "kat", "--program"], capture_output=True, env={**os.environ, "PATH": path}).returncode == 0


@unittest.skipUnless(has_program(), "no program fits the sources")
class Hints(unittest.TestCase):
    def call(self, text: str, *words: str) -> subprocess.CompletedProcess:
        return subprocess.run([TOP / "kat", *words], input=text.encode(), capture_output=True, cwd=TOP)

    def test_each_hint_is_given(self) -> None:
        given = set()
        for command, text, expected in SLIPS:
            with self.subTest(text):
                ran = self.call(text, command, "-")
                said = ran.stderr.decode()
                self.assertEqual(ran.returncode, 2)
                self.assertRegex(ran.stdout.decode(), r"^refused: \w+ \d+\n$")
                self.assertRegex(said, r"^-:1:\d+: \w+: ")
                self.assertIn(expected, said)
                given.update(it for it in hints() if it in said)
        self.assertEqual(given, set(hints()))

    def test_the_second_text(self) -> None:
        for command, problem, text, expected in (
                ("check", "fails/unkept.kat", "kat 1 different\nA x\n", "-:2: Line: "),
                ("outline", "outlines/counters-in-step.kat", "kat 1 outline\nnone\n", "-:2: Line: "),
                ("chain", "fails/unkept.kat", "b;\nc", "-:1:2: Syntax: ;: ")):
            with self.subTest(command):
                ran = self.call(text, command, f"examples/{problem}", "-")
                self.assertRegex(ran.stdout.decode(), r"^refused: (evidence|outline|chain) \w+ \d+\n$")
                self.assertIn(expected, ran.stderr.decode())

    def test_the_words_of_both_texts(self) -> None:
        ran = self.call("", "check", "-", "examples/fails/unkept.evidence")
        self.assertEqual((ran.returncode, ran.stdout, ran.stderr), (2, b"refused: NoGoal\n", b"-: NoGoal: No item is a goal. Add one.\n"))


if __name__ == "__main__":
    unittest.main()
