"""Tests of the command `validate` with stubs for `kat` and `opt`."""

import json
import os
import shutil
import subprocess
import tempfile
import time
import unittest
from pathlib import Path

from comparing import HERE  # first, since it says where the modules are
import steps
from prover import operations, reason

LONG = "long/" * 60
TEXT = f"""define i32 @"{LONG}"(i32 %x, i32 %y) {{
%a = CODE
ret i32 %a
}}
define i32 @other(i32 %x) {{
%b = call i32 @"{LONG}"(i32 %x, i32 1)
ret i32 %b
}}
"""


class Validate(unittest.TestCase):
    def setUp(self):
        self.room = tempfile.TemporaryDirectory()
        self.folder = Path(self.room.name)
        for name, code in (("same", "add nsw i32 %x, %y"), ("equal", "add i32 %x, %y"), ("wrong", "sub i32 %x, %y"),
                           ("hard", "add i32 %y, %x"),
                           ("unread", "catchpad within none []")):
            (self.folder / f"{name}.ll").write_text(TEXT.replace("CODE", code))

    def tearDown(self):
        self.room.cleanup()

    def run_it(self, *words, kat="kat_stub"):
        """The status and what is printed; names of files are in the folder."""
        words = [self.folder / word if str(word).endswith(".ll") or word == "" else word for word in words]
        tools = ["--kat", HERE / kat, "--opt", HERE / "opt_stub"]
        ended = subprocess.run([HERE.parent / "validate", *tools, *words], stdout=subprocess.PIPE, stderr=subprocess.PIPE, text=True)
        return ended.returncode, ended.stdout

    def test_two_files(self):
        """The table, the sums and the statuses, one function at a time and two at once."""
        for after, status, sums in (("same", 0, "changed 0: equal 0, differs 0, not proved 0, not read 0"),
                                    ("equal", 0, "changed 1: equal 1, differs 0, not proved 0, not read 0"),
                                    ("hard", 1, "changed 1: equal 0, differs 0, not proved 1, not read 0"),
                                    ("wrong", 3, "changed 1: equal 0, differs 1, not proved 0, not read 0"),
                                    ("unread", 2, "changed 1: equal 0, differs 0, not proved 0, not read 1")):
            found, printed = self.run_it("same.ll", f"{after}.ll", *["-j", "2"] * (after == "hard"))
            self.assertEqual((status, sums), (found, printed.splitlines()[-1]), printed)
            self.assertNotIn("0 x < y", printed)
        self.assertIn("    0 x < y", self.run_it("same.ll", "hard.ll", "--explain")[1])
        self.assertRegex(self.run_it("same.ll", "wrong.ll")[1], r"(?m)^    state:   %x = \d+, %y = \d+\n    before:  returns \d+\n    after:   returns \d+$")
        self.assertIn("catchpad: %a = catchpad within none [] (", self.run_it("same.ll", "unread.ll")[1])
        self.assertIn("unread.ll line 2)", self.run_it("same.ll", "unread.ll")[1])

    def test_json(self):
        status, printed = self.run_it("same.ll", "hard.ll", "--json")
        [found] = json.loads(printed)
        self.assertEqual((1, LONG, "not proved", "the same operations on both sides; refused: TooManyActions"),
                         (status, found["function"], found["answer"], found["why"]))

    def test_pass(self):
        self.assertEqual(3, self.run_it("same.ll", "--pass", "wrong")[0])
        self.assertEqual(0, self.run_it("same.ll", "--pass", "nothing")[0])

    def test_pipeline(self):
        """Each step is a question; the first one that is not proved is named, and each pass has a line."""
        status, printed = self.run_it("", "--pipeline", "some")
        self.assertEqual(3, status)
        self.assertEqual(1, printed.count("step 2, WrongPass: differs: returns "), printed)
        self.assertRegex(printed, r"(?m)^DropPass +1 +1 +0 +0 +0 ")
        self.assertRegex(printed, r"(?m)^WrongPass +1 +0 +1 +0 +0 ")
        self.assertEqual(2, self.run_it("same.ll", "--pipeline", "broken")[0])

    def test_cache(self):
        """An answer is remembered by the text of both sides; what is new is asked."""
        cache, kat = ["--cache", self.folder / "cache"], self.folder / "kat"
        shutil.copy(HERE / "kat_stub", kat)
        for after in ("wrong.ll", "hard.ll", "equal.ll"):
            self.run_it("same.ll", after, *cache, kat=kat)
        self.assertEqual(3, len(list((self.folder / "cache").iterdir())))
        kat.unlink()
        status, printed = self.run_it("same.ll", "hard.ll", *cache, kat=kat)
        self.assertEqual((1, True), (status, "the same operations on both sides" in printed))
        status, printed = self.run_it("same.ll", "wrong.ll", *cache, kat=kat)
        self.assertEqual((3, True), (status, "    state:" in printed))

    def test_timeout(self):
        slow = self.folder / "slow"
        slow.write_text("#!/bin/sh\nexec sleep 100\n")
        os.chmod(slow, 0o755)
        start = time.monotonic()
        status, printed = self.run_it("same.ll", "equal.ll", "--timeout", "0.5", kat=slow)
        self.assertEqual((1, True), (status, "no answer in 0.5 s" in printed), printed)
        self.assertLess(time.monotonic() - start, 90)

    def test_words(self):
        for words in (["same.ll"], ["same.ll", "wrong.ll", "--pass", "x", "--pipeline", "y"], ["same.ll", "none.ll"]):
            self.assertEqual(2, self.run_it(*words)[0])


class Parts(unittest.TestCase):
    def test_reduced(self):
        """Only what is declared of other functions is kept."""
        text = "@a = global i32 0\ndefine internal i32 @f(i32 %x) #3 {\n  ret i32 %x\n}\n\ndefine void @g() {\n  ret void\n}\n"
        self.assertEqual("@a = global i32 0\ndeclare internal i32 @f(i32 %x) #3\n\ndefine void @g() {\n  ret void\n}\n",
                         steps.reduced(text, "g"))
        self.assertEqual(["g"], [job.function for job in steps.jobs(text, text.replace("ret void", "unreachable"), "x")])
        self.assertEqual(["f", "g"], [job.function for job in steps.jobs(text + "%t = type i8\n", text + "%t = type i9\n", "x")])

    def test_reasons(self):
        text = "graph before {\n  block a { x := and_8(y, u8(z)); return x; }\n}\ngraph after {\n  block a { return slt(x, 1); }\n}\n"
        self.assertEqual("only before: and_8", operations(text))
        self.assertEqual("refused: TooLarge", reason({"refused: TooLarge 9": ""}, text))


if __name__ == "__main__":
    unittest.main()
