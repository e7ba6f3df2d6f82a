# SPDX-License-Identifier: MIT OR Apache-2.0
"""Tests of the package: its answers, its exceptions, the types that it refuses, and where it searches the library. Those that
call the library need the variable KAT_LIBRARY, which python/tests/run sets."""

import os
import pickle
import subprocess
import sys
import tempfile
import unittest
from pathlib import Path
from unittest import mock

PYTHON = Path(__file__).resolve().parent.parent
sys.path.insert(0, str(PYTHON))
import kat  # noqa: E402
from kat import _library  # noqa: E402

EQUAL = "test b; goal equal b, b;"
DIFFERENT = "test b; goal equal b, 1;"
TRIPLE = "var x; prog P { x := 1; } goal triple {true} P {x == 1};"
LOOPS = "var x; prog P { while true { skip; } } prog Q { x := x + 1; } goal equal P, Q;"


class Arguments(unittest.TestCase):
    def test_texts_are_bytes_or_strings(self) -> None:
        for text in ("\u00e9", "\u00e9".encode(), bytearray("\u00e9".encode()), memoryview("\u00e9".encode())):
            self.assertEqual(_library.bytes_of("decide", "problem", text), b"\xc3\xa9")
        for other in (5, 5.0, None, ["a"], [1, 2], {}, object()):
            with self.assertRaisesRegex(TypeError, "^decide: problem must be str or bytes, not "):
                _library.bytes_of("decide", "problem", other)  # type: ignore[arg-type]
        with self.assertRaisesRegex(TypeError, "not PosixPath; give the text, as path.read_bytes"):
            _library.bytes_of("decide", "problem", Path("a.kat"))  # type: ignore[arg-type]

    def test_numbers_are_below_two_to_the_64(self) -> None:
        self.assertEqual(_library.number_of("try_", "turns", (1 << 64) - 1), (1 << 64) - 1)
        for number in (-1, 1 << 64):
            with self.assertRaisesRegex(OverflowError, "^try_: turns must be from 0 to"):
                _library.number_of("try_", "turns", number)
        for other in (True, "5", 5.0, None):
            with self.assertRaisesRegex(TypeError, "^try_: turns must be int, not "):
                _library.number_of("try_", "turns", other)  # type: ignore[arg-type]


class Places(unittest.TestCase):
    def test_a_name_is_for_the_loader_and_a_path_is_a_file(self) -> None:
        self.assertEqual(_library.places_of("libkat.so.0"), ["libkat.so.0"])
        self.assertEqual(_library.places_of("./libkat.so.0"), [str(Path("libkat.so.0").resolve())])
        self.assertEqual(_library.places_of(Path("libkat.so.0")), [str(Path("libkat.so.0").resolve())])
        with self.assertRaisesRegex(TypeError, "Library: the place must be str or a path, not int"):
            _library.places_of(5)  # type: ignore[arg-type]

    def test_the_variable_comes_before_the_package_and_the_loader(self) -> None:
        with mock.patch.dict(os.environ, {"KAT_LIBRARY": "/some where/libkat.so.0"}):
            self.assertEqual(_library.places_of(None), ["/some where/libkat.so.0"])
            self.assertEqual(_library.places_of("named"), ["named"])
        with mock.patch.dict(os.environ, {"KAT_LIBRARY": ""}), tempfile.TemporaryDirectory() as room:
            (Path(room) / "libkat.so").touch()
            with mock.patch.object(_library, "__file__", f"{room}/_library.py"):
                self.assertEqual(_library.places_of(None), [f"{room}/libkat.so", "libkat.so.0", "libkat.so"])

    def test_what_is_not_there_or_no_library_of_kat_is_reported(self) -> None:
        with self.assertRaisesRegex(kat.LibraryNotFound, "no library of kat: .*; a file in the current folder is ./NAME"):
            kat.Library("libnone.so.7")
        with self.assertRaises(OSError):
            kat.Library("/nowhere/libkat.so.0")
        with self.assertRaisesRegex(kat.LibraryNotFound, "has no call kat_decide"):
            kat.Library("libc.so.6")


class Refusals(unittest.TestCase):
    def test_place_is_counted_in_lines_and_characters(self) -> None:
        problem = "# caf\u00e9\ntest \u00e9, ?;".encode()
        why = kat.Refused("decide", b"refused: BadToken %d\n" % problem.index(b"?"), problem)
        self.assertEqual((why.reason, why.offset, why.place), (f"BadToken {problem.index(b'?')}", problem.index(b"?"), (2, 9)))
        self.assertEqual(str(why), f"decide: refused: BadToken {why.offset} (line 2, column 9)")

    def test_some_refusals_have_no_place(self) -> None:
        for output in (b"refused: NoGoal\n", b"refused: evidence Header\n", b"refused: NotSimple 2\n"):
            why = kat.Refused("check", output, b"test b;")
            self.assertEqual((why.offset, why.place), (None, None))

    def test_copies_are_the_same(self) -> None:
        why = pickle.loads(pickle.dumps(kat.Refused("decide", b"refused: Syntax 2\n", b"test")))
        self.assertEqual((why.call, why.output, why.problem), ("decide", b"refused: Syntax 2\n", b"test"))


@unittest.skipUnless(os.environ.get("KAT_LIBRARY"), "KAT_LIBRARY names no library")
class Calls(unittest.TestCase):
    def setUp(self) -> None:
        self.prover = kat.Library()

    def test_version_of_the_library(self) -> None:
        self.assertEqual(self.prover.version, kat.__version__)
        with mock.patch.object(self.prover, "_version", lambda: 12_345_006):
            self.assertEqual(self.prover.version, "12.345.6")

    def test_decisions_and_their_checks(self) -> None:
        for problem, holds in ((EQUAL, True), (DIFFERENT, False)):
            decision = self.prover.decide(problem)
            self.assertIs(decision.holds, holds)
            self.assertEqual(decision.text.encode(), decision.evidence)
            checked = self.prover.check(problem.encode(), decision.evidence)
            self.assertEqual((checked.accepted, checked.status), (True, decision.status))
            self.assertEqual(self.prover.decide_json(problem).evidence, decision.evidence)
        rejected = self.prover.check(EQUAL, self.prover.decide(DIFFERENT).evidence)
        self.assertEqual((rejected.accepted, rejected.status), (False, kat.Status.REJECTED))

    def test_refused_texts_raise(self) -> None:
        with self.assertRaises(kat.Refused) as caught:
            self.prover.decide("test b;\ngoal b;")
        self.assertEqual(caught.exception.place, (2, 6))
        with self.assertRaises(kat.Refused) as caught:
            self.prover.check(EQUAL, b"")
        self.assertIsNone(caught.exception.place)
        with self.assertRaises(kat.NoSuch):
            self.prover.run(LOOPS, "R", "x=1", 5)

    def test_batches_have_a_decision_for_each_goal(self) -> None:
        batch = self.prover.batch("test b; goal equal b, b; goal equal b, 1;")
        self.assertEqual([it.holds for it in batch.decisions], [True, False])
        self.assertFalse(batch.holds)
        self.assertEqual(batch.decisions[1].evidence, self.prover.decide(DIFFERENT).evidence)

    def test_trials_runs_and_outlines(self) -> None:
        self.assertTrue(self.prover.try_(LOOPS, 5).text)
        self.assertFalse(self.prover.run(LOOPS, "P", "x=1", 5).ended)
        self.assertTrue(self.prover.run(LOOPS, "Q", "x=1", 5).ended)
        outline = self.prover.outline(TRIPLE)
        self.assertTrue(outline.holds)
        self.assertTrue(self.prover.outline_check(TRIPLE, outline.output).accepted)

    def test_texts_with_a_byte_zero_keep_their_length(self) -> None:
        with self.assertRaises(kat.Refused) as caught:
            self.prover.decide(EQUAL + "\0")
        self.assertEqual(caught.exception.offset, len(EQUAL))

    def test_long_outputs_are_whole(self) -> None:
        # Each of the two terms is long, so the certificate needs more room than the first call has.
        long = "action p, q; goal equal " + " + ".join(["p.q"] * 3000) + ", p.q;"
        with mock.patch.object(_library, "FIRST_ROOM", 10):
            short_room = self.prover.decide(long)
        self.assertEqual(short_room, self.prover.decide(long))
        self.assertTrue(self.prover.check(long, short_room.evidence).accepted)

    def test_memory(self) -> None:
        with mock.patch.dict(self.prover._functions, {"decide": lambda *words: _library.NO_MEMORY}):
            with self.assertRaises(kat.OutOfMemory):
                self.prover.decide(EQUAL)
            with self.assertRaises(MemoryError):
                self.prover.decide(EQUAL)


@unittest.skipUnless(os.environ.get("KAT_LIBRARY"), "KAT_LIBRARY names no library")
class Commands(unittest.TestCase):
    def call(self, *words: str, **environment: str) -> subprocess.CompletedProcess:
        how = {**os.environ, "PYTHONPATH": str(PYTHON), "PYTHONDONTWRITEBYTECODE": "1", **environment}
        return subprocess.run([sys.executable, "-m", "kat", *words], env=how, capture_output=True)

    def test_statuses(self) -> None:
        with tempfile.TemporaryDirectory() as room:
            good, bad = Path(room, "good.kat"), Path(room, "bad.kat")
            good.write_text(DIFFERENT)
            bad.write_text("test b")
            self.assertEqual(self.call("decide", str(good)).returncode, 1)
            refused = self.call("decide", str(bad))
            self.assertEqual((refused.returncode, refused.stdout), (2, b"refused: Syntax 6\n"))
            self.assertEqual(self.call("decide", f"{room}/none.kat").returncode, 4)
            for words in ([], ["decide"], ["none", str(good)], ["try", str(good), "-1"], ["try", str(good), str(1 << 64)]):
                self.assertEqual(self.call(*words).returncode, 7, words)
            self.assertEqual(self.call("decide", str(good), KAT_LIBRARY="/nowhere/lib.so").returncode, 70)


if __name__ == "__main__":
    unittest.main()
