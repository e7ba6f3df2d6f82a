"""Tests of runs with the true meaning: operations, memory, calls, and what differs."""

import unittest

from comparing import ATTRIBUTES, DECLARED  # first, since it says where the modules are
import differences
import library
import pairs
import promises
import scalars
from module import Module
from scalars import POISON, UNDEFINED, Undefined

X86 = 'target datalayout = "e-m:e-p270:32:32-p271:32:32-p272:64:64-i64:64-f80:128-n8:16:32:64-S128"\n'
HEAD = "define i32 @f(i32 %x, i32 %y, ptr %p, ptr %q)"


def sides(before: str, after: str, heads: str = "", head: str = HEAD) -> tuple:
    texts = [f"{X86}{DECLARED}{heads}{head} {{\n{body}\n}}\n{ATTRIBUTES}" for body in (before, after)]
    return pairs.modules(*texts)


class Differences(unittest.TestCase):
    def why(self, before: str, after: str, heads: str = "", head: str = HEAD, defined: frozenset = frozenset()) -> str:
        """What differs, or nothing."""
        found = differences.found(*sides(before, after, heads, head), "f", defined=defined)
        return found.why if found else ""

    def test_values(self):
        """Right changes of operations do not differ, wrong ones do."""
        for before, after, differs in (
                ("%a = and i32 %x, 7\n%b = shl i32 %a, 3", "%a = shl i32 %x, 3\n%b = and i32 %a, 56", False),
                ("%a = and i32 %x, 7\n%b = shl i32 %a, 3", "%a = shl i32 %x, 3\n%b = and i32 %a, 48", True),
                ("%a = sub i32 8, %x\n%b = and i32 %a, 7", "%a = sub i32 0, %x\n%b = and i32 %a, 7", False),
                ("%b = udiv i32 %x, 8", "%b = lshr i32 %x, 3", False), ("%b = sdiv i32 %x, 8", "%b = ashr i32 %x, 3", True),
                ("%a = sext i32 %x to i64\n%b = trunc i64 %a to i32", "%b = freeze i32 %x", False),
                ("%b = add nsw i32 %x, %y", "%b = add i32 %y, %x", False), ("%b = add i32 %x, %y", "%b = add nsw i32 %x, %y", True),
                ("%b = or i32 %x, %y", "%b = add i32 %x, %y", True), ("%b = or disjoint i32 %x, %y", "%b = add i32 %x, %y", False)):
            self.assertEqual(differs, self.why(f"{before}\nret i32 %b", f"{after}\nret i32 %b") != "", after)

    def test_undefined_behaviour(self):
        """A run with undefined behaviour on the first side shows nothing; one on the second side alone differs."""
        divided, plain = "%a = udiv i32 %x, %y\nret i32 %x", "ret i32 %x"
        self.assertEqual("", self.why(divided, plain))
        self.assertIn("after has undefined behaviour: udiv", self.why(plain, divided))
        self.assertEqual("", self.why("%a = shl i32 %x, 32\nret i32 %a", "ret i32 3"))
        self.assertEqual("", self.why("%a = add i32 undef, 1\nret i32 %a", "ret i32 3"))
        self.assertEqual("", self.why(plain, "%a = add i32 undef, 1\nret i32 %a"))
        self.assertEqual("", self.why("unreachable", "ret i32 3"))
        loaded, stored = "%a = load i32, ptr %p\nret i32 %x", "store i32 0, ptr null\nret i32 %x"
        self.assertEqual("", self.why(stored, plain))
        self.assertIn("where nothing is", self.why(plain, stored))
        self.assertIn("undefined behaviour", self.why(plain, loaded))

    def test_memory(self):
        """Bytes are bytes: parts of a store, copies, and what two stores leave."""
        twice = "store i32 %x, ptr %p\nstore i16 7, ptr %p\n"
        self.assertEqual("", self.why(f"{twice}%a = load i32, ptr %p\nret i32 %a", f"{twice}%a = and i32 %x, -65536\n%b = or i32 %a, 7\nret i32 %b"))
        self.assertIn("returns", self.why(f"{twice}%a = load i32, ptr %p\nret i32 %a", f"{twice}ret i32 %x"))
        self.assertIn("other memory", self.why(f"{twice}ret i32 0", "store i32 %x, ptr %p\nret i32 0"))
        self.assertEqual("", self.why(f"store i32 3, ptr %p\n{twice}ret i32 0", f"{twice}ret i32 0"))
        kept = "store i32 %x, ptr %p\nstore i32 %y, ptr %q\n"
        self.assertIn("returns", self.why(f"{kept}%a = load i32, ptr %p\nret i32 %a", f"{kept}ret i32 %x"))
        apart = "define i32 @f(i32 %x, i32 %y, ptr noalias %p, ptr noalias %q)"
        self.assertEqual("", self.why(f"{kept}%a = load i32, ptr %p\nret i32 %a", f"{kept}ret i32 %x", head=apart))
        copy = "declare void @llvm.memcpy.p0.p0.i64(ptr, ptr, i64, i1)\n"
        self.assertEqual("", self.why("call void @llvm.memcpy.p0.p0.i64(ptr align 4 %p, ptr align 4 %q, i64 4, i1 false)\nret i32 0",
                                      "%a = load i32, ptr %q, align 4\nstore i32 %a, ptr %p, align 4\nret i32 0", copy))

    def test_locals(self):
        """Local memory is no one else's until a call is given its address."""
        made = "%l = alloca i32\nstore i32 %x, ptr %l\n"
        self.assertEqual("", self.why(f"{made}%a = load i32, ptr %l\nret i32 %a", "ret i32 %x"))
        self.assertEqual("", self.why("%l = alloca i32\n%a = load i32, ptr %l\nret i32 %a", "ret i32 5"))
        given = f"{made}call void @take(ptr %l)\n"
        take = "declare void @take(ptr)\n"
        self.assertEqual("", self.why(f"%k = alloca i64\n{given}ret i32 1", f"{given}ret i32 1", take))
        self.assertIn("returns", self.why(f"{given}%a = load i32, ptr %l\nret i32 %a", f"{given}ret i32 %x", take))
        self.assertIn("local memory", self.why(f"{given}ret i32 1", f"{given.replace('%x', '%y')}ret i32 1", take))
        self.assertEqual("", self.why(f"{given}%a = load i32, ptr %l\nret i32 %a", f"{given}ret i32 %x", "declare void @take(ptr nocapture readonly)\n"))

    def test_calls(self):
        """The calls of a run are compared one by one, those before undefined behaviour too, if the call may not return."""
        call = "%a = call i32 @g(i32 %x)\n"
        self.assertEqual("", self.why(f"{call}ret i32 %a", f"{call}%b = add i32 %a, 0\nret i32 %b"))
        self.assertIn("calls g(", self.why(f"{call}ret i32 0", "ret i32 0"))
        self.assertIn("after calls g(", self.why("ret i32 0", f"{call}ret i32 0"))
        self.assertIn("calls g(", self.why(f"{call}unreachable", f"{call.replace('%x', '%y')}unreachable"))
        self.assertEqual("", self.why(f"{call}ret i32 0", "ret i32 0", defined=frozenset(["g"])))
        self.assertEqual("", self.why("%a = call i32 @h(i32 %x)\nret i32 0", "ret i32 0"))
        self.assertEqual("", self.why("%a = call i64 @strlen(ptr %p)\nret i32 0", "ret i32 0", "declare i64 @strlen(ptr)\n"))
        self.assertIn("load volatile", self.why("%a = load volatile i32, ptr %p\nret i32 0", "ret i32 0"))

    def test_globals(self):
        """What a module says of a constant is its content."""
        heads = "@t = internal constant [3 x i16] [i16 4, i16 5, i16 6]\n"
        at = "%a = getelementptr [3 x i16], ptr @t, i64 0, i64 1\n%b = load i16, ptr %a\n%c = zext i16 %b to i32\nret i32 %c"
        self.assertEqual("", self.why(at, "ret i32 5", heads))
        self.assertIn("returns 5, after 6", self.why(at, "ret i32 6", heads))

    def test_promises(self):
        """A run that breaks what attributes or metadata promise shows nothing."""
        self.assertEqual("", self.why("%a = icmp eq ptr %p, null\n%b = zext i1 %a to i32\nret i32 %b", "ret i32 0",
                                      head="define i32 @f(i32 %x, i32 %y, ptr nonnull %p, ptr %q)"))
        load = "%a = load i8, ptr %p, !range !0\n"
        self.assertEqual("", self.why(f"{load}%b = zext i8 %a to i32\nret i32 %b", f"{load}%c = and i8 %a, 1\n%b = zext i8 %c to i32\nret i32 %b",
                                      "!0 = !{i8 0, i8 2}\n"))
        self.assertTrue(promises.value_holds("i32 range(i32 -2, 3)", 2 ** 32 - 1, 32))
        self.assertFalse(promises.value_holds("i32 range(i32 -2, 3)", 3, 32))
        self.assertEqual(("declare i32 ", ("ptr nocapture align(8)", "i32"), " #3"), promises.parts("declare i32 @f(ptr nocapture align(8), i32) #3"))

    def test_what_is_not_known(self):
        """A construct that is not interpreted shows nothing, and ends nothing."""
        for body in ("%a = insertelement <vscale x 4 x i32> undef, i32 %x, i32 0\n%b = extractelement <vscale x 4 x i32> %a, i32 0",
                     "%a = sitofp i32 %x to x86_fp80\n%b = fptosi x86_fp80 %a to i32", "%b = call i32 @llvm.unknown.i32(i32 %x)",
                     "%a = fadd fast float 1.0, 2.0\n%b = fptosi float %a to i32", "%a = shufflevector <2 x i32> undef, <2 x i32> poison, <2 x i32> "
                     "<i32 0, i32 2>\n%b = extractelement <2 x i32> %a, i32 7"):
            self.assertEqual("", self.why(f"{body}\nret i32 %b", "ret i32 7"), body)
        self.assertEqual("", self.why("ret i32 1", "ret i32 2", head="define i32 @f(<vscale x 2 x i8> %v)"))

    def test_names_of_the_library(self):
        self.assertTrue(all(map(library.is_known, ("strlen", "cosf", "atan2", "malloc", "_Znwm", "__strcpy_chk", "putc_unlocked"))))
        self.assertFalse(any(map(library.is_known, ("lock", "report", "step", "weight", "cosmic"))))


class Scalars(unittest.TestCase):
    def test_flags(self):
        for op, flags, left, right, found in (("add", {"nuw"}, 255, 1, POISON), ("add", {"nsw"}, 255, 1, 0), ("add", {"nsw"}, 127, 1, POISON),
                                              ("sub", {"nuw"}, 1, 2, POISON), ("sub", {"nsw"}, 1, 2, 255), ("mul", {"nsw"}, 16, 8, POISON),
                                              ("mul", {"nuw"}, 16, 8, 128), ("shl", {"nuw"}, 64, 1, 128), ("shl", {"nsw"}, 64, 1, POISON),
                                              ("shl", set(), 1, 8, POISON), ("lshr", {"exact"}, 6, 1, 3), ("lshr", {"exact"}, 7, 1, POISON),
                                              ("sdiv", {"exact"}, 250, 3, 254), ("udiv", {"exact"}, 250, 3, POISON)):
            self.assertEqual(found, scalars.integer(op, flags, left, right, 8), (op, flags))
        self.assertRaises(Undefined, scalars.integer, "sdiv", set(), 128, 255, 8)

    def test_floating_point(self):
        def bits(value: float) -> int:
            return scalars.encoded(value, 64)

        self.assertEqual(bits(0.3), scalars.floating("fdiv", bits(3.0), bits(10.0), 64))
        self.assertEqual(bits(-float("inf")), scalars.floating("fdiv", bits(-1.0), bits(0.0), 64))
        self.assertIs(UNDEFINED, scalars.floating("fdiv", bits(0.0), bits(0.0), 64))
        self.assertEqual(0x7f800000, scalars.converted("fptrunc", set(), bits(1e300), 64, 32))
        self.assertIs(POISON, scalars.converted("fptoui", set(), bits(-1.0), 64, 32))
        self.assertEqual(2 ** 32 - 1, scalars.converted("fptosi", set(), bits(-1.5), 64, 32))

    def test_intrinsics(self):
        for word, args, found in (("ctpop", [255], 8), ("cttz", [8, 0], 3), ("ctlz", [0, 1], POISON), ("abs", [128, 1], POISON), ("abs", [129, 1], 127),
                                  ("fshl", [1, 128, 9], 3), ("sadd.sat", [127, 1], 127), ("usub.sat", [1, 2], 0), ("smax", [255, 1], 1),
                                  ("sadd.with.overflow", [127, 1], [128, 1]), ("umul.with.overflow", [16, 16], [0, 1]), ("bitreverse", [1], 128)):
            self.assertEqual(found, scalars.intrinsic(word, args, 8), word)


if __name__ == "__main__":
    unittest.main()
