"""Tests of each construct that the reader knows: its text runs as the IR does, and what is refused."""

import math
import unittest

from comparing import EXAMPLES, compare, small  # first, since it says where the modules are
import effects
import folding
import pairs
from ir import Unread
from interpreter import RELATIONS
from layouts import Layout
from module import Module, renamed
from operations import ORDERED, SYMMETRIC
from values import Options

X86 = "e-m:e-p270:32:32-p271:32:32-p272:64:64-i64:64-f80:128-n8:16:32:64-S128"
# Functions under other data layouts: pointers of 32 and of 16 bits, and the greatest byte first.
POINTERS = """target datalayout = "{layout}"
%s = type {{ i8, i64, ptr, double }}
@t = external global [9 x i16]
define i64 @f(ptr %p, i64 %i, i32 %x) {{
  %a = getelementptr %s, ptr %p, i64 %i, i32 2
  %q = load ptr, ptr %a
  %b = getelementptr [3 x i16], ptr %q, i32 %x, i8 -1
  %n = ptrtoint ptr %b to i64
  %c = icmp ult ptr %b, getelementptr ([9 x i16], ptr @t, i32 0, i32 4)
  %d = inttoptr i64 %i to ptr
  store ptr %d, ptr %b
  %m = ptrtoint ptr %d to i8
  %w = zext i8 %m to i64
  %r = select i1 %c, i64 %n, i64 %w
  ret i64 %r
}}
"""
INTEGERS = "add sub mul and or xor shl lshr ashr udiv sdiv urem srem".split()


class Constructs(unittest.TestCase):
    def test_runs(self):
        """Each construct runs as its text does, on both sides, with and without the ends of runs at calls; a right pass changes
        no result."""
        for options in Options(), Options(returns_only=True):
            before, after = pairs.modules(*((EXAMPLES / f"constructs/{name}.ll").read_text() for name in ("before", "after")))
            for name in before.texts:
                _, text = next(pairs.tries(before, after, name, options))
                self.assertEqual(0, compare(self, before, after, name, text, range(8), options)[1], name)

    def test_pointers(self):
        for layout in ("E-p:32:32", "e-p:16:16-i64:16-f64:32", "E-p:32:32:32:32-i64:32-a:8"):
            module = Module(POINTERS.format(layout=layout))
            _, text = next(pairs.tries(module, module, "f"))
            self.assertGreater(compare(self, module, module, "f", text, range(12))[0], 0)

    def test_folding(self):
        """Operations of two constants of each width run as IR does, where LLVM defines them."""
        for size in (5, 8, 24, 64):
            for left, right in ((0, 0), (3, 2), (2 ** size - 1, 3), (2 ** (size - 1), 2 ** size - 1), (9, 2 ** size - 2)):
                for op in INTEGERS:
                    found = folding.binary(op, left, right, size)
                    text = f"%a = {op} i{size} {left}, {right}\nret i{size} %a"
                    printed = next(pairs.tries(*[small(text, f"define i{size} @f()")] * 2, "f"))[1]
                    self.assertEqual(found is not None, f"return {found};" in printed, text)

    def test_comparisons_of_floating_point(self):
        """Each comparison is the one of fewer that it is read as, for numbers and not numbers."""
        values = [0.0, -0.0, 1.5, -3.0, math.inf, math.nan]
        for word in RELATIONS:
            for left in values:
                for right in values:
                    sign = "?" if math.isnan(left) or math.isnan(right) else "<" if left < right else ">" if left > right else "="
                    read, exchanged, denied = ORDERED.get(word, (word, False, False))
                    other = {"<": ">", ">": "<"}.get(sign, sign) if exchanged else sign
                    self.assertEqual(sign in RELATIONS[word], (other in RELATIONS[read]) != denied, word)
        self.assertEqual({"oeq", "one", "ord"}, SYMMETRIC)

    def test_comparisons_of_bits(self):
        for word in "eq ne ult ule ugt uge slt sle sgt sge".split():
            body = f"%c = icmp {word} i1 %a, %b\n%s = add i1 %c, %b\n%p = mul i1 %s, %a\n%r = xor i1 %p, %c\nret i1 %r"
            module = small(body, "define i1 @f(i1 %a, i1 %b)")
            _, text = next(pairs.tries(module, module, "f"))
            compare(self, module, module, "f", text, range(12))

    def test_odd_widths(self):
        """Operations, comparisons and conversions of widths that no sort has."""
        for size in (3, 7, 13, 24, 33, 63):
            for op in INTEGERS:
                for word in ("slt", "ult", "sge", "eq"):
                    body = (f"%a = {op} i{size} %x, %y\n%c = icmp {word} i{size} %a, %y\n%z = zext i{size} %a to i64\n"
                            f"%s = sext i{size} %a to i64\n%t = trunc i64 %z to i{size}\n%u = icmp ne i{size} %t, %a\n"
                            f"%e = or i1 %c, %u\n%r = select i1 %e, i64 %z, i64 %s\nret i64 %r")
                    module = small(body, f"define i64 @f(i{size} %x, i{size} %y)")
                    _, text = next(pairs.tries(module, module, "f"))
                    compare(self, module, module, "f", text, range(2))

    def test_local_memory(self):
        """Local memory has a memory of its own unless its address goes elsewhere; then it is part of memory."""
        head = "define i32 @f(i64 %i, ptr %g)"
        for use, is_own in (("", True), ("store ptr %p, ptr %g", False), ("call i32 @g(i32 0) [ \"deopt\"(ptr %p) ]", False),
                            ("%c = icmp eq ptr %p, %g", False), ("%n = ptrtoint ptr %p to i64", False), ("store volatile i32 1, ptr %p", False),
                            ("%s = select i1 true, ptr %p, ptr %g", False), ("%s = select i1 true, ptr %p, ptr %a", True),
                            ("%s = getelementptr i8, ptr %p, i64 %i\nstore i8 2, ptr %s", True)):
            body = (f"%a = alloca [4 x i32]\n%p = getelementptr [4 x i32], ptr %a, i64 0, i64 %i\nstore i32 7, ptr %p\n{use}\n"
                    "%v = load i32, ptr %a\n%w = load i32, ptr %g\n%r = add i32 %v, %w\nret i32 %r")
            module = small(body, head)
            _, text = next(pairs.tries(module, module, "f"))
            self.assertEqual(is_own, "alloca" not in text, use)
            compare(self, module, module, "f", text, range(6))

    def test_gaps(self):
        """A structure in memory is its fields only where no byte belongs to none."""
        for type, is_read in (("{ i32, i32 }", True), ("{ i8, i32 }", False), ("<{ i8, i32 }>", True), ("{ i1, i8 }", False),
                              ("[3 x { i16, i16 }]", True), ("[2 x { i16, i8 }]", False), ("{ i64, i24 }", False)):
            body = f"%a = load {type}, ptr %p\nstore {type} %a, ptr %q\n%b = load i8, ptr %q\nret i8 %b"
            module = Module(f'target datalayout = "{X86}"\n' + "define i8 @f(ptr %p, ptr %q) {\n" + body + "\n}\n")
            if is_read:
                _, text = next(pairs.tries(module, module, "f"))
                compare(self, module, module, "f", text, range(6))
            else:
                self.assertRaises(Unread, lambda: next(pairs.tries(module, module, "f")))


class Layouts(unittest.TestCase):
    def measure(self, text, type):
        module = Module(f'target datalayout = "{text}"\n%t = type {type}\n')
        return module.measure(("named", "t"))

    def test_sizes(self):
        """Sizes, alignments and offsets that the C compilers of these targets give."""
        self.assertEqual((16, 8, [0, 8]), self.measure(X86, "{ i8, i64 }"))
        self.assertEqual((9, 1, [0, 1]), self.measure(X86, "<{ i8, i64 }>"))
        self.assertEqual((32, 16, [0, 16]), self.measure(X86, "{ i8, x86_fp80 }"))
        self.assertEqual((12, 4, [0, 4]), self.measure("e-m:e-p:32:32-f64:32:64-f80:32-n8:16:32-S128", "{ i8, double }"))
        self.assertEqual((16, 4, [0, 4]), self.measure("e-m:e-p:32:32-f64:32:64-f80:32-n8:16:32-S128", "{ i8, x86_fp80 }"))
        self.assertEqual((8, 4, [0, 4]), self.measure("e-m:e-p:32:32-f64:32:64", "{ i8, ptr }"))
        self.assertEqual((4, 2, [0, 2]), self.measure("e-m:e-p:16:16-i32:16-i64:16-f32:16-f64:16-a:8-n8:16-S16", "{ i8, ptr }"))
        self.assertEqual((8, 4, [0, 4]), self.measure(X86, "{ i8, i24 }"))
        self.assertEqual((32, 16, [0, 16]), self.measure(X86, "{ i8, <3 x i32> }"))
        self.assertEqual((12, 4, [0, 4]), self.measure("", "{ i32, i64 }"))
        self.assertEqual((64, 32), (Layout("p:64:64-p5:32:32").pointer(0)[0], Layout("p:64:64-p5:32:32").pointer(5)[0]))

    def test_layouts_that_differ(self):
        self.assertRaises(Unread, pairs.modules, f'target datalayout = "{X86}"\n', 'target datalayout = "e-p:32:32"\n')


class Names(unittest.TestCase):
    def test_unnamed_globals(self):
        """A global without a name has one by its content; one of several with one content has none."""
        first = '@0 = private constant [2 x i8] c"a\\00"\n@1 = private unnamed_addr constant ptr @0, align 8\nuse @0 @1 "@1"\n'
        second = '@0 = private constant ptr @1\n@1 = private unnamed_addr constant [2 x i8] c"a\\00", align 1\nuse @1 @0 "@1"\n'
        self.assertEqual(renamed(first).split("use")[1], renamed(second).split("use")[1])
        self.assertEqual(2, len(set(renamed(first).split("use")[1].split()[:2])))
        self.assertIn("use @0", renamed("@0 = global i32 0\n@1 = global i32 0\nuse @0\n"))
        self.assertIn("use @0", renamed("@0 = global ptr @1\n@1 = global ptr @0\nuse @0\n"))

    def test_calls_that_return(self):
        def ends(line, words, head="define void @f(ptr %p, i32 %x)"):
            module = Module(f"declare i32 @k(i32) #7\ndeclare void @llvm.memset.p0.i64(ptr, i8, i64, i1)\nattributes #7 = {{ {words} }}\n"
                            f"attributes #8 = {{ convergent }}\n{head} {{\n{line}\nret void\n}}\n")
            return "_left(" in next(pairs.tries(module, module, "f"))[1]
        self.assertTrue(ends("call i32 @k(i32 %x)", "nounwind"))
        self.assertTrue(ends("call i32 @k(i32 %x)", "willreturn"))
        self.assertFalse(ends("call i32 @k(i32 %x)", "willreturn nounwind"))
        self.assertTrue(ends("load volatile i32, ptr %p", "x"))
        self.assertTrue(ends("fence seq_cst", "x"))
        self.assertFalse(ends("call void @llvm.memset.p0.i64(ptr %p, i8 0, i64 4, i1 false)", "x"))
        self.assertTrue(ends("call void @llvm.memset.p0.i64(ptr %p, i8 0, i64 4, i1 true)", "x"))
        for words, site, effect in (("nounwind willreturn readnone", set(), "none"), ("nounwind willreturn readnone convergent", set(), "writes"),
                                    ("nounwind willreturn readnone", {"convergent"}, "writes"), ("readnone", {"bundle"}, "writes")):
            self.assertEqual(effect, effects.effect(words, site))


class Syntax(unittest.TestCase):
    def test_newer_texts(self):
        """What LLVM 15 to 19 print: attributes, flags, splats and debug records."""
        body = """    #dbg_value(i32 %x, !12, !DIExpression(), !15)
  %a = getelementptr inbounds nuw i8, ptr %p, i64 4
  %b = call noundef range(i32 0, 5) i32 @k(ptr noundef nonnull align 4 dereferenceable(8) initializes((0, 4)) captures(none) dead_on_return %a)
  %c = trunc nuw nsw i32 %b to i8
  %d = zext nneg i8 %c to i32
  %e = or disjoint i32 %d, %x
  %f = icmp samesign ult i32 %e, 7
  %v = add <4 x i32> %w, splat (i32 3)
  %g = extractelement <4 x i32> %v, i64 0
  %h = select i1 %f, i32 %g, i32 %e, !prof !3
  br i1 %f, label %s, label %t, !prof !4
s:
  ret i32 %h
t:
  %u = load i32, ptr getelementptr inbounds nuw (i8, ptr @z, i64 8), align 8, !tbaa !5
  ret i32 %u"""
        module = Module("@z = external global [4 x i32]\ndeclare i32 @k(ptr)\n"
                        "define dso_local noundef range(i32 0, 9) i32 @f(i32 noundef %x, ptr initializes((0, 4), (8, 12)) %p, <4 x i32> %w)"
                        " local_unnamed_addr #0 !dbg !7 {\n" + body + "\n}\n")
        _, text = next(pairs.tries(module, module, "f"))
        self.assertGreater(compare(self, module, module, "f", text, range(12))[0], 0)

    def test_headings(self):
        """What a heading says beside the type, the name and the parameters makes no function a changed one."""
        first, second = pairs.modules("define i32 @f(i32 %x) {\nret i32 %x\n}\n",
                                      "define internal fastcc noundef i32 @f(i32 returned %x) unnamed_addr #3 section \".text\" {\nret i32 %x\n}\n")
        self.assertEqual([], pairs.changed(first, second))


if __name__ == "__main__":
    unittest.main()
