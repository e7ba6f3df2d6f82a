"""Tests of the reader of LLVM IR: what is printed is a flow text that runs as the IR does, and what is refused."""

import re
import unittest

from comparing import compare, small  # first, since it says where the modules are
import flow_reader
import pairs
from ir import Unread
from ir_runner import Meaning
from module import Module, read_function
from values import Options


# A function with instructions that the examples do not have.
KINDS = """%pair = type { i8, [3 x i32], double }
@table = external global [4 x i32]
declare i1 @h(i32, i1)
define i1 @f(i32 %x, i32 %y, %pair* %p, i1 %b, double %d) {
entry:
  %s = alloca %pair, align 8
  %c = icmp slt i32 %x, %y
  %n = xor i1 %c, true
  %o = or i1 %n, %b
  %e = icmp eq i1 %o, %c
  %w = sext i1 %e to i32
  %q = select i1 %o, i32 %w, i32 %y
  %less = fcmp olt double %d, 1.000000e+00
  %sum = fadd fast double %d, -2.500000e-01
  %int = fptosi double %sum to i64
  %at = getelementptr inbounds %pair, %pair* %s, i64 0, i32 1, i32 %x
  store i32 %q, i32* %at, align 4
  %field = getelementptr %pair, %pair* %p, i32 %y, i32 2
  store double %sum, double* %field
  %num = ptrtoint i32* %at to i64
  %diff = sub nuw i64 %int, %num
  %low = trunc i64 %diff to i8
  %bit = trunc i8 %low to i1
  br i1 %less, label %left, label %right
left:
  switch i8 %low, label %end [
    i8 1, label %right
    i8 -3, label %end
    i8 47, label %off
  ]
right:
  %r = phi i1 [ %bit, %entry ], [ %e, %left ]
  %k = call i1 @h(i32 %w, i1 %r)
  %t = load i32, i32* getelementptr inbounds ([4 x i32], [4 x i32]* @table, i64 0, i64 2)
  %u = ashr i32 %t, 3
  %both = and i1 %k, %r
  %pick = select i1 %both, i1 %n, i1 %b
  %v = icmp uge i32 %u, %x
  %last = xor i1 %pick, %v
  br label %end
end:
  %z = phi i1 [ true, %left ], [ true, %left ], [ %last, %right ]
  %a = phi i32 [ %x, %left ], [ %x, %left ], [ %u, %right ]
  %i = uitofp i1 %z to double
  %j = fcmp une double %i, %sum
  %l = and i1 %j, %z
  %m = icmp sgt i32 %a, -4
  %res = or i1 %l, %m
  ret i1 %res
off:
  unreachable
}
"""


# Headings, and two bodies that return different values.
DIFFERENT = [
    ("define double @f(i8 %y) {\nBODY\nret double %d\n}",
     "%c = icmp ne i8 %y, 0\n%d = uitofp i1 %c to double", "%d = uitofp i8 %y to double"),
    ("define double @f(i32 %x, i32 %y) {\n%c = icmp slt i32 %x, %y\nBODY\nret double %d\n}",
     "%d = sitofp i1 %c to double", "%z = zext i1 %c to i8\n%d = sitofp i8 %z to double"),
    ("define i64 @f(i8 %y) {\nBODY\nret i64 %q\n}",
     "%c = icmp ne i8 %y, 0\n%p = inttoptr i1 %c to ptr\n%q = ptrtoint ptr %p to i64", "%q = zext i8 %y to i64"),
    ("declare i32 @g(ptr)\ndefine i32 @f(i8 %y) {\nBODY\n%r = call i32 @g(ptr %p)\nret i32 %r\n}",
     "%c = icmp ne i8 %y, 0\n%p = alloca i8, i1 %c", "%p = alloca i8, i8 %y"),
    ("define i32 @f(i8 %y) {\nBODY\nd:\nret i32 0\nt:\nret i32 1\n}",
     "%c = icmp ne i8 %y, 0\nswitch i1 %c, label %d [\n    i1 true, label %t\n  ]",
     "%c = icmp eq i8 %y, 1\nbr i1 %c, label %t, label %d"),
    ("define i8 @f(i32 %x, i32 %y) {\n%c = icmp slt i32 %x, %y\n%c.bit = call i8 @g(i32 %x)\ncall void @k(i1 %c)\nBODY\n}",
     "ret i8 %c.bit", "%z = zext i1 %c to i8\nret i8 %z"),
    ("define i32 @f(i32 %x) {\nBODY\nret i32 %r\n}",
     '%r = call i32 @"f tail g"(i32 %x)', '%r = call i32 @"f g"(i32 %x)'),
    ('define i32 @f(i32 %"2", i32 %0) {\n%2 = add i32 %0, 1\nBODY\n}', 'ret i32 %"2"', "ret i32 %2"),
    ("define i32 @f(ptr %s, double %d) {\n%b = bitcast double %d to i64\nBODY\nret i32 %r\n}",
     "%r = call i32 (ptr, ...) @printf(ptr %s, double %d)", "%r = call i32 (ptr, ...) @printf(ptr %s, i64 %b)"),
    ("define i32 @f(i32 %x, i32 %y) {\nBODY\n%d = uitofp i1 %c to double\n%e = fcmp oeq double %d, 0.000000e+00\n"
     "call void @llvm.assume(i1 %e)\nret i32 1\n}", "%c = icmp slt i32 %x, %y", "%c = icmp sge i32 %x, %y"),
    ("declare i32 @g(i32, ...)\ndefine i32 @f(double %d) {\n%r = call BODY(i32 0, double %d)\nret i32 %r\n}",
     "i32 (i32, ...) @g", "i32 @g"),
    ("define i32 @f(ptr %g, double %d) {\n%r = call BODY(i32 0, double %d)\nret i32 %r\n}", "i32 (i32, ...) %g", "i32 %g"),
    ("declare i8 @g()\ndefine i32 @f() {\nBODY\nbr i1 %c, label %t, label %d\nd:\nret i32 0\nt:\nret i32 1\n}",
     "%v = call i8 @g()\n%c = icmp ne i8 %v, 0", "%c = call i1 @g()"),
    ("define i32 @f(i1 %c) {\nBODY\nret i32 %r\n}",
     "%r = call i32 @g(i1 %c)", "%z = zext i1 %c to i8\n%r = call i32 @g(i8 %z)"),
    ('declare i32 @g(i32) #0\ndefine i32 @f(i32 %x) {\n%a = call i32 @g(i32 %x)\nBODY\n%c = sub i32 %a, %b\nret i32 %c\n}\n'
     'attributes #0 = { nounwind willreturn "readnone" }', "%b = call i32 @g(i32 %x)", "%b = add i32 %a, 0"),
    ('define i32 @g(i32 %"#1") {\nret i32 0\n}\ndefine i32 @f(i32 %x) {\n%a = call i32 @g(i32 %x)\nBODY\n%c = sub i32 %a, %b\n'
     "ret i32 %c\n}\nattributes #1 = { nounwind willreturn readnone }", "%b = call i32 @g(i32 %x)", "%b = add i32 %a, 0"),
    ("define i32 @f(i32, i32 %x) {\nBODY\n}", "ret i32 %x", "ret i32 %0"),
    ("define i32 @f(i32 %x) {\n%r = call i32 @g(i32 BODY\nret i32 %r\n}", '1) [ "a"(i32 %x), "b"(i32 2, i32 3) ]', '1) [ "a"(i32 %x, i32 2), "b"(i32 3) ]'),
    ("define i32 @f(i32 %x) {\n%r = call i32 @g(i32 BODY\nret i32 %r\n}", '%x) [ "a"(i32 2) ]', '%x, i32 2) [ "a"() ]'),
    ("declare void @put(i32)\ndeclare void @exit(i32) #0\ndefine void @f() {\nBODY\nunreachable\n}\nattributes #0 = { noreturn nounwind }",
     "call void @put(i32 1)\ncall void @exit(i32 1)", "call void @exit(i32 0)"),
    ("declare void @put(i32)\ndeclare void @exit(i32)\ndefine void @f(ptr %p) {\nBODY\nunreachable\n}",
     "store i32 1, ptr %p\ncall void @exit(i32 1)", "call void @exit(i32 1)\nstore i32 1, ptr %p"),
]


class Texts(unittest.TestCase):
    def test_all_kinds(self):
        """A function with many instructions runs as its text does, with each choice of cuts and each option."""
        before, after = pairs.modules(KINDS, KINDS)
        for options in Options(), Options(strict=True), Options(loads="strict"), Options(returns_only=True):
            texts = [text for _, text in pairs.tries(before, after, "f", options)]
            for text in [] if options.strict or options.loads else texts[:None if options == Options() else 1]:
                self.assertGreater(compare(self, before, after, "f", text, range(20), options)[0], 0)
            flow_reader.Reader(texts[0]).file()

    def test_functions_that_differ(self):
        """Two functions that differ have texts of which some run differs."""
        for heads, before, after in DIFFERENT:
            before, after = pairs.modules(*(heads.replace("BODY", body) for body in (before, after)))
            self.assertIn("f", pairs.changed(before, after))
            _, text = next(pairs.tries(before, after, "f"))
            self.assertTrue(any(compare(self, before, after, "f", text, [seed])[1] for seed in range(60)), text)

    def test_loops_without_end(self):
        """A loop that calls for ever, or writes volatile memory, returns in some run, where an empty one does not."""
        for head, line in (("declare void @put(i32)\n", "call void @put(i32 1)"), ("", "store volatile i32 1, ptr %p"), ("", "fence seq_cst")):
            modules = pairs.modules(*(f"{head}define void @f(ptr %p) {{\nbr label %h\nh:\n{code}\nbr label %h\n}}" for code in (line, "")))
            file = flow_reader.Reader(next(pairs.tries(*modules, "f"))[1]).file()
            sides = [[flow_reader.run(file, side, {"m": 3, "p": 8}, Meaning(seed), 500) for seed in range(9)] for side in ("before", "after")]
            self.assertEqual((True, {"more"}), (any(found != "more" for found in sides[0]), set(sides[1])))

    def text(self, before, after=None, head="define i32 @f(i32 %x, i32 %y)", **options):
        before = small(before, head)
        text = next(pairs.tries(before, small(after, head) if after else before, "f", Options(**options)))[1]
        flow_reader.Reader(text).file()
        return text

    def test_values(self):
        self.assertIn("return x + (y * 8);", self.text("%a = shl nsw i32 %y, 3\n%b = add i32 %x, %a\nret i32 %b"))
        self.assertIn("return u32(u8(x));", self.text("%a = and i32 %x, 255\nret i32 %a"))
        self.assertIn("return lshr_32(x, 2);", self.text("%a = udiv i32 %x, 4\nret i32 %a"))
        self.assertIn("if slt(x, y) goto", self.text("%c = icmp slt i32 %x, %y\n%a = zext i1 %c to i32\nret i32 %a"))
        self.assertIn("if u64(x) < 9 goto", self.text("%w = zext i32 %x to i64\n%c = icmp slt i64 %w, 9\n%a = zext i1 %c to i32\n"
                                                      "ret i32 %a"))
        self.assertIn("a, m := g_value(x, m), g_memory(x, m); return a, m;", self.text("%a = call i32 @g(i32 %x)\nret i32 %a"))
        self.assertIn("return h_value(x);", self.text("%a = call i32 @h(i32 %x)\nret i32 %a"))
        self.assertIn("return g\u02ccx\u02c820\u02c8_address();", self.text('ret i8* @"g.x "', head="define i8* @f()"))

    def test_bits(self):
        """A bit is a condition, and 0 or 1 where it is a number."""
        head = "define i1 @f(i32 %x, i8 %y)"
        self.assertIn("{ c_bit := 1; goto", self.text("%c = icmp ne i32 %x, 0\nret i1 %c", head=head))
        self.assertIn("return c_bit, m;", self.text("%c = icmp ne i8 %y, 0\nstore i1 %c, i1* null\nret i1 %c", head=head))

    def test_calls(self):
        """What a call does to memory is what its declaration says."""
        for words, effect in (("nounwind willreturn readnone", "none"), ("nounwind willreturn memory(none)", "none"),
                              ("nounwind willreturn memory(read, argmem: none)", "reads"), ("nounwind readnone", "writes"),
                              ("nounwind willreturn memory(argmem: readwrite)", "writes"),
                              ("willreturn readonly nounwind", "reads")):
            self.assertEqual(effect, Module(f"declare void @f(i8* readnone) #1\nattributes #1 = {{ {words} }}\n").effect("f"))
        self.assertEqual("writes", Module("declare void @f(i8* readnone)").effect("f"))

    def test_an_undefined_value_is_one_value(self):
        text = self.text("%a = freeze i32 undef\n%b = call i32 @g(i32 %a)\n%c = sub i32 %b, %a\nret i32 %c")
        self.assertEqual(1, len(set(re.findall(r"undef_\w+", text))))
        text = self.text("%b = call i32 @g(i32 undef)\n%c = sub i32 %b, undef\nret i32 %c")
        self.assertEqual(2, len(set(re.findall(r"undef_\w+", text))))
        name = "%undef_32__b___add_i32_undef_"
        text = self.text(f"%b = add i32 {name}, 1\nret i32 %b", "%b = add i32 undef, 1\nret i32 %b", f"define i32 @f(i32 {name})")
        self.assertEqual(2, len(set(re.findall(r"return (\w+) \+ 1;", text))))

    def test_names_are_shared_where_they_cannot_meet(self):
        body = "%a = call i32 @g(i32 %x)\n%a.i = call i32 @g(i32 {})\n%b = add i32 %a.i, {}\nret i32 %b"
        self.assertNotIn("a_", self.text(body.format("%a", "1")))
        self.assertIn("return a_ + a, m;", self.text(body.format("%a", "%a")))

    def test_jumps(self):
        text = self.text("switch i32 %x, label %d [\n    i32 1, label %e\n    i32 -1, label %u\n  ]\n"
                         "d:\n%p = phi i32 [ %y, %0 ]\nret i32 %p\ne:\nret i32 0\nu:\nunreachable")
        for part in ("{ if x == 1 goto e else v0_else; }", "block v0_else { if x == 4294967295 goto u else d; }", "{ return y; }",
                     "block u { abort; }"):
            self.assertIn(part, text)

        self.assertIn("{ return y; }", self.text("ret i32 %y\nd:\n%z = add i32 %z, 1\nbr label %d"))
        self.assertIn("{ return 3; }", self.text("switch i32 %x, label %d [\n  ]\nd:\nret i32 3"))

    def test_swapped_phis(self):
        body = ("br label %h\nh:\n%a = phi i32 [ %x, %0 ], [ %b, %l ]\n%b = phi i32 [ %y, %0 ], [ %a, %l ]\n"
                "%c = icmp ult i32 %a, %b\nbr i1 %c, label %l, label %e\nl:\nbr label %h\ne:\nret i32 %a")
        self.assertIn("a, b := b, a; goto h;", self.text(body))

    def test_addresses(self):
        head = "%s = type { i8, i32, [4 x i16] }\ndefine i16 @f(%s* %p, i32 %i)"
        body = "%a = getelementptr %s, %s* %p, i64 2, i32 2, i32 %i\n%v = load i16, i16* %a\nret i16 %v"
        self.assertIn("load_16(m, ((p + 32) + 8) + (s64(i) * 2))", self.text(body, head=head))
        self.assertIn("load_16(m, ((p + 32) + 8) + (s64(i) * 2))", self.text(body.replace("%s*", "ptr").replace("i16*", "ptr"),
                                                                   head=head.replace("%s*", "ptr")))

    def test_strict(self):
        self.assertIn("assert add_nuw_32(x, 1, x + 1) != 0;", self.text("%a = add nuw i32 %x, 1\nret i32 %a", strict=True))
        self.assertIn("assert y != 0; return udiv_32(x, y);", self.text("%a = udiv i32 %x, %y\nret i32 %a", strict=True))
        self.assertIn("assert y != 0; assert srem_fits_32(x, y) != 0;", self.text("%a = srem i32 %x, %y\nret i32 %a", strict=True))
        self.assertIn("{ return sdiv_32(x, 7); }", self.text("%a = sdiv i32 %x, 7\nret i32 %a", strict=True))
        self.assertIn("assert sdiv_fits_32(x, 4294967295) != 0;", self.text("%a = sdiv i32 %x, -1\nret i32 %a", strict=True))
        at = "getelementptr inbounds ([9 x i32], [9 x i32]* @t, i64 0, i64 1)"
        self.assertIn("{ if p == t_address() + 4", self.text(f"%c = icmp eq i32* %p, {at}\n%a = zext i1 %c to i32\nret i32 %a",
                                                             head="define i32 @f(i32* %p)", strict=True))
        text = self.text(f'%"a (b)" = getelementptr inbounds i32, i32* {at}, i64 %p\nret i32* %"a (b)"',
                         head="define i32* @f(i64 %p)", strict=True)
        self.assertEqual(2, text.count("assert getelementptr_inbounds_64(t_address() + 4, ("))
        self.assertNotIn("assert", self.text(f"%a = getelementptr i32, i32* {at}, i64 1\nret i32* %a", head="define i32* @f()",
                                             strict=True))
        load = "%a = load i32, i32* %p\nret i32 %a"
        self.assertIn("assert valid_32(m, p) != 0; a := load_32(m, p);",
                      self.text(load, head="define i32 @f(i32* %p)", loads=True))

    def test_refusals(self):
        """A refusal names the construct, the instruction and its line."""
        for line, reason in (("indirectbr i8* %p, [label %x]", "indirectbr"), ("%a = catchpad within none []", "catchpad"),
                             ("store i32 zext (i1 ptrtoint (i32* @x to i1) to i32), i32* %p", "constant zext of a bit"),
                             ("store i32 %a, i32* %p", "unknown value a"), ("ret i32 1\nret i32 2", "an instruction after the end of a block"),
                             ("%a = call i32 @20()", "an unnamed function, or one of several unnamed globals with one content"),
                             ("call void @k(i32* byval(i32) %p)", "'byval' where a value is wanted"),
                             ("%a = udiv i1 true, true\n%b = zext i1 %a to i32\nstore i32 %b, i32* %p", "udiv of bits"),
                             ("%a = call i32 @setjmp(i32* %p)", "a call that returns twice"),
                             ("%a = getelementptr i32, <2 x i32*> %p, i32 1", "getelementptr of vectors"),
                             ("%a = load { i8, i32 }, i32* %p", "a load of a structure with gaps"),
                             ("store i8* blockaddress(@f, %x), i32* %p", "constant blockaddress")):
            with self.assertRaises(Unread) as found:
                self.text(f"{line}\nret i32 0", head="define i32 @f(i32* %p)")
            lines = enumerate(line.splitlines(), 4)
            self.assertIn(str(found.exception), [f"{reason}: {part} (line {number})" for number, part in lines])

    def test_a_value_is_read_after_it_is_set(self):
        with self.assertRaises(Unread) as found:
            self.text("%c = icmp eq i32 %x, 0\nbr i1 %c, label %a, label %b\na:\n%z = call i32 @g(i32 %x)\nbr label %b\nb:\nret i32 %z")
        self.assertEqual("z is read before it is set", str(found.exception))

    def test_definitions(self):
        """A definition is refused where its lines are not those of a printed one."""
        for text in ("define i32 @f()\n{\n%a = call i32 @g(i32 1)\nret i32 0\n}", "define i32 @f(i32 %x) { ret i32 1 }",
                     "  define i32 @f(i32 %x) {\nret i32 1\n}", "define i32 @f(i32 %x) {\nret i32 1\n  }",
                     "define void @g() {\nret void\n} define i32 @f(i32 %x) {\nret i32 1\n}"):
            self.assertRaises(Unread, Module, text)
        self.assertEqual(("ptr", 0), read_function("define internal cc 10 [2 x i32]* @f() {\nret [2 x i32]* null\n").type)
        with self.assertRaises(Unread) as found:
            read_function("define i32 @f(ptr %p) { store i32 5, ptr %p\nret i32 0\n")
        self.assertIn("code in a heading", str(found.exception))


if __name__ == "__main__":
    unittest.main()
