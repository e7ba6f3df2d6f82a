"""Problem files, flow files, normal forms and listings."""

import unittest

from report.flows import live_variables, places_of, read_flow
from report.forms import Comparison, Sorts, comparison_of, comparison_text, form_of, form_text
from report.guarded import read_guarded
from report.listing import Mark, is_crowded, lines_of, listing
from report.prover import Refusal, read_replay, refusal_of
from report.problems import read_problem
from refusal_table import SENTENCES
from report.refusals import Fault, fault_of
from report.tokens import Reader, Span, Unreadable

FLOW = """var u32 x; var u8 c; fun u32 f(u32);
graph g {
  block entry { x := f(x); goto head; }
  block head { if c == 0 goto body else last; }
  block body { x := x + 1; if slt(x, 9) goto head else last; }
  block last { return x; }
}
equal g, g;
"""
SORTS = Sorts({"x": 32, "y": 32, "c": 8, "m": 0}, {"f": ((32,), 32), "load": ((0, 32), 8)}, True)


def compared(words: str) -> tuple[object, bool]:
    return comparison_of(Reader(words).condition(), {}, SORTS)


class Problems(unittest.TestCase):
    def test_sides_are_named_and_placed(self) -> None:
        text = "test b; action p;\nterm loop = (b.p)*.!b;\nprog P { if b { p; } }\ngoal equal loop, b.loop + !b;"
        sides = read_problem(text).goals[0].sides
        self.assertEqual([side.name for side in sides], ["loop", ""])
        self.assertEqual([text[slice(*span)] for span in sides[1].code], ["term loop = (b.p)*.!b;", "b.loop + !b"])

    def test_statements_keep_their_places(self) -> None:
        text = "var x; prog P { while x < 3 { x := x + 1; } } goal equal P, P;"
        loop = read_problem(text).programs["P"][0]
        self.assertEqual(text[slice(*loop.span)], "x < 3")
        self.assertEqual(text[slice(*loop.parts[0].span)], "x := x + 1")

    def test_a_triple_has_conditions(self) -> None:
        goal = read_problem("var x; prog P { x := 1; } goal triple {x == 0} P {x == 1};").goals[0]
        self.assertEqual((goal.kind, goal.sides[0].name, goal.sides[0].is_program), ("triple", "P", True))

    def test_what_the_program_refuses_is_unreadable(self) -> None:
        for text in ("goal equal b;", "test b; goal equal b ? b;", "test b; goal"):
            with self.assertRaises(Unreadable):
                read_problem(text)


class Guarded(unittest.TestCase):
    def test_choices_and_loops_are_those_of_programs(self) -> None:
        text = "test b, c; action p, q;\nequal (p . q^[c])^[!b] +[b || c] 0, [b].1;"
        left, right = read_guarded(text).goals[0].sides
        self.assertEqual([text[slice(*side.code[0])] for side in (left, right)], ["(p . q^[c])^[!b] +[b || c] 0", "[b].1"])
        loop, zero = left.term.parts
        self.assertEqual((left.term.kind, loop.kind, loop.parts[0].kind, zero.kind), ("if", "while", ".", "0"))
        self.assertEqual([text[slice(*term.span)] for term in (left.term, loop, loop.parts[0].parts[1])], ["b || c", "!b", "c"])
        self.assertEqual([part.kind for part in right.term.parts], ["test", "1"])

    def test_second_operators_need_parentheses(self) -> None:
        for expression in ("p +[b] p +[b] p", "p^[b]^[b]", "p + p", "p*"):
            with self.assertRaises(Unreadable):
                read_guarded(f"test b; action p; equal {expression}, p;")


class Flows(unittest.TestCase):
    def test_targets_of_back_edges_are_places(self) -> None:
        self.assertEqual(places_of(read_flow(FLOW).graphs["g"]), {"entry", "head"})

    def test_marked_blocks_are_places(self) -> None:
        self.assertEqual(places_of(read_flow(FLOW.replace("block body", "cut block body")).graphs["g"]), {"entry", "body"})

    def test_live_variables(self) -> None:
        live = live_variables(read_flow(FLOW).graphs["g"], {"x", "c"})
        self.assertEqual((live["entry"], live["last"]), ({"x", "c"}, {"x"}))


class Forms(unittest.TestCase):
    def test_comparisons_of_one_form(self) -> None:
        for one, other in (("x + 1 == y", "y - 1 == x"), ("x > 0", "x != 0"), ("u32(c) == 7", "c == 7"), ("3 < x", "!x < 4"),
                           ("slt(x, y)", "x + 2147483648 < y + 2147483648"), ("load(m, x + 1) == 3", "3 == load(m, 1 + x)"),
                           ("s32(c) == s32(c)", "true"), ("x * (y + 1) < 5", "x + x * y < 5"), ("u8(u32(c)) == 1", "c == 1")):
            if other[0] == "!":
                found, positive = compared(other[1:])
                self.assertEqual(compared(one), (found, not positive))
            elif other == "true":
                self.assertEqual(compared(one), (True, True))
            else:
                self.assertEqual(compared(one), compared(other), one)

    def test_comparisons_of_two_forms(self) -> None:
        for one, other in (("x < y", "y < x"), ("u32(c) < x", "c < 3"), ("s32(c) == x", "u32(c) == x"), ("f(x) == 1", "f(y) == 1")):
            self.assertNotEqual(compared(one), compared(other))

    def test_an_impossible_number_is_decided(self) -> None:
        self.assertEqual(compared("x < 0"), (False, True))
        self.assertNotIsInstance(compared("s32(c) == 300")[0], bool)

    def test_printing(self) -> None:
        for words, wanted in (("x - 1", "x - 1"), ("4294967295", "4294967295"), ("0 - x + y", "y - x"), ("2 * f(x - 1)", "2*f(x - 1)")):
            self.assertEqual(form_text(form_of(Reader(words).expression(), 32, {}, SORTS)), wanted)
        for words, wanted in (("slt(x, y)", "slt(x, y)"), ("sge(x, 1)", "sge(x, 1)"), ("x == y + 1", "x == y + 1"), ("slt(x, 0 - 1)", "slt(x, -1)")):
            found, positive = compared(words)
            self.assertIsInstance(found, Comparison)
            if isinstance(found, Comparison):
                self.assertEqual(comparison_text(found, positive, True), wanted)


class Listings(unittest.TestCase):
    def test_lines_as_written(self) -> None:
        text = "var x;\nprog P {\n  x := 1;\n}\ngoal equal P, P;"
        code = (Span(7, text.index("}") + 1),)
        self.assertFalse(is_crowded(text, code))
        lines = lines_of(text, code, False)
        self.assertEqual([line.number for line in lines], [2, 3, 4])

    def test_crowded_blocks_are_laid_out_anew(self) -> None:
        text = "var x; prog P { x := 1; if x < 2 { x := 3; } else { skip; } x := 2; }"
        code = (Span(7, len(text)),)
        self.assertTrue(is_crowded(text, code))
        lines = lines_of(text, code, True)
        shown = ["  " * line.depth + " ".join(text[slice(*part)] for part in line.parts) for line in lines]
        self.assertEqual(shown, ["prog P {", "  x := 1;", "  if x < 2 {", "    x := 3;", "  } else {", "    skip;", "  }", "  x := 2;", "}"])

    def test_marks_and_escapes(self) -> None:
        text = "prog P { assert x < 2 && y > 1; }"
        span = Span(9, 30)
        shown = listing(text, lines_of(text, (Span(0, len(text)),), True), [Mark(span, "0.1", 2)], "code of P", "0.end")
        self.assertIn('data-m="0.1">assert x &lt; 2 &amp;&amp; y &gt; 1<span class="badge">3</span></span>;', shown)


class Lines(unittest.TestCase):
    def test_a_fault_is_found_by_bytes(self) -> None:
        data = "# é\ntest b;\ngoal equal b ü b;\n".encode()
        fault = fault_of(data, Refusal("Syntax", data.index("ü".encode())))
        self.assertEqual(fault, Fault(3, "goal equal b ü b;", 13, 14, SENTENCES["Syntax"]))

    def test_a_fault_at_the_end(self) -> None:
        self.assertEqual(fault_of(b"test b;\ngoal", Refusal("Syntax", 12)), Fault(2, "goal", 4, 5, SENTENCES["Syntax"]))

    def test_refusals(self) -> None:
        self.assertEqual(refusal_of("refused: Syntax 31\n"), Refusal("Syntax", 31))
        self.assertEqual(refusal_of("refused: NoGoal"), Refusal("NoGoal", None))
        self.assertIsNone(refusal_of("kat 1 different"))

    def test_replay(self) -> None:
        self.assertEqual(read_replay("0 t0 !t1\na0\n1 !t0 t1\nrefutes: left relates the ends, right does not\n"),
                         ([{0: True, 1: False}, {0: False, 1: True}], [0]))


if __name__ == "__main__":
    unittest.main()
