"""Follows strings and runs sides together, and compares with what the program says of the examples."""

import unittest

from report.cases import Case, case_of, last_lines
from report.facts import used_facts
from report.problems import statement_at
from report.prover import DIFFERENT, TOP, Kat, found_program
from report.questions import facts_of
from report.runs import Knowledge, groups_of
from report.sections import section_html

EXAMPLES = TOP / "examples"
QUESTION = """test t0, t1;
action a0;
hyp (t1.(a0.[!t0])) = 0;
hyp ([!t1].(a0.t0)) = 0;
hyp (t0.t1) = 0;
goal equal 1, 1;
"""


class Facts(unittest.TestCase):
    def test_shapes(self) -> None:
        facts, unread = facts_of(QUESTION)
        self.assertEqual(([tuple(fact) for fact in facts], unread),
                         ([(((1, True),), 0, ((0, False),)), (((1, False),), 0, ((0, True),)), (((0, True), (1, True)), None, ())], 0))

    def test_knowledge(self) -> None:
        knowledge = Knowledge(facts_of(QUESTION)[0])
        self.assertEqual(knowledge.closed({0: True}), {0: True, 1: False})
        self.assertIsNone(knowledge.closed({0: True, 1: True}))
        self.assertEqual(knowledge.after({1: True}, 0), {0: True, 1: False})
        self.assertEqual(knowledge.after({}, 0), {})

    def test_two_actions_are_not_read(self) -> None:
        self.assertEqual(facts_of("action a0, a1; hyp a0.a1 = 0; hyp a0* = 0; goal equal 1, 1;"), ([], 2))


class Examples(unittest.TestCase):
    kat: Kat

    @classmethod
    def setUpClass(cls) -> None:
        cls.kat = Kat(found_program(), 60)

    def case(self, name: str) -> Case:
        return case_of(self.kat, EXAMPLES / name, 100)

    def differing(self) -> list[Case]:
        files = [*sorted(EXAMPLES.glob("fails/*.kat")), *sorted(EXAMPLES.glob("flow/*.flow"))]
        cases = [case_of(self.kat, file, 100) for file in files]
        return [case for case in cases if case.answer.status == DIFFERENT]

    def test_each_side_follows_as_far_as_the_program_says(self) -> None:
        cases = self.differing()
        self.assertGreater(len(cases), 30)
        for case in cases:
            self.assertEqual(case.notes, [], case.title)
            lines = last_lines(case)
            for side, steps in zip(case.sides, case.steps):
                self.assertTrue(steps, case.title)
                relates = f"{side.name} relates the ends" in lines[0]
                self.assertEqual(relates, steps[-1].status == "ended" and len(steps) == len(case.states), (case.title, side.name))
                for line in lines:
                    if side.term and line.startswith((f"{side.name} cannot continue at ", f"{side.name} has more to do")):
                        self.assertEqual(statement_at(side.term, line.split()[-1]), steps[-1].way.span, case.title)
                    if line.startswith(f"{side.name} cannot continue at "):
                        self.assertEqual(int(line.split()[4].rstrip(":")), len(steps) - 1, case.title)

    def test_words_are_those_of_explain(self) -> None:
        case = self.case("fails/assignment-hoisted.kat")
        first = [case.question.test_words(k, truth) for k, truth in case.states[0].items()]
        self.assertEqual("0: " + ", ".join(first), case.explained[0])

    def test_dead_branches_and_groups(self) -> None:
        case = self.case("holds/program-unswitched.kat")
        assert case.together
        words = [tuple(sorted({case.text[slice(*span)] for span in spans}) for spans in group)
                 for group in groups_of(case.together.pairs)]
        self.assertIn((["i := i + 1"], ["i := i + 1"]), words)
        self.assertEqual(len(words), 7)
        shown = section_html(case, 0)
        self.assertIn('title="no run gets here">acc := 99<', shown)
        self.assertNotIn('title="no run gets here">acc := 0<', shown)

    def test_what_a_proof_used(self) -> None:
        case = self.case("holds/loop-peeled.kat")
        used = used_facts(case.explained, case.question, case.problem_text)
        self.assertEqual(used.after, {"sum := i + sum": ["i < n", "i + 1 < n"], "i := i + 1": ["i < n"]})
        case = self.case("flow/search-loop.flow")
        used = used_facts(case.explained, case.question, case.problem_text)
        self.assertEqual((used.stated, used.after["i := 0"][0]), ([], "i < n"))

    def test_a_made_file_has_its_flow_text_and_other_ones_their_comments(self) -> None:
        made = self.case("flow/lock-forgotten.kat")
        self.assertEqual(([side.name for side in made.sides], made.sides[0].kind), (["before", "after"], "graph"))
        shown = section_html(made, 0)
        self.assertIn("an <code>assert</code> that fails", shown)

    def test_a_refused_file_has_its_place(self) -> None:
        shown = section_html(self.case("refused/missing-comma.kat"), 0)
        self.assertIn("Line 3, column 14", shown)
        self.assertIn("<mark>b</mark>", shown)
        shown = section_html(self.case("flow/missing-jump.flow"), 0)
        self.assertIn('<span class="caret">^</span>', shown)

    def test_names_of_the_goal(self) -> None:
        self.assertEqual([side.name for side in self.case("fails/loop-runs-once.kat").sides], ["loop", "right"])
        self.assertEqual(last_lines(self.case("fails/loop-runs-once.kat")), ["loop relates the ends, right does not"])


if __name__ == "__main__":
    unittest.main()
