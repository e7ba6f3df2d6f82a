"""Texts of guarded Kleene algebra with tests (docs/commands.md, "gkat FILE"), as programs with places in the text."""

from .problems import Goal, Problem, ProblemReader, Side, Term, sequence, test_of
from .tokens import Condition


def read_guarded(text: str) -> Problem:
    """Reads a text that `kat gkat` accepts."""
    reader = GuardedReader(text)
    reader.read_items()
    return reader.found


class GuardedReader(ProblemReader):
    def item(self) -> None:
        if not self.takes("equal"):
            super().item()
            return
        left = self.guarded_side()
        self.take(",")
        self.found.goals.append(Goal("equal", (left, self.guarded_side())))
        self.take(";")

    def guarded_side(self) -> Side:
        start, term = self.start(), self.choice()
        return Side("", term, True, (self.since(start),))

    def choice(self) -> Term:
        first = self.steps()
        if not self.takes("+"):
            return first
        condition = self.bracketed()
        return Term("if", condition.span, (first, self.steps()), condition)

    def steps(self) -> Term:
        parts = [self.loop()]
        while self.takes("."):
            parts.append(self.loop())
        return sequence(parts)

    def loop(self) -> Term:
        body = self.step()
        if not self.takes("^"):
            return body
        condition = self.bracketed()
        return Term("while", condition.span, (body,), condition)

    def step(self) -> Term:
        if self.takes("("):
            inside = self.choice()
            self.take(")")
            return inside
        if self.peek() == "[":
            return test_of(self.bracketed())
        return super().atom()

    def bracketed(self) -> Condition:
        self.take("[")
        condition = self.condition()
        self.take("]")
        return condition
