"""Problem files: their definitions, programs as terms with places, and the goal."""

from dataclasses import dataclass, field
from typing import Callable, Container, NamedTuple, Optional

from .tokens import ALWAYS, Condition, Expression, Reader, Span, Unreadable

NOWHERE = Span(0, 0)


class Term(NamedTuple):
    """A term with the place that it is written at. The kinds are `0`, `1`, `test`, `act`, `+`, `.` and `*`; programs have
    `abort`, `skip`, `assert`, `if` and `while` too, with the condition and the blocks as parts. An `act` is the name of an
    action, or an assignment if it has a value."""

    kind: str
    span: Span = NOWHERE
    parts: tuple["Term", ...] = ()
    condition: Condition = ALWAYS
    name: str = ""
    value: Optional[Expression] = None


class Side(NamedTuple):
    """A side of the goal: the name of its program or term, if it is one, and the parts of the text that define it."""

    name: str
    term: Term
    is_program: bool
    code: tuple[Span, ...]


class Goal(NamedTuple):
    """`equal` or `below` of two sides, or a `triple` of one with its conditions."""

    kind: str
    sides: tuple[Side, ...]
    before: Condition = ALWAYS
    after: Condition = ALWAYS


@dataclass
class Problem:
    text: str
    width: int = 64
    tests: list[str] = field(default_factory=list)
    actions: list[str] = field(default_factory=list)
    variables: list[str] = field(default_factory=list)
    terms: dict[str, tuple[Term, Span]] = field(default_factory=dict)
    programs: dict[str, tuple[Term, Span]] = field(default_factory=dict)
    hypotheses: list[Term] = field(default_factory=list)
    goals: list[Goal] = field(default_factory=list)


def read_problem(text: str) -> Problem:
    """Reads a text that the program accepts."""
    reader = ProblemReader(text)
    reader.read_items()
    return reader.found


def sequence(parts: list[Term]) -> Term:
    """The product of some terms, from left to right."""
    whole = parts[0] if parts else Term("1")
    for part in parts[1:]:
        whole = Term(".", NOWHERE, (whole, part))
    return whole


class ProblemReader(Reader):
    def __init__(self, text: str) -> None:
        super().__init__(text)
        self.found = Problem(text)
        self.used: list[str] = []

    def item(self) -> None:
        start, word = self.start(), self.take()
        lists = {"test": self.found.tests, "action": self.found.actions, "var": self.found.variables}
        if word in lists:
            lists[word] += self.names()
        elif word in ("rounds", "width"):
            number = int(self.take())
            self.take(";")
            if word == "width":
                self.found.width = number
        elif word == "prog":
            name = self.name()
            self.found.programs[name] = (self.block(), self.since(start))
        elif word == "term":
            name = self.name()
            self.take("=")
            term = self.term()
            self.take(";")
            self.found.terms[name] = (term, self.since(start))
        elif word == "hyp":
            self.hypothesis()
        elif word == "goal":
            self.goal(start)
        else:
            raise Unreadable(f"an item {word!r}")

    def hypothesis(self) -> None:
        if self.takes("triple"):
            before, body, after = self.triple()
            self.found.hypotheses.append(sequence([test_of(before), body, test_of(negation(after))]))
        else:
            self.found.hypotheses.append(self.term())
            self.take("=")
            self.take("0")
        self.take(";")

    def triple(self) -> tuple[Condition, Term, Condition]:
        self.take("{")
        before = self.condition()
        self.take("}")
        body = self.term()
        self.take("{")
        after = self.condition()
        self.take("}")
        return before, body, after

    def goal(self, start: int) -> None:
        kind = self.take()
        if kind == "triple":
            self.take("{")
            before = self.condition()
            self.take("}")
            sides = (self.side(),)
            self.take("{")
            after = self.condition()
            self.take("}")
            self.found.goals.append(Goal(kind, sides, before, after))
        else:
            left = self.side()
            self.take(",")
            self.found.goals.append(Goal(kind, (left, self.side())))
        self.take(";")

    def side(self) -> Side:
        name = self.peek() if self.peek(1) in (",", ";", "{") else ""
        if name in self.found.programs:
            self.take()
            return Side(name, self.found.programs[name][0], True, self.definitions([name]))
        self.used, start = [], self.start()
        term = self.term()
        definitions = self.definitions(self.used)
        if name in self.found.terms:
            return Side(name, term, False, definitions)
        return Side("", term, False, (*definitions, self.since(start)))

    def definitions(self, names: list[str]) -> tuple[Span, ...]:
        """The places of the terms and programs that these names need, in the order of the text."""
        known = {**self.found.terms, **self.found.programs}
        needed: set[str] = set()
        left = list(names)
        while left:
            name = left.pop()
            if name not in needed:
                needed.add(name)
                left += names_in(self.found.text[slice(*known[name][1])], known)
        return tuple(sorted(known[name][1] for name in needed))

    # Terms

    def term(self) -> Term:
        return self.terms("+", lambda: self.terms(".", self.starred))

    def terms(self, sign: str, operand: Callable[[], Term]) -> Term:
        whole = operand()
        while self.takes(sign):
            whole = Term(sign, NOWHERE, (whole, operand()))
        return whole

    def starred(self) -> Term:
        inside = self.atom()
        return Term("*", NOWHERE, (inside,)) if self.takes("*") else inside

    def atom(self) -> Term:
        start = self.start()
        if self.takes("!"):
            inside = self.atom()
            return Term("test", self.since(start), (), negation(condition_of(inside), self.since(start)))
        if self.takes("("):
            inside = self.term()
            self.take(")")
            return inside
        if self.takes("["):
            condition = self.condition()
            self.take("]")
            return Term("test", self.since(start), (), condition)
        if self.kind() == "number":
            return Term(self.take(), self.since(start))
        return self.named(self.name(), self.last)

    def named(self, name: str, span: Span) -> Term:
        if name in self.found.tests:
            return Term("test", span, (), Condition("name", name, span))
        if name in self.found.actions:
            return Term("act", span, name=name)
        if name in self.found.terms:
            self.used.append(name)
            return self.found.terms[name][0]
        if name in self.found.programs:
            return self.found.programs[name][0]
        raise Unreadable(f"a name {name!r}")

    # Programs

    def block(self) -> Term:
        self.take("{")
        statements = []
        while not self.takes("}"):
            statements.append(self.statement())
        return sequence(statements)

    def statement(self) -> Term:
        start, word = self.start(), self.take()
        if word in ("skip", "abort"):
            found = Term(word, self.since(start))
            self.take(";")
        elif word == "assert":
            condition = self.condition()
            found = Term("assert", self.since(start), (), condition)
            self.take(";")
        elif word == "if":
            condition, then = self.condition(), self.block()
            found = Term("if", condition.span, (then, self.otherwise()), condition)
        elif word == "while":
            condition = self.condition()
            found = Term("while", condition.span, (self.block(),), condition)
        elif self.takes(":="):
            found = Term("act", NOWHERE, name=word, value=self.expression())._replace(span=self.since(start))
            self.take(";")
        else:
            found = self.named(word, self.last)
            self.take(";")
        return found

    def otherwise(self) -> Term:
        if not self.takes("else"):
            return Term("1")
        return self.statement() if self.peek() == "if" else self.block()


def statement_at(program: Term, path: str) -> Span:
    """The place of the statement with a path of `explain`: positions in lists, and between them which block."""
    first, *rest = (int(part) for part in path.split("."))
    statement = statements_of(program)[first]
    for block, position in zip(rest[::2], rest[1::2]):
        statement = statements_of(statement.parts[block])[position]
    return statement.span


def statements_of(term: Term) -> list[Term]:
    """The statements of a block, from left to right."""
    found, left = [], [term]
    while left:
        part = left.pop()
        if part.kind == ".":
            left += reversed(part.parts)
        elif part.kind != "1":
            found.append(part)
    return found


def names_in(text: str, known: Container[str]) -> list[str]:
    return [token.text for token in Reader(text).tokens if token.text in known]


def test_of(condition: Condition) -> Term:
    return Term("test", condition.span, (), condition)


def negation(condition: Condition, span: Optional[Span] = None) -> Condition:
    return Condition("!", "", span or condition.span, (condition,))


def condition_of(term: Term) -> Condition:
    """The condition of a term without actions and stars."""
    if term.kind == "test":
        return term.condition
    if term.kind in ("0", "1"):
        return Condition("constant", "true" if term.kind == "1" else "false", term.span)
    if term.kind in ("+", "."):
        left, right = (condition_of(part) for part in term.parts)
        return Condition("||" if term.kind == "+" else "&&", "", Span(left.span.start, right.span.end), (left, right))
    raise Unreadable("an action under `!`")
