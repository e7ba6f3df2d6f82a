"""The question over tests and actions that is decided: what its tests and actions are, and its hypotheses as facts."""

import re
from typing import Iterator, Mapping, NamedTuple, Optional, Union

from .forms import Comparison, Form, Sorts, cell_of, comparison_of, comparison_text, form_of, form_text, number, of_cell
from .forms import plus, rebuilt
from .problems import Term, condition_of, read_problem
from .tokens import Condition, Expression, Reader, Unreadable

# Which tests are true or false, by their numbers.
Known = Mapping[int, bool]
# A comparison, its truth where it is decided, or the name of a declared test.
Test = Union[Comparison, bool, str]
MOST_PRODUCTS = 64


class Action(NamedTuple):
    """The name of an action, the values that an assignment sets, or the results of a return."""

    name: str = ""
    sets: tuple[tuple[str, Form], ...] = ()
    returns: Optional[tuple[Form, ...]] = None


class Fact(NamedTuple):
    """No run has these truth values, then the action, if there is one, and then the later truth values."""

    before: tuple[tuple[int, bool], ...]
    action: Optional[int]
    after: tuple[tuple[int, bool], ...]


class Question:
    """What `show` prints of a problem, or `flow` of a flow file, read with the sorts of the text that it was made from."""

    def __init__(self, text: str, sorts: Sorts, results: tuple[int, ...] = (), said_names: Mapping[str, str] = {}) -> None:
        self.text, self.sorts, self.results, self.said = text, sorts, results, said_names
        said = dict(re.findall(r"^# ([ta]\d+) is (.*)$", text, re.M))
        self.test_texts = [said[f"t{k}"] for k in range(len(said)) if f"t{k}" in said]
        self.action_texts = [said[f"a{k}"] for k in range(len(said)) if f"a{k}" in said]
        self.tests: list[tuple[Test, bool]] = [self.read_test(words) for words in self.test_texts]
        self.actions = [self.read_action(words) for words in self.action_texts]
        self.found: dict[Test, tuple[int, bool]] = {}
        for k, (test, positive) in enumerate(self.tests):
            self.found.setdefault(test, (k, positive))
        self.facts, self.unread = facts_of(text)

    def read_test(self, words: str) -> tuple[Test, bool]:
        """A comparison in its normal form, or the name of a test."""
        try:
            condition = Reader(words).condition()
            if condition.kind == "comparison":
                return comparison_of(condition, {}, self.sorts)
        except (Unreadable, KeyError, IndexError):
            pass
        return words, True

    def read_action(self, words: str) -> Action:
        try:
            reader = Reader(words)
            if reader.takes("return"):
                values = read_list(reader) if reader.peek() else []
                return Action(returns=tuple(form_of(value, width, {}, self.sorts) for value, width in zip(values, self.results)))
            targets = [reader.name()]
            while reader.takes(","):
                targets.append(reader.name())
            reader.take(":=")
            return Action(sets=tuple((target, form_of(value, self.sorts.variables[target], {}, self.sorts))
                                     for target, value in zip(targets, read_list(reader))))
        except (Unreadable, KeyError, IndexError):
            return Action(name=words)

    # Conditions

    def decided(self, condition: Condition, values: Mapping[str, Form], known: Known) -> Iterator[tuple[Known, bool]]:
        """The truth values of a condition where this is known, each with what is known then."""
        if condition.kind == "constant":
            yield known, condition.text == "true"
        elif condition.kind == "!":
            for then, truth in self.decided(condition.parts[0], values, known):
                yield then, not truth
        elif condition.kind in ("&&", "||"):
            for then, truth in self.decided(condition.parts[0], values, known):
                if truth == (condition.kind == "||"):
                    yield then, truth
                else:
                    yield from self.decided(condition.parts[1], values, then)
        else:
            yield from self.decided_test(condition, values, known)

    def decided_test(self, condition: Condition, values: Mapping[str, Form], known: Known) -> Iterator[tuple[Known, bool]]:
        test: Test
        test, positive = condition.text, True
        if condition.kind == "comparison":
            test, positive = comparison_of(condition, values, self.sorts)
        if isinstance(test, bool):
            yield known, test == positive
        elif test not in self.found:
            yield known, True
            yield known, False
        else:
            k, as_found = self.found[test]
            for truth in (True, False):
                if known.get(k, truth) == truth:
                    then = known if k in known else {**known, k: truth}
                    yield then, (truth == as_found) == positive

    # Actions

    def action_of(self, action: Action, known: Known = {}) -> Optional[int]:
        """The number of the action that does the same where this is known; -1 if it does nothing."""
        exact = next((k for k, other in enumerate(self.actions) if same_sets(action, other)), None)
        if exact is not None or action.name:
            return exact
        cells = dict(self.numbers(known))
        reduced = self.reduced(action, cells)
        if reduced == Action():
            return -1
        return next((k for k, other in enumerate(self.actions) if reduced == self.reduced(other, cells)), None)

    def numbers(self, known: Known) -> Iterator[tuple[tuple, Form]]:
        """The cells that are a known number."""
        for k, (test, positive) in enumerate(self.tests):
            if isinstance(test, Comparison) and test.relation == "==" and known.get(k) == positive and test.left.width:
                for form in (test.left, plus(number(0, test.left.width), test.left, -1)):
                    cell = cell_of(form._replace(number=0))
                    if cell:
                        yield cell, number(-form.number, form.width)

    def reduced(self, action: Action, cells: Mapping[tuple, Form]) -> Action:
        """An action with known numbers in the place of cells, without the assignments that then change nothing."""
        def new(form: Form) -> Form:
            return rebuilt(form, cells) if cells else form
        if action.returns is not None:
            return action._replace(returns=tuple(map(new, action.returns)))
        sets = [(name, new(form)) for name, form in action.sets]
        kept = [(name, form) for name, form in sets if form != new(of_cell(("variable", name), self.sorts.variables[name]))]
        return action._replace(sets=tuple(sorted(kept)))

    # Words

    def test_words(self, k: int, truth: bool) -> str:
        test, positive = self.tests[k]
        if isinstance(test, Comparison):
            return comparison_text(test, truth == positive, self.sorts.multiplies_out)
        words = self.said.get(self.test_texts[k], self.test_texts[k])
        return words if truth else opposite(words)

    def action_words(self, k: int) -> str:
        action = self.actions[k]
        if action.sets:
            return f"{', '.join(name for name, _ in action.sets)} := {', '.join(form_text(form) for _, form in action.sets)}"
        if action.returns:
            return "return " + ", ".join(form_text(form) for form in action.returns)
        return self.said.get(self.action_texts[k], self.action_texts[k])


def opposite(words: str) -> str:
    """The opposite of a test in words."""
    for sign, other in ((" == ", " != "), (" < ", " >= ")):
        if words.count(sign) == 1:
            return words.replace(sign, other)
    return "!" + words


def read_list(reader: Reader) -> list[Expression]:
    found = [reader.expression()]
    while reader.takes(","):
        found.append(reader.expression())
    return found


def same_sets(one: Action, other: Action) -> bool:
    return one == other or bool(one.sets) and sorted(one.sets) == sorted(other.sets)


# Facts

def facts_of(text: str) -> tuple[list[Fact], int]:
    """The hypotheses that rule out truth values, or such before and after one action; and how many are of another shape."""
    try:
        problem = read_problem(text)
    except Unreadable:
        return [], 0
    found, unread = [], 0
    for hypothesis in problem.hypotheses:
        try:
            found += [fact for fact in map(fact_of, products(hypothesis)) if fact]
        except Unreadable:
            unread += 1
    return found, unread


def products(term: Term) -> list[list[Union[int, dict[int, bool]]]]:
    """A term as a sum of products of truth values and actions."""
    if term.kind == "act":
        return [[int(term.name[1:])]]
    if term.kind == ".":
        left, right = map(products, term.parts)
        if len(left) * len(right) > MOST_PRODUCTS:
            raise Unreadable("too many products")
        return [one + other for one in left for other in right]
    if term.kind == "+":
        return [part for side in term.parts for part in products(side)]
    if term.kind == "*":
        raise Unreadable("a star")
    return [[literals] for literals in truths(condition_of(term), True)]


def truths(condition: Condition, wanted: bool) -> list[dict[int, bool]]:
    """The truth values of tests with each of which a condition is true, or false."""
    if condition.kind == "constant":
        return [{}] if (condition.text == "true") == wanted else []
    if condition.kind == "!":
        return truths(condition.parts[0], not wanted)
    if condition.kind == "name":
        return [{int(condition.text[1:]): wanted}]
    left, right = (truths(part, wanted) for part in condition.parts)
    if (condition.kind == "||") == wanted:
        return left + right
    if len(left) * len(right) > MOST_PRODUCTS:
        raise Unreadable("too many products")
    return [{**one, **other} for one in left for other in right
            if all(other.get(k, truth) == truth for k, truth in one.items())]


def fact_of(product: list[Union[int, dict[int, bool]]]) -> Optional[Fact]:
    """A product of truth values with at most one action, as a fact; none where it contradicts itself."""
    sides: list[dict[int, bool]] = [{}]
    action: Optional[int] = None
    for part in product:
        if isinstance(part, dict):
            if any(sides[-1].get(k, truth) != truth for k, truth in part.items()):
                return None
            sides[-1].update(part)
        elif action is None:
            action = part
            sides.append({})
        else:
            raise Unreadable("two actions")
    after = tuple(sides[1].items()) if len(sides) > 1 else ()
    return Fact(tuple(sides[0].items()), action, after)
