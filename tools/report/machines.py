"""How programs, terms and flow graphs run: from a place, the ways to the next action, to the end, or to where they stop.

A way is found from what is known of the tests; where it needs a test of which nothing is known, there is a way for each
truth value. All this is computed by this script and not proved.
"""

from typing import Any, Iterator, NamedTuple, Optional, Protocol

from .flows import Flow, Graph, Jump, entry_of, live_variables, places_of
from .forms import Form, form_of, of_cell, width_of
from .problems import Term, negation
from .questions import Action, Known, Question
from .tokens import ALWAYS, Condition, Span, Unreadable

MOST_STEPS = 20_000
ENDED = "ended"
# A node of the automaton of a term, a block of a graph, or the end.
Place = Any


class Seen(NamedTuple):
    """A part of the text that a way passes, and the truth value that its condition has there."""

    span: Span
    truth: Optional[bool] = None


class Way(NamedTuple):
    """The kinds are `act`, `end` and `stop`. An `act` has the number of its action, if it is one of the question, its
    place in the text and the place that it leads to; a `stop` says why."""

    known: Known
    kind: str
    seen: tuple[Seen, ...]
    span: Optional[Span] = None
    action: Optional[int] = None
    words: str = ""
    target: Place = None


class Machine(Protocol):
    start: Place
    is_program: bool

    def ways(self, place: Place, known: Known) -> Iterator[Way]:
        """The ways from a place."""

    def mark(self, place: Place) -> Optional[Span]:
        """The part of the text that names a place, if one does."""


# Programs and terms

class Edge(NamedTuple):
    """A step of an automaton: a test of a condition, an action, or neither."""

    target: int
    span: Optional[Span] = None
    condition: Condition = ALWAYS
    truth: Optional[bool] = None
    act: Optional[Term] = None
    stops: bool = False


class TermMachine:
    """The automaton of a term (Thompson 1968), whose places are its nodes."""

    def __init__(self, term: Term, question: Question, is_program: bool) -> None:
        self.question, self.is_program = question, is_program
        self.edges: list[list[Edge]] = []
        self.stops: dict[int, tuple[Span, str]] = {}
        self.start = self.node()
        self.end = self.build(term, self.start)

    def node(self) -> int:
        if len(self.edges) > MOST_STEPS:
            raise Unreadable("too large to follow")
        self.edges.append([])
        return len(self.edges) - 1

    def link(self, source: int, target: Optional[int] = None, **edge: Any) -> int:
        node = self.node() if target is None else target
        self.edges[source].append(Edge(node, **edge))
        return node

    def build(self, term: Term, start: int) -> int:
        """The node at the end of a term that begins at a node."""
        return getattr(self, BUILDERS[term.kind])(term, start)

    def build_one(self, term: Term, start: int) -> int:
        return self.link(start, span=term.span if term.kind == "skip" else None)

    def build_zero(self, term: Term, start: int) -> int:
        self.stops[start] = (term.span, "`abort`" if term.kind == "abort" else "`0`")
        return self.node()

    def build_test(self, term: Term, start: int) -> int:
        end = self.link(start, span=term.span, condition=term.condition, truth=True, stops=term.kind == "test")
        if term.kind == "assert":
            failed = self.link(start, span=term.span, condition=negation(term.condition), truth=False)
            self.stops[failed] = (term.span, "an `assert` that fails")
        return end

    def build_act(self, term: Term, start: int) -> int:
        return self.link(start, span=term.span, act=term)

    def build_sequence(self, term: Term, start: int) -> int:
        for part in term.parts:
            start = self.build(part, start)
        return start

    def build_sum(self, term: Term, start: int) -> int:
        end = self.node()
        for part in term.parts:
            self.link(self.build(part, self.link(start)), end)
        return end

    def build_star(self, term: Term, start: int) -> int:
        head = self.link(start)
        self.link(self.build(term.parts[0], self.link(head)), head)
        return self.link(head)

    def build_if(self, term: Term, start: int) -> int:
        end = self.node()
        for part, truth in zip(term.parts, (True, False)):
            self.link(self.build(part, self.tested(start, term, truth)), end)
        return end

    def build_while(self, term: Term, start: int) -> int:
        head = self.link(start)
        self.link(self.build(term.parts[0], self.tested(head, term, True)), head)
        return self.tested(head, term, False)

    def tested(self, start: int, term: Term, truth: bool) -> int:
        condition = term.condition if truth else negation(term.condition)
        return self.link(start, span=term.span, condition=condition, truth=truth)

    def ways(self, place: Place, known: Known) -> Iterator[Way]:
        left: list[tuple[int, Known, tuple[Seen, ...], frozenset]] = [(place, known, (), frozenset())]
        steps = 0
        while left:
            node, known, seen, passed = left.pop()
            steps += 1
            if steps > MOST_STEPS:
                raise Unreadable("too many ways to follow")
            if node in self.stops:
                span, why = self.stops[node]
                yield Way(known, "stop", (*seen, Seen(span)), span, words=why)
            if node == self.end:
                yield Way(known, "end", seen)
            if node in passed:
                if self.is_program:
                    yield Way(known, "stop", seen, seen[-1].span, words="a loop without an action")
                continue
            for edge in reversed(self.edges[node]):
                if edge.act:
                    yield self.acts(edge, edge.act, known, seen)
                    continue
                for then, truth in self.question.decided(edge.condition, {}, known):
                    if truth:
                        left.append((edge.target, then, passes(seen, edge), passed | {node}))
                    elif edge.stops and edge.span:
                        yield Way(then, "stop", (*seen, Seen(edge.span, False)), edge.span, words="a test is false")

    def mark(self, place: Place) -> Optional[Span]:
        return None

    def acts(self, edge: Edge, act: Term, known: Known, seen: tuple[Seen, ...]) -> Way:
        if act.value is None:
            action = Action(name=act.name)
            words = act.name
        else:
            width = self.question.sorts.variables[act.name]
            action = Action(sets=((act.name, form_of(act.value, width, {}, self.question.sorts)),))
            words = ""
        number = self.question.action_of(action)
        return Way(known, "act", seen, edge.span, number, words, edge.target)


def passes(seen: tuple[Seen, ...], edge: Edge) -> tuple[Seen, ...]:
    return (*seen, Seen(edge.span, edge.truth)) if edge.span else seen


BUILDERS = {"1": "build_one", "skip": "build_one", "0": "build_zero", "abort": "build_zero", "test": "build_test",
            "assert": "build_test", "act": "build_act", ".": "build_sequence", "+": "build_sum", "*": "build_star",
            "if": "build_if", "while": "build_while"}


# Flow graphs

class FlowMachine:
    """A graph whose places are the blocks that cut it. A way gives the live variables of the next place their values."""

    is_program = True

    def __init__(self, flow: Flow, graph: Graph, question: Question) -> None:
        self.flow, self.graph, self.question = flow, graph, question
        self.places = places_of(graph)
        self.live = live_variables(graph, set(flow.variables))
        self.start = entry_of(graph)

    def ways(self, place: Place, known: Known) -> Iterator[Way]:
        if place == ENDED:
            yield Way(known, "end", ())
            return
        values = {name: of_cell(("variable", name), width) for name, width in self.flow.variables.items()}
        left: list[tuple[str, Known, dict[str, Form], tuple[Seen, ...], frozenset]] = [(place, known, values, (), frozenset())]
        steps = 0
        while left:
            name, known, values, seen, passed = left.pop()
            steps += 1
            if steps > MOST_STEPS:
                raise Unreadable("too many ways to follow")
            if name in passed:
                yield Way(known, "stop", seen, self.graph.blocks[name].heading, words="a loop that changes nothing")
                continue
            for then, stopped, new_values, new_seen in self.through(name, known, values, seen):
                if stopped:
                    yield stopped
                    continue
                jump = self.graph.blocks[name].jump
                for target, way in reversed(list(self.jumps(jump, then, new_values, new_seen))):
                    if target is None:
                        yield way
                    else:
                        left.append((target, way.known, new_values, way.seen, passed | {name}))

    def mark(self, place: Place) -> Optional[Span]:
        return self.graph.blocks[place].heading if place in self.graph.blocks else None

    def through(self, name: str, known: Known, values: dict[str, Form],
                seen: tuple[Seen, ...]) -> Iterator[tuple[Known, Optional[Way], dict[str, Form], tuple[Seen, ...]]]:
        """Runs the statements of a block, with each truth value of its assertions that may be."""
        block = self.graph.blocks[name]
        states = [(known, values, (*seen, Seen(block.heading)))]
        for statement in block.statements:
            states_after = []
            for known, values, seen in states:
                if statement.condition is None:
                    new = {target: form_of(value, self.flow.variables[target], values, self.question.sorts)
                           for target, value in zip(statement.targets, statement.values)}
                    states_after.append((known, {**values, **new}, (*seen, Seen(statement.span))))
                    continue
                for then, truth in self.question.decided(statement.condition, values, known):
                    marked = (*seen, Seen(statement.span, truth))
                    if truth:
                        states_after.append((then, values, marked))
                    else:
                        yield then, Way(then, "stop", marked, statement.span, words="an `assert` that fails"), values, marked
            states = states_after
        for known, values, seen in states:
            yield known, None, values, seen

    def jumps(self, jump: Jump, known: Known, values: dict[str, Form],
              seen: tuple[Seen, ...]) -> Iterator[tuple[Optional[str], Way]]:
        """The next block of each way through a jump, or none where the way is whole."""
        if jump.kind == "abort":
            yield None, Way(known, "stop", (*seen, Seen(jump.span)), jump.span, words="`abort`")
        elif jump.kind == "return":
            returns = Action(returns=tuple(form_of(value, width, values, self.question.sorts)
                                           for value, width in zip(jump.values, self.question.results)))
            yield None, Way(known, "act", seen, jump.span, self.question.action_of(returns, known), "", ENDED)
        elif jump.kind == "goto":
            yield self.arrives(jump.targets[0], Way(known, "act", (*seen, Seen(jump.span)), jump.span), values)
        else:
            for then, truth in self.question.decided(jump.condition or ALWAYS, values, known):
                target = jump.targets[0 if truth else 1]
                yield self.arrives(target, Way(then, "act", (*seen, Seen(jump.span, truth)), jump.span), values)

    def arrives(self, target: str, way: Way, values: dict[str, Form]) -> tuple[Optional[str], Way]:
        if target not in self.places:
            return target, way
        sets = tuple((name, values[name]) for name in sorted(self.live[target])
                     if values[name] != of_cell(("variable", name), self.flow.variables[name]))
        number = self.question.action_of(Action(sets=sets), way.known) if sets else -1
        return None, way._replace(action=number, target=target)


def results_of(flow: Flow) -> tuple[int, ...]:
    """The widths of results: of each place the first expression in a return whose width is known, else 64."""
    returns = [block.jump.values for name in flow.sides for block in flow.graphs[name].blocks.values()
               if block.jump.kind == "return"]
    if not returns:
        return ()
    sorts = flow.known()
    return tuple(next((width for width in (width_of(values[k], sorts) for values in returns) if width is not None), 64)
                 for k in range(len(returns[0])))
