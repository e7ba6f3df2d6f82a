"""Flow files: graphs of blocks with places in the text, the blocks that cut them, and live variables (docs/flow.md)."""

from dataclasses import dataclass, field
from typing import Iterator, NamedTuple, Optional

from .forms import Sorts
from .tokens import Condition, Expression, Reader, Span, Unreadable


class Statement(NamedTuple):
    """An assignment of several variables, or an `assert` with a condition."""

    span: Span
    targets: tuple[str, ...] = ()
    values: tuple[Expression, ...] = ()
    condition: Optional[Condition] = None


class Jump(NamedTuple):
    """`goto`, `if`, `return` or `abort`, with the names of the next blocks."""

    kind: str
    span: Span
    targets: tuple[str, ...] = ()
    condition: Optional[Condition] = None
    values: tuple[Expression, ...] = ()


class Block(NamedTuple):
    name: str
    heading: Span
    is_cut: bool
    statements: tuple[Statement, ...]
    jump: Jump


class Graph(NamedTuple):
    name: str
    span: Span
    blocks: dict[str, Block]


@dataclass
class Flow:
    text: str
    sorts: dict[str, int] = field(default_factory=lambda: {f"u{width}": width for width in (8, 16, 32, 64)})
    variables: dict[str, int] = field(default_factory=dict)
    functions: dict[str, tuple[tuple[int, ...], int]] = field(default_factory=dict)
    graphs: dict[str, Graph] = field(default_factory=dict)
    sides: tuple[str, ...] = ()

    def known(self) -> Sorts:
        return Sorts(self.variables, self.functions, True)


def read_flow(text: str) -> Flow:
    """Reads a text that the program accepts."""
    reader = FlowReader(text)
    reader.read_items()
    return reader.found


class FlowReader(Reader):
    def __init__(self, text: str) -> None:
        super().__init__(text)
        self.found = Flow(text)

    def item(self) -> None:
        start, word = self.start(), self.take()
        if word == "sort":
            self.found.sorts.update(dict.fromkeys(self.names(), 0))
        elif word == "var":
            width = self.sort()
            self.found.variables.update(dict.fromkeys(self.names(), width))
        elif word == "fun":
            self.function()
        elif word == "graph":
            self.graph(start)
        elif word == "equal":
            self.found.sides = tuple(self.names())
        elif word in ("rounds", "split", "match"):
            while self.take() != ";":
                pass
        else:
            raise Unreadable(f"an item {word!r}")

    def sort(self) -> int:
        name = self.name()
        if name not in self.found.sorts:
            raise Unreadable(f"a sort {name!r}")
        return self.found.sorts[name]

    def function(self) -> None:
        result, name, parameters = self.sort(), self.name(), []
        self.take("(")
        while self.peek() != ")":
            parameters.append(self.sort())
            self.takes(",")
        self.take(")")
        self.take(";")
        self.found.functions[name] = (tuple(parameters), result)

    def graph(self, start: int) -> None:
        name, blocks = self.name(), {}
        self.take("{")
        while not self.takes("}"):
            block = self.block()
            blocks[block.name] = block
        self.found.graphs[name] = Graph(name, self.since(start), blocks)

    def block(self) -> Block:
        start = self.start()
        is_cut = self.takes("cut")
        self.take("block")
        name, statements = self.name(), []
        heading = self.since(start)
        self.take("{")
        while self.peek() not in ("goto", "if", "return", "abort"):
            statements.append(self.statement())
        jump = self.jump()
        self.take("}")
        return Block(name, heading, is_cut, tuple(statements), jump)

    def statement(self) -> Statement:
        start = self.start()
        if self.takes("assert"):
            condition = self.condition()
            found = Statement(self.since(start), condition=condition)
        else:
            targets = [self.name()]
            while self.takes(","):
                targets.append(self.name())
            self.take(":=")
            values = self.expressions()
            found = Statement(self.since(start), tuple(targets), values)
        self.take(";")
        return found

    def expressions(self) -> tuple[Expression, ...]:
        found = [self.expression()]
        while self.takes(","):
            found.append(self.expression())
        return tuple(found)

    def jump(self) -> Jump:
        start, kind = self.start(), self.take()
        if kind == "if":
            condition = self.condition()
            self.take("goto")
            then = self.name()
            self.take("else")
            found = Jump(kind, self.since(start), (then, self.name()), condition)
        elif kind == "goto":
            found = Jump(kind, self.since(start), (self.name(),))
        elif kind == "return":
            found = Jump(kind, self.since(start), values=self.expressions() if self.peek() != ";" else ())
        else:
            found = Jump(kind, self.since(start))
        self.take(";")
        return found._replace(span=self.since(start))


# Places

def entry_of(graph: Graph) -> str:
    return next(iter(graph.blocks))


def depth_first(graph: Graph) -> tuple[set[str], set[str]]:
    """The blocks that are reached, and the targets of back edges of the walk that takes the first target first."""
    reached: set[str] = set()
    path: set[str] = set()
    heads: set[str] = set()
    left: list[tuple[str, Iterator[str]]] = []

    def enter(name: str) -> None:
        reached.add(name)
        path.add(name)
        left.append((name, iter(graph.blocks[name].jump.targets)))

    enter(entry_of(graph))
    while left:
        name, targets = left[-1]
        target = next(targets, None)
        if target is None:
            path.discard(name)
            left.pop()
        elif target in path:
            heads.add(target)
        elif target not in reached:
            enter(target)
    return reached, heads


def places_of(graph: Graph) -> set[str]:
    """The entry, and the marked blocks or, where none is marked, the targets of back edges."""
    reached, heads = depth_first(graph)
    marked = {name for name in reached if graph.blocks[name].is_cut}
    return {entry_of(graph)} | (marked or heads)


# Live variables

def read_by(expression: Expression) -> set[str]:
    """The names that an expression reads."""
    own = {expression.text} if expression.kind == "name" else set()
    return own.union(*(read_by(part) for part in expression.parts))


def read_by_condition(condition: Optional[Condition]) -> set[str]:
    if condition is None:
        return set()
    return set().union(*(read_by(part) for part in condition.operands), *(read_by_condition(part) for part in condition.parts))


def live_before(block: Block, after: set[str], variables: set[str]) -> set[str]:
    """The variables that are live at a block, from those that are live at the targets of its jump."""
    live = after | read_by_condition(block.jump.condition) | set().union(*(read_by(value) for value in block.jump.values))
    for statement in reversed(block.statements):
        live = live - set(statement.targets) | read_by_condition(statement.condition)
        live |= set().union(*(read_by(value) for value in statement.values))
    return live & variables


def live_variables(graph: Graph, variables: set[str]) -> dict[str, set[str]]:
    """The variables that are live at each block."""
    live: dict[str, set[str]] = {name: set() for name in graph.blocks}
    changed = True
    while changed:
        changed = False
        for name, block in graph.blocks.items():
            after = set().union(*(live[target] for target in block.jump.targets))
            found = live_before(block, after, variables)
            changed, live[name] = changed or found != live[name], found
    return live


