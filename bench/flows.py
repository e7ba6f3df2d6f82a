#!/usr/bin/env python3
# SPDX-License-Identifier: MIT OR Apache-2.0
"""Tries `kat flow` and `kat decide` on random pairs of flow graphs, and compares their answers with runs of the graphs.

    python3 bench/flows.py [--kat PROGRAM] [--pairs N] [--seed K] [--keep FOLDER]

A pair is a random graph and a copy of it, both changed a few times by steps of which most keep what a graph returns and
some do not. If `decide` ends with 0 on what `flow` prints, both graphs are run from random states under random
interpretations of their functions. It is a fault if one returns values and the other returns other values, gets stuck, or
does not end within ten times the blocks. The script prints how many pairs had each answer and how many runs were
compared, and ends with 1 if there was a fault. With --keep, the texts of faults are kept in that folder. The program is
the one that the script `kat` runs.
"""

import argparse
import collections
import hashlib
import itertools
import random
import subprocess
import sys
import tempfile
from dataclasses import dataclass, field, replace
from pathlib import Path
from typing import Any, Callable, Iterator, Optional

from families import TOP, built

# An expression or a condition, what puts another in its place, a change of one, and a change of a graph.
Term = tuple[Any, ...]
Put = Callable[[Term], Term]
Change = Callable[[random.Random, Term], Term]
Step = Callable[[random.Random, "Graph"], "Graph"]
WIDTHS = {"u8": 8, "u16": 16}
SORTS = ["u8", "u8", "u16"]
FUNCTIONS = {"f": ("u8", ["u8"]), "g": ("u16", ["u16", "u8"]), "load": ("u8", ["mem", "u8"]), "store": ("mem", ["mem", "u8", "u8"])}
RUNS, BLOCKS_OF_A_RUN = 24, 400
MORE_BLOCKS = 10 * BLOCKS_OF_A_RUN
SECONDS = 60


# Graphs. An expression is a tuple that begins with what it is: ("number", n), ("variable", name), ("call", function,
# arguments), ("convert", word, its own sort, expression) or (operator, expression, expression); a condition is a tuple
# likewise.


@dataclass
class Block:
    name: str
    statements: list
    jump: tuple
    cut: bool = False


@dataclass
class Graph:
    blocks: list = field(default_factory=list)

    def named(self, name: str) -> Block:
        return next(block for block in self.blocks if block.name == name)


class Maker:
    """Makes random graphs over its variables."""

    def __init__(self, chance: random.Random) -> None:
        self.chance = chance
        self.sorts = {"x": "u8", "y": "u8", "z": chance.choice(SORTS), "m": "mem"}

    def variables(self, sort: str) -> list[str]:
        return [name for name, own in self.sorts.items() if own == sort]

    def number(self, sort: str) -> Term:
        top = (1 << WIDTHS[sort]) - 1
        return ("number", self.chance.choice([0, 1, 2, 3, top, top // 2, top // 2 + 1]))

    def expression(self, sort: str, depth: int) -> Term:
        chance = self.chance
        if sort == "mem":
            if depth and chance.random() < 0.4:
                return ("call", "store", [self.expression(of, depth - 1) for of in FUNCTIONS["store"][1]])
            return ("variable", "m")
        kind = chance.random()
        if not depth or kind < 0.35:
            known = self.variables(sort)
            return ("variable", chance.choice(known)) if known and chance.random() < 0.7 else self.number(sort)
        if kind < 0.75:
            return (chance.choice("++--*"), self.expression(sort, depth - 1), self.expression(sort, depth - 1))
        if kind < 0.9:
            name = chance.choice([name for name, (result, _) in FUNCTIONS.items() if result == sort])
            return ("call", name, [self.expression(of, depth - 1) for of in FUNCTIONS[name][1]])
        own = chance.choice(list(WIDTHS))
        return ("convert", chance.choice("us") + sort[1:], own, self.named(own, depth - 1))

    def named(self, sort: str, depth: int) -> Term:
        """An expression of the sort whose first name has this sort, or a number under a conversion to it."""
        known = self.variables(sort)
        if known:
            return ("variable", self.chance.choice(known)) if not depth else ("+", ("variable", self.chance.choice(known)), self.expression(sort, depth - 1))
        return ("convert", sort, "u8", ("variable", "x"))

    def condition(self, depth: int) -> Term:
        chance = self.chance
        kind = chance.random()
        if depth and kind < 0.25:
            return (chance.choice(["&&", "||"]), self.condition(depth - 1), self.condition(depth - 1))
        if depth and kind < 0.35:
            return ("!", self.condition(depth - 1))
        if kind < 0.45:
            return (chance.choice(["==", "!="]), "mem", ("variable", "m"), self.expression("mem", 1))
        sort = chance.choice(["u8", "u8", self.sorts["z"]])
        relation = chance.choice(["==", "!=", "<", "<=", ">", ">=", "slt", "sge"])
        return (relation, sort, self.named(sort, 0), self.expression(sort, 1))

    def statement(self) -> Term:
        if self.chance.random() < 0.12:
            return ("assert", self.condition(0))
        targets = self.chance.sample(list(self.sorts), self.chance.choice([1, 1, 1, 2]))
        return ("set", targets, [self.expression(self.sorts[it], 2) for it in targets])

    def jump(self, names: list[str]) -> Term:
        kind = self.chance.random()
        if kind < 0.35:
            return ("goto", self.chance.choice(names))
        if kind < 0.8:
            return ("if", self.condition(1), self.chance.choice(names), self.chance.choice(names))
        if kind < 0.97:
            return self.returning()
        return ("abort",)

    def returning(self) -> Term:
        return ("return", [self.named("u8", 1), ("variable", "m")])

    def graph(self) -> Graph:
        names = [f"b{k}" for k in range(self.chance.randint(2, 5))]
        blocks = [Block(it, [self.statement() for _ in range(self.chance.randint(0, 2))], self.jump(names)) for it in names]
        blocks[-1].jump = self.returning()
        return Graph(blocks)


# Changes


def parts(term: Term) -> Iterator[tuple[Term, Put]]:
    """The expressions in a term, outermost first, with a function that puts another in the place of each."""
    yield term, lambda other: other
    for at, it in enumerate(term):
        if isinstance(it, tuple):
            for inner, put in parts(it):
                yield inner, lambda other, at=at, put=put: term[:at] + (put(other),) + term[at + 1:]
        elif isinstance(it, list):
            for place, argument in enumerate(it):
                for inner, put in parts(argument):
                    yield inner, lambda other, at=at, it=it, place=place, put=put: term[:at] + ([*it[:place], put(other), *it[place + 1:]],) + term[at + 1:]


def another_form(chance: random.Random, term: Term) -> Term:
    """The term with one part written in another way that has the same value."""
    places = [(it, put) for it, put in parts(term) if it[0] in ("+", "*", "-", "number")]
    if not places:
        return term
    it, put = chance.choice(places)
    if it[0] in ("+", "*"):
        return put((it[0], it[2], it[1]))
    if it[0] == "-":
        return put(("+", ("-", ("number", 0), it[2]), it[1]))
    return put(("-", ("number", it[1]), ("number", 0)))


def another_value(chance: random.Random, term: Term) -> Term:
    """The term with one number, operator or relation replaced."""
    places = [(it, put) for it, put in parts(term) if it[0] in ("+", "-", "*", "number", "==", "<", "slt", "<=")]
    if not places:
        return term
    it, put = chance.choice(places)
    other = {"+": "-", "-": "+", "*": "+", "==": "<=", "<": "slt", "slt": "<", "<=": "<"}.get(it[0])
    return put((other, *it[1:]) if other else ("number", it[1] ^ 1))


def renamed(graph: Graph, names: dict[str, str]) -> Graph:
    """The graph with other names of blocks."""
    renamed_jump = lambda jump: tuple(names.get(it, it) if at and isinstance(it, str) else it for at, it in enumerate(jump))
    return Graph([replace(it, name=names.get(it.name, it.name), jump=renamed_jump(it.jump)) for it in graph.blocks])


def fresh(graph: Graph) -> str:
    return next(f"c{k}" for k in itertools.count() if all(it.name != f"c{k}" for it in graph.blocks))


def with_block(graph: Graph, at: int, *blocks: Block) -> Graph:
    return Graph([*graph.blocks[:at], *blocks, *graph.blocks[at + 1:]])


def split_block(chance: random.Random, graph: Graph) -> Graph:
    """Parts a block in two."""
    at = chance.randrange(len(graph.blocks))
    block, name = graph.blocks[at], fresh(graph)
    place = chance.randint(0, len(block.statements))
    return with_block(graph, at, replace(block, statements=block.statements[:place], jump=("goto", name)),
                      Block(name, block.statements[place:], block.jump))


def threaded(chance: random.Random, graph: Graph) -> Graph:
    """Copies a block into one that goes to it."""
    places = [at for at, it in enumerate(graph.blocks) if it.jump[0] == "goto"]
    if not places:
        return graph
    at = chance.choice(places)
    block = graph.blocks[at]
    target = graph.named(block.jump[1])
    return with_block(graph, at, replace(block, statements=block.statements + target.statements, jump=target.jump))


def turned(chance: random.Random, graph: Graph) -> Graph:
    """Exchanges the targets of a branch, on the opposite condition."""
    places = [at for at, it in enumerate(graph.blocks) if it.jump[0] == "if"]
    if not places:
        return graph
    at = chance.choice(places)
    _, b, k, l = graph.blocks[at].jump
    return with_block(graph, at, replace(graph.blocks[at], jump=("if", ("!", b), l, k)))


def in_turn(chance: random.Random, graph: Graph) -> Graph:
    """Writes an assignment of two variables as two, where the second does not read the first; or sets a variable twice."""
    places = [(at, place) for at, it in enumerate(graph.blocks) for place, s in enumerate(it.statements) if s[0] == "set"]
    if not places:
        return graph
    at, place = chance.choice(places)
    block = graph.blocks[at]
    _, targets, values = block.statements[place]
    reads = lambda term, name: any(it == ("variable", name) for it, _ in parts(term))
    if len(targets) == 2 and not reads(values[1], targets[0]):
        made = [("set", [it], [value]) for it, value in zip(targets, values)]
    elif not any(reads(value, name) for value in values for name in targets):
        made = [block.statements[place]] * 2
    else:
        return graph
    return with_block(graph, at, replace(block, statements=[*block.statements[:place], *made, *block.statements[place + 1:]]))


def rewritten(change: Change) -> Step:
    def call(chance: random.Random, graph: Graph) -> Graph:
        at = chance.randrange(len(graph.blocks))
        block = graph.blocks[at]
        places = [k for k, it in enumerate(block.statements) if it[0] == "set"]
        if block.jump[0] == "if" and (not places or chance.random() < 0.5):
            return with_block(graph, at, replace(block, jump=("if", change(chance, block.jump[1]), *block.jump[2:])))
        if not places:
            return graph
        k = chance.choice(places)
        _, targets, values = block.statements[k]
        n = chance.randrange(len(values))
        made = ("set", targets, [*values[:n], change(chance, values[n]), *values[n + 1:]])
        return with_block(graph, at, replace(block, statements=[*block.statements[:k], made, *block.statements[k + 1:]]))

    return call


def without_statement(chance: random.Random, graph: Graph) -> Graph:
    """Drops a statement."""
    places = [(at, k) for at, it in enumerate(graph.blocks) for k in range(len(it.statements))]
    if not places:
        return graph
    at, k = chance.choice(places)
    block = graph.blocks[at]
    return with_block(graph, at, replace(block, statements=block.statements[:k] + block.statements[k + 1:]))


def retargeted(chance: random.Random, graph: Graph) -> Graph:
    """Sends a jump elsewhere."""
    at = chance.randrange(len(graph.blocks))
    block, names = graph.blocks[at], [it.name for it in graph.blocks]
    if block.jump[0] == "goto":
        return with_block(graph, at, replace(block, jump=("goto", chance.choice(names))))
    if block.jump[0] == "if":
        return with_block(graph, at, replace(block, jump=(*block.jump[:2], chance.choice(names), block.jump[3])))
    return graph


KEEPING: list[Step] = [split_block, threaded, turned, in_turn, rewritten(another_form)]
BREAKING: list[Step] = [rewritten(another_value), without_statement, retargeted]


def changed(chance: random.Random, graph: Graph) -> Graph:
    for _ in range(chance.randint(1, 3)):
        graph = chance.choice(KEEPING)(chance, graph)
    if chance.random() < 0.35:
        graph = chance.choice(BREAKING)(chance, graph)
    return graph


# Texts


def expression_text(term: Term) -> str:
    kind = term[0]
    if kind in ("number", "variable"):
        return str(term[1])
    if kind == "call":
        return f"{term[1]}({', '.join(expression_text(it) for it in term[2])})"
    if kind == "convert":
        return f"{term[1]}({expression_text(term[3])})"
    return f"({expression_text(term[1])} {kind} {expression_text(term[2])})"


def condition_text(b: Term) -> str:
    kind = b[0]
    if kind == "!":
        return f"!({condition_text(b[1])})"
    if kind in ("&&", "||"):
        return f"({condition_text(b[1])} {kind} {condition_text(b[2])})"
    left, right = expression_text(b[2]), expression_text(b[3])
    return f"{kind}({left}, {right})" if kind.startswith("s") else f"{left} {kind} {right}"


def statement_text(it: Term) -> str:
    if it[0] == "assert":
        return f"assert {condition_text(it[1])};"
    return f"{', '.join(it[1])} := {', '.join(expression_text(value) for value in it[2])};"


def jump_text(it: Term) -> str:
    if it[0] == "if":
        return f"if {condition_text(it[1])} goto {it[2]} else {it[3]};"
    if it[0] == "return":
        return f"return {', '.join(expression_text(value) for value in it[1])};"
    return f"{' '.join(it)};"


def graph_text(name: str, graph: Graph) -> str:
    lines = [f"  {'cut ' if it.cut else ''}block {it.name} {{ {' '.join([*map(statement_text, it.statements), jump_text(it.jump)])} }}" for it in graph.blocks]
    return "\n".join([f"graph {name} {{", *lines, "}"])


def file_text(sorts: dict[str, str], before: Graph, after: Graph, words: list[str]) -> str:
    functions = [f"fun {result} {name}({', '.join(own)});" for name, (result, own) in FUNCTIONS.items()]
    variables = [f"var {sort} {name};" for name, sort in sorts.items()]
    return "\n".join(["sort mem;", *functions, *variables, graph_text("before", before), graph_text("after", after), *words, "equal before, after;", ""])


# Runs


class Interpretation:
    """Gives each function a function: a value is the sum of a seed and of what it is of. Opaque values are few, so that some are equal."""

    def __init__(self, seed: float) -> None:
        self.seed = seed

    def call(self, name: str, values: list[int]) -> int:
        result = FUNCTIONS[name][0]
        drawn = hashlib.blake2b(repr((self.seed, name, values)).encode(), digest_size=2).digest()
        return int.from_bytes(drawn, "big") % (1 << WIDTHS[result] if result in WIDTHS else 3)


def value_of(world: Interpretation, state: dict[str, int], sorts: dict[str, str], sort: str, term: Term) -> int:
    kind = term[0]
    if kind == "number":
        return term[1]
    if kind == "variable":
        return state[term[1]]
    if kind == "call":
        own = FUNCTIONS[term[1]][1]
        return world.call(term[1], [value_of(world, state, sorts, of, it) for of, it in zip(own, term[2])])
    if kind == "convert":
        value = value_of(world, state, sorts, term[2], term[3])
        return (signed(value, term[2]) if term[1][0] == "s" else value) % (1 << WIDTHS[sort])
    left, right = (value_of(world, state, sorts, sort, it) for it in term[1:])
    return {"+": left + right, "-": left - right, "*": left * right}[kind] % (1 << WIDTHS[sort])


def signed(value: int, sort: str) -> int:
    half = 1 << WIDTHS[sort] - 1
    return value - 2 * half if value >= half else value


def holds(world: Interpretation, state: dict[str, int], sorts: dict[str, str], b: Term) -> bool:
    kind = b[0]
    if kind == "!":
        return not holds(world, state, sorts, b[1])
    if kind == "&&":
        return holds(world, state, sorts, b[1]) and holds(world, state, sorts, b[2])
    if kind == "||":
        return holds(world, state, sorts, b[1]) or holds(world, state, sorts, b[2])
    left, right = (value_of(world, state, sorts, b[1], it) for it in b[2:])
    if kind.startswith("s"):
        left, right, kind = signed(left, b[1]), signed(right, b[1]), {"slt": "<", "sge": ">="}[kind]
    return {"==": left == right, "!=": left != right, "<": left < right, "<=": left <= right, ">": left > right, ">=": left >= right}[kind]


def run(world: Interpretation, state: dict[str, int], sorts: dict[str, str], graph: Graph, most: int = BLOCKS_OF_A_RUN) -> Optional[tuple]:
    """Returns ("returns", values), ("stuck",), or None for a run that does not end within some blocks."""
    state, block = dict(state), graph.blocks[0]
    for _ in range(most):
        for it in block.statements:
            if it[0] == "assert":
                if not holds(world, state, sorts, it[1]):
                    return ("stuck",)
            else:
                state.update(zip(it[1], [value_of(world, state, sorts, sorts[name], value) for name, value in zip(it[1], it[2])]))
        jump = block.jump
        if jump[0] == "abort":
            return ("stuck",)
        if jump[0] == "return":
            return ("returns", [value_of(world, state, sorts, of, value) for of, value in zip(("u8", "mem"), jump[1])])
        block = graph.named(jump[1] if jump[0] == "goto" else jump[2] if holds(world, state, sorts, jump[1]) else jump[3])
    return None


def differing_run(chance: random.Random, sorts: dict[str, str], before: Graph, after: Graph) -> tuple[Optional[tuple], int]:
    """Returns the first of some random runs in which the graphs differ, if any, and how many ended on both sides."""
    ended = 0
    for _ in range(RUNS):
        world = Interpretation(chance.random())
        few = chance.random() < 0.5
        state = {name: chance.randrange(3 if few or sort == "mem" else 1 << WIDTHS[sort]) for name, sort in sorts.items()}
        ends = [run(world, state, sorts, it) for it in (before, after)]
        if None in ends and ends != [None, None]:
            # The other side may take more blocks for the same turns.
            ends = [run(world, state, sorts, it, MORE_BLOCKS) for it in (before, after)]
        ended += None not in ends
        # A run that gets stuck and one that does not end return nothing, both.
        if ends[0] != ends[1] and any(it and it[0] == "returns" for it in ends):
            return (world.seed, state, ends), ended
    return None, ended


# Pairs


def pair(chance: random.Random) -> tuple[dict[str, str], Graph, Graph, list[str]]:
    maker = Maker(chance)
    graph = maker.graph()
    before, after = (changed(chance, graph) for _ in range(2))
    if chance.random() < 0.3:
        for side in (before, after):
            side.blocks = [replace(it, cut=chance.random() < 0.7) for it in side.blocks]
    words = [it for it, likely in (("split;", 0.3), (f"rounds {chance.randint(0, 2)};", 0.3)) if chance.random() < likely]
    return maker.sorts, before, after, words


def answer_of(kat: str, text: str, folder: Path) -> str:
    """Returns what `flow` and `decide` answer: a refusal, or by the status of `decide`."""
    file, problem = folder / "pair.flow", folder / "pair.kat"
    file.write_text(text)
    try:
        flow = subprocess.run([kat, "flow", file], stdin=subprocess.DEVNULL, capture_output=True, text=True, timeout=SECONDS)
        if flow.returncode:
            return " ".join(flow.stdout.split()[:2])
        problem.write_text(flow.stdout)
        decide = subprocess.run([kat, "decide", problem], stdin=subprocess.DEVNULL, capture_output=True, timeout=SECONDS)
    except subprocess.TimeoutExpired:
        return f"none in {SECONDS} seconds"
    return {0: "equal", 1: "different"}.get(decide.returncode, f"status {decide.returncode}")


def main() -> int:
    reader = argparse.ArgumentParser(description="Tries `kat flow` and `kat decide` on random pairs of flow graphs.")
    reader.add_argument("--kat", default=str(TOP / "kat"))
    reader.add_argument("--pairs", type=int, default=20_000)
    reader.add_argument("--seed", type=int, default=0)
    reader.add_argument("--keep", type=Path)
    words = reader.parse_args()
    program = built(words.kat)
    if words.keep:
        words.keep.mkdir(parents=True, exist_ok=True)
    answers: collections.Counter[str] = collections.Counter()
    runs, faults, apart = 0, 0, 0
    with tempfile.TemporaryDirectory() as folder:
        for number in range(words.pairs):
            chance = random.Random(f"{words.seed} {number}")
            sorts, before, after, items = pair(chance)
            text = file_text(sorts, before, after, items)
            answer = answer_of(program, text, Path(folder))
            answers[answer] += 1
            found, ended = differing_run(chance, sorts, before, after)
            apart += found is not None
            if answer == "equal":
                runs += ended
                if found:
                    faults += 1
                    print(f"pair {number}: equal, and a run differs: {found}", flush=True)
                    if words.keep:
                        (words.keep / f"pair-{number}.flow").write_text(text)
    print(f"{words.pairs} pairs: {', '.join(f'{count} {answer}' for answer, count in answers.most_common())}")
    print(f"runs of {apart} pairs differ, {faults} of them called equal; {runs} runs of pairs that are called equal ended on both sides")
    return int(faults > 0)


if __name__ == "__main__":
    sys.exit(main())
