#!/usr/bin/env python3
# SPDX-License-Identifier: MIT OR Apache-2.0
"""Measures the least stack with which each command of `kat` ends on the texts within the limits that use most of it.

    python3 bench/stack.py [--kat PROGRAM] [CASE ..]
    python3 bench/stack.py --check [--kat PROGRAM] [CASE ..]

The program is the one that the script `kat` runs. The first form prints a table of the least stack in KB for each call,
found by bisection to 16 KB: a stack suffices if the call ends with the status and the output that it has with the
greatest stack that the system allows, up to 1 GB. `-` stands where the call ends by a signal even then. Without names it
measures all cases. The second form runs each call once with the stack that docs/embedding.md gives, prints those that end
by a signal, and ends with 1 if there are any.
"""

import argparse
import resource
import subprocess
import sys
import tempfile
from pathlib import Path
from typing import Callable, NamedTuple, Optional

import texts
from families import TOP, built

KB = 1024
# The stacks in KB that docs/embedding.md gives: of `flow`, and of the other commands
ENOUGH_FOR_FLOW = 128 * KB
ENOUGH = 5 * KB
# What is measured, in KB
MOST = 1024 * KB
LEAST = 64
STEP = 16
# The seconds after which a call has no answer. Sizes are chosen so that each call ends long before.
PATIENCE = 120


class Call(NamedTuple):
    """The words of a call, where `problem` and `evidence` stand for the files of a case."""
    words: tuple[str, ...]


class Case(NamedTuple):
    """The text of a case, the evidence that belongs to it (else what `decide` prints), and the calls."""
    problem: str
    evidence: Optional[str]
    calls: tuple[Call, ...]


class Ending(NamedTuple):
    """How a call ended: its status, which is negative after a signal, and what it printed."""
    status: int
    printed: bytes


def calls(*lines: str) -> tuple[Call, ...]:
    return tuple(Call(tuple(line.split())) for line in lines)


# Problem files

def stars(depth: int, summands: int, factors: int) -> str:
    """Stars in one another, each of a sum whose last summand is a product with the next star last; the other side is 0."""
    start = "(" + "p + " * (summands - 1) + "p." * (factors - 1)
    return f"action p;\ngoal equal {start * depth}p{')*' * depth}, 0;\n"


def conditions(depth: int, operands: int) -> str:
    """Parentheses in one another, each with a row of `||` whose last operand is a row of `&&`."""
    start = "(" + "b || " * (operands - 1) + "b && " * (operands - 1)
    return f"test b;\naction p;\ngoal triple {{{start * depth}b{')' * depth}}} p* {{b}};\n"


def nested_loops(depth: int, statements: int) -> str:
    """A program of loops in one another, each behind statements, and the same program again."""
    start = "while b { " + "p; " * statements
    body = start * depth + "p; " + "} " * depth
    return f"test b;\naction p;\nprog P {{ {body}}}\nprog Q {{ {body}}}\ngoal equal P, Q;\n"


def nested_stores(depth: int, statements: int) -> str:
    """The same over a variable."""
    start = "while x < 3 { " + "x := x + 1; " * statements
    body = start * depth + "x := x + 1; " + "} " * depth
    return f"var x;\nprog P {{ {body}}}\nprog Q {{ {body}}}\ngoal equal P, Q;\n"


def nested_triple(depth: int, statements: int) -> str:
    """A triple of a program of loops in one another."""
    start = "while b { " + "p; " * statements
    body = start * depth + "p; " + "} " * depth
    return f"test b;\naction p;\nprog P {{ {body}}}\ngoal triple {{true}} P {{!b}};\n"


# Flow files

def flow(statements: str, jump: str) -> str:
    """A graph of a block with these statements and a jump, and of a block `r` that returns, with itself."""
    declared = "sort mem;\nfun mem f(mem);\nfun u64 g(u64);\nvar u64 x, y;\nvar mem m;\n"
    return f"{declared}graph a {{\nblock e {{ {statements}{jump} }}\nblock r {{ return x, m; }}\n}}\nequal a, a;\n"


def flow_statements(statement: str, count: int) -> str:
    return flow(statement * count, "goto r;")


def flow_condition(row: str) -> str:
    """A branch on a condition to the block that returns, or back."""
    return flow("", f"if {row} goto r else e;")


def flow_row(operator: str, operand: str, count: int) -> str:
    """A branch on a row of operands."""
    return flow_condition(f" {operator} ".join([operand] * count))


def flow_parentheses(depth: int) -> str:
    """A branch on rows of `&&` and `||` in one another."""
    return flow_condition("(x == y && (x == y || " * (depth // 2) + "x == y" + "))" * (depth // 2))


def flow_blocks(count: int) -> str:
    """Blocks in a row, each of which goes to the next."""
    steps = "".join(f"block b{k} {{ goto b{k + 1}; }}\n" for k in range(count - 1))
    return f"var u64 x;\ngraph a {{\n{steps}block b{count - 1} {{ return x; }}\n}}\nequal a, a;\n"


def flow_branches(count: int) -> str:
    """Blocks in a row, each of which branches on a comparison to the next or to the last."""
    steps = "".join(f"block b{k} {{ if x == {k} goto last else b{k + 1}; }}\n" for k in range(count - 2))
    return f"var u64 x;\ngraph a {{\n{steps}block b{count - 2} {{ return x; }}\nblock last {{ return x; }}\n}}\nequal a, a;\n"


def flow_calls(variable: str, function: str, depth: int, count: int) -> str:
    """Assignments of calls in one another."""
    return flow_statements(f"{variable} := {f'{function}(' * depth}{variable}{')' * depth}; ", count)


# Cases

EVIDENCE = calls("decide problem", "show problem", "check problem evidence", "explain problem evidence", "replay problem evidence")
PROGRAMS = calls("oneloop problem P", "optimise problem P --turns 2", "run problem P zero 5", "try problem 5")
FLOW = calls("flow problem")


def text_case(name: str, line: str) -> Callable[[], Case]:
    """A case of bench/texts.py."""
    def make() -> Case:
        _, maker, size = texts.CASES[name]
        made = maker(size)
        problem, evidence = made if isinstance(made, tuple) else (made, "")
        return Case(problem, evidence, calls(line))
    return make


# Texts that nest
NESTED: dict[str, Callable[[], Case]] = {
    "stars": lambda: Case(stars(199, 120, 120), None, EVIDENCE),
    "sums": lambda: Case(stars(199, 240, 1), None, EVIDENCE),
    "products": lambda: Case(stars(199, 1, 240), None, EVIDENCE),
    "conditions": lambda: Case(conditions(196, 60), None, EVIDENCE),
    "loops": lambda: Case(nested_loops(197, 120), None, (*EVIDENCE[:4], *PROGRAMS[:2])),
    "stores": lambda: Case(nested_stores(197, 40), None, (*EVIDENCE[:4], *PROGRAMS)),
    "triple": lambda: Case(nested_triple(197, 240), None, calls("outline problem", "show problem")),
}

# Flow graphs with long rows, and with calls and conditions that nest
FLOWS: dict[str, Callable[[], Case]] = {
    "flow-statements": lambda: Case(flow_statements("x := x; ", 49_990), None, FLOW),
    "flow-assertions": lambda: Case(flow_statements("assert true; ", 49_990), None, FLOW),
    "flow-and": lambda: Case(flow_row("&&", "x == y", 24_990), None, FLOW),
    "flow-or": lambda: Case(flow_row("||", "x == y", 24_990), None, FLOW),
    "flow-true": lambda: Case(flow_row("&&", "true", 49_990), None, FLOW),
    "flow-false": lambda: Case(flow_row("||", "false", 49_990), None, FLOW),
    "flow-parentheses": lambda: Case(flow_parentheses(196), None, FLOW),
    "flow-blocks": lambda: Case(flow_blocks(1_000), None, FLOW),
    "flow-branches": lambda: Case(flow_branches(1_000), None, FLOW),
    "flow-calls": lambda: Case(flow_calls("m", "f", 190, 5), None, FLOW),
    "flow-numbers": lambda: Case(flow_calls("x", "g", 160, 3), None, FLOW),
}

# Long texts of bench/texts.py
LONG: dict[str, Callable[[], Case]] = {
    "else-if": text_case("else-if", "oneloop problem P"),
    "blocks": text_case("blocks", "oneloop problem P"),
    "statements": text_case("statements", "oneloop problem P"),
    "choices": text_case("choices", "gkat problem"),
    "factors": text_case("factors", "gkat problem"),
    "chain": text_case("chain", "check problem evidence"),
    "chain-read": text_case("chain-read", "replay problem evidence"),
    "nested": text_case("nested", "replay problem evidence"),
    "induction": text_case("induction", "chain problem evidence"),
    "proof": text_case("proof", "chain problem evidence"),
    "branches": text_case("branches", "outline problem evidence"),
}

CASES = {**NESTED, **FLOWS, **LONG}


# Measuring

def ending(program: str, call: Call, folder: Path, kilobytes: int) -> Ending:
    """Runs the call with a stack of that size."""
    def limit() -> None:
        hard = resource.getrlimit(resource.RLIMIT_STACK)[1]
        resource.setrlimit(resource.RLIMIT_STACK, (kilobytes * KB, hard))
        resource.setrlimit(resource.RLIMIT_CORE, (0, 0))

    done = subprocess.run([program, *call.words], cwd=folder, stdin=subprocess.DEVNULL, stdout=subprocess.PIPE,
                          stderr=subprocess.DEVNULL, preexec_fn=limit, timeout=PATIENCE, check=False)
    return Ending(done.returncode, done.stdout)


def allowed() -> int:
    """The greatest stack in KB, up to MOST, that the system lets a call have."""
    hard = resource.getrlimit(resource.RLIMIT_STACK)[1]
    return MOST if hard == resource.RLIM_INFINITY else min(MOST, hard // KB)


def least(suffices: Callable[[int], bool], low: int, high: int, step: int) -> int:
    """The least size from `low` to `high`, to within a step, that suffices, where `high` does: sizes are doubled until
    one suffices, and then halved between it and the one before."""
    if suffices(low):
        return low
    enough = min(2 * low, high)
    while enough < high and not suffices(enough):
        low, enough = enough, min(2 * enough, high)
    while enough - low > step:
        middle = (low + enough) // 2
        if suffices(middle):
            enough = middle
        else:
            low = middle
    return enough


def least_stack(program: str, call: Call, folder: Path) -> Optional[int]:
    """The least stack in KB with which the call ends as with the most, or None if it ends by a signal there."""
    best = ending(program, call, folder, allowed())
    if best.status < 0:
        return None
    return least(lambda size: ending(program, call, folder, size) == best, LEAST, allowed(), STEP)


def write(program: str, case: Case, folder: Path) -> None:
    """Writes the files of a case."""
    (folder / "problem").write_text(case.problem)
    evidence = case.evidence
    if evidence is None and any("evidence" in call.words for call in case.calls):
        evidence = ending(program, calls("decide problem")[0], folder, allowed()).printed.decode()
    (folder / "evidence").write_text(evidence or "")


def measured(program: str, names: list[str], folder: Path) -> None:
    print("| case | call | status | least stack, KB |\n|---|---|---|---|")
    for name in names:
        case = CASES[name]()
        write(program, case, folder)
        for call in case.calls:
            size = least_stack(program, call, folder)
            status = ending(program, call, folder, allowed()).status
            print(f"| {name} | {' '.join(call.words)} | {status} | {'-' if size is None else f'{size:,}'} |", flush=True)


def failures(program: str, names: list[str], folder: Path) -> int:
    """Runs each call with the stack that docs/embedding.md gives, and returns how many end by a signal."""
    failed = 0
    for name in names:
        case = CASES[name]()
        write(program, case, folder)
        for call in case.calls:
            enough = ENOUGH_FOR_FLOW if call.words[0] == "flow" else ENOUGH
            if enough > allowed():
                print(f"bench/stack.py: the system allows no stack of {enough} KB, so {name} is skipped")
                continue
            status = ending(program, call, folder, enough).status
            if status < 0:
                print(f"bench/stack.py: FAILED: {name}: {' '.join(call.words)}: signal {-status} with a stack of {enough} KB")
                failed += 1
    return failed


def main() -> None:
    reader = argparse.ArgumentParser(description="Measures the stack that commands use.")
    reader.add_argument("--kat", default=str(TOP / "kat"))
    reader.add_argument("--check", action="store_true")
    reader.add_argument("case", nargs="*")
    said = reader.parse_args()
    lost = [name for name in said.case if name not in CASES]
    if lost:
        sys.exit(f"no case {lost[0]}; there are {', '.join(CASES)}")
    program, names = built(said.kat), said.case or list(CASES)
    with tempfile.TemporaryDirectory() as room:
        if not said.check:
            measured(program, names, Path(room))
        elif failures(program, names, Path(room)):
            sys.exit(1)


if __name__ == "__main__":
    main()
