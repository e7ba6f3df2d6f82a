#!/usr/bin/env python3
# SPDX-License-Identifier: MIT OR Apache-2.0
"""Measures what long texts cost: problems under `kat decide`, programs under `kat run` and `kat show`, guarded programs
under `kat gkat`, flow graphs under `kat flow`, evidence under `kat check` and `kat replay`, proofs under `kat chain`, and
notes under `kat outline`.

    python3 bench/texts.py [--kat PROGRAM] [--runs N] [CASE ..]

Without names all cases are measured, each at its size and at half of it. The program is the one that the script `kat`
runs. Seconds are of the processor, the least of N runs (3); memory is the greatest peak in MB, with `-` where each run
ended before it could be read.
"""

import argparse
import random
import sys
import tempfile
from pathlib import Path
from typing import Callable, Union

from families import TOP, built, peak, seconds

STARS = "action p;\ngoal equal p*, p*;\n"


# Problems

def terms(n: int) -> str:
    """n items that define a term each."""
    return "action p;\n" + "".join(f"term t{i} = p;\n" for i in range(n)) + "goal equal p,p;"


def parentheses(n: int) -> str:
    """A sum of n tests, each in 199 parentheses."""
    return f"test b;\ngoal equal {'+'.join([f'{chr(40) * 199}b{chr(41) * 199}'] * n)}, b;\n"


def names(n: int) -> str:
    """A sum of n names of 29 letters."""
    name = "b" * 29
    return f"test {name};\ngoal equal {'+'.join([name] * n)}, 0;\n"


def condition(n: int) -> str:
    """A disjunction of n tests, each in 198 parentheses, in one condition."""
    return f"test b;\ngoal triple {{{'||'.join([f'{chr(40) * 198}b{chr(41) * 198}'] * n)}}} 1 {{b}};\n"


def stars(n: int) -> str:
    """Any number of the first action, and a product of n stars of 48 actions in turn, which has n moves at its start."""
    letters = [f"a{k}" for k in range(48)]
    product = ".".join(f"{letters[k % 48]}*" for k in range(n))
    return f"action {', '.join(letters)};\ngoal equal a0*, {product};\n"


def pairs(n: int) -> str:
    """The first of n products of two actions, and the sum of them all."""
    letters = [f"a{k}" for k in range(48)]
    products = [f"{letters[k % 48]}.{letters[k // 48 % 48]}" for k in range(n)]
    return f"action {', '.join(letters)};\ngoal equal {products[0]}, {' + '.join(products)};\n"


# Programs, two of half the length each, since one may have 100,000 nodes; the last is run

def programs(before: str, statements: str) -> str:
    """A text of two programs with these statements each, after what they need."""
    return f"{before}prog Q {{ {statements}}}\nprog P {{ {statements}}}\ngoal equal 0, 0;\n"


def statements(n: int) -> str:
    """n statements that do nothing."""
    return programs("", "skip; " * (n // 2))


def chains(n: int) -> str:
    """n times `else if`, 198 in a chain."""
    chain = "if true { } " + "else if true { } " * 198
    return programs("", chain * (n // 2 // 198))


def blocks(n: int) -> str:
    """n blocks, 199 in one another."""
    return programs("", ("if true { " * 198 + "} " * 198) * (n // 2 // 198))


def uses(n: int) -> str:
    """n uses of an empty program."""
    return programs("prog E { }\n", "E;" * (n // 2))


def full(n: int) -> str:
    """n comparisons and n assignments, of which none touches another's variable."""
    x = [f"x{i}" for i in range(n)]
    checks = " ".join(f"{it} := {it} + 1; assert {it} < {i + 100};" for i, it in enumerate(x))
    return f"var {', '.join(x)};\nprog P {{ {checks} }}\ngoal equal P, P;\n"


# Guarded programs

def guarded(side: str) -> str:
    """A text of two sides that are the same."""
    return f"test bbbbb;\naction pppppqqqq, ppppp;\nequal {side},\n{side};\n"


def choices(n: int) -> str:
    """n choices, 198 in one another."""
    block = "(" + "ppppp+[bbbbb](" * 198 + "ppppp" + ")" * 199
    return guarded(".".join([block] * (n // 2 // 198)))


def factors(n: int) -> str:
    """n actions in two products."""
    return guarded(".".join(["pppppqqqq"] * (n // 2)))


# Flow graphs, each with a copy of itself

def flow_pair(declared: str, blocks: list[str]) -> str:
    """A text of a graph with these blocks, and of a copy of it."""
    lines = "\n".join(blocks)
    return f"sort mem;\nfun mem f(mem, u64);\nfun u8 g(mem, u64);\nvar mem m;\n{declared}" + "".join(
        f"graph {name} {{\n{lines}\n}}\n" for name in ("before", "after")) + "equal before, after;\n"


def loops(n: int) -> str:
    """n blocks in ten loops, one after the other. Every tenth block of a loop calls a function on memory."""
    turn, blocks = (n - 1) // 10, []
    for k in range(n - 1):
        call = "m := f(m, x + i); " if k % 10 == 0 else ""
        last = k % turn == turn - 1
        jump = f"if g(m, i) == {k // turn} goto b{k - turn + 1} else b{k + 1};" if last else f"goto b{k + 1};"
        blocks.append(f"block b{k} {{ {call}i := i + {k}; {jump} }}")
    return flow_pair("var u64 i, x;\n", [*blocks, f"block b{n - 1} {{ return i, m; }}"])


def ways(n: int) -> str:
    """A switch for each prime factor of n, one after the other, with that number of cases: n ways."""
    factors, rest = [], n
    while rest > 1:
        factors.append(next(it for it in range(2, rest + 1) if rest % it == 0))
        rest //= factors[-1]
    blocks = []
    for k, cases in enumerate(factors):
        for case in range(cases - 1):
            blocks += [f"block b{k}_{case} {{ if g(m, {k}) == {case} goto c{k}_{case} else b{k}_{case + 1}; }}",
                       f"block c{k}_{case} {{ i := i + {case}; goto b{k + 1}_0; }}"]
        blocks.append(f"block b{k}_{cases - 1} {{ goto b{k + 1}_0; }}")
    return flow_pair("var u64 i;\n", [*blocks, f"block b{len(factors)}_0 {{ m := f(m, 0); return m; }}"])


def assignments(n: int) -> str:
    """n assignments of a variable of 29 letters in one block; the copy has them too."""
    name = "v" * 29
    return flow_pair(f"var u64 {name};\n", [f"block entry {{ {f'{name} := {name} + 1; ' * (n // 2)}return {name}; }}"])


def groups(n: int) -> str:
    """n sums of 2,000 names, each in 180 parentheses."""
    inner = "(" * 180 + " + ".join(["xx"] * 2_000) + ")" * 180
    return flow_pair("var u64 xx;\n", [f"block entry {{ {f'xx := {inner}; ' * (n // 2)}return xx; }}"])


# Evidence, with the problem that it belongs to

def chain(n: int) -> tuple[str, str]:
    """n nodes, each the star of the one before."""
    return STARS, "kat 1 equal\nE act 0\n" + "".join(f"E star {i}\n" for i in range(n - 1)) + "P 1 | 1\nend\n"


def random_nodes(pick: random.Random, n: int) -> list[str]:
    """The action, its star, and n sums and products of earlier nodes."""
    lines, seen = ["E act 0", "E star 0"], set()
    while len(lines) < n + 2:
        line = f"E {pick.choice(('sum', 'seq'))} {pick.randrange(len(lines))} {pick.randrange(len(lines))}"
        if line not in seen:
            seen.add(line)
            lines.append(line)
    return lines


def certificate(style: int, lines: list[str]) -> tuple[str, str]:
    return STARS, "\n".join([f"kat {style} equal", *lines, "end"]) + "\n"


def mixed(n: int) -> tuple[str, str]:
    """n sums and products of earlier nodes at random, and half as many pairs of them."""
    pick = random.Random(1)
    lines = random_nodes(pick, n)
    return certificate(1, [*lines, *(f"P {pick.randrange(n)} | {pick.randrange(n)}" for _ in range(n // 2))])


def few(n: int) -> tuple[str, str]:
    """n sums and products of earlier nodes at random, and eight pairs of which each is of one node."""
    lines = random_nodes(random.Random(1), n)
    return certificate(2, [*lines, "P 1 | 1", *(f"P {k} | {k}" for k in range(2, 9))])


def listed(n: int) -> tuple[str, str]:
    """n nodes, each the action and then the one before, and half as many pairs, each of one node and led to by the next."""
    lines = ["E act 0", "E star 0", "E seq 0 1", *(f"E seq 0 {k}" for k in range(2, n - 1))]
    return certificate(1, [*lines, "P 1 | 1", *(f"P {k} | {k}" for k in range(2, n // 2 + 1))])


def string_of(term: str) -> tuple[str, str]:
    """The text of a problem on the term, and a string of 200 positions."""
    return f"action p;\n{term}", "kat 1 different\nA\n" + "M 0\n" * 199 + "end\n"


def nested(n: int) -> tuple[str, str]:
    """n stars in one another."""
    items = "term s0 = p*;\n" + "".join(f"term s{i} = s{i - 1}*;\n" for i in range(1, n))
    return string_of(f"{items}goal equal s{n - 1}, 0;\n")


def product(n: int) -> tuple[str, str]:
    """A balanced product of n stars."""
    return string_of(f"goal equal {'.'.join(['p*'] * n)}, 0;\n")


def powers(n: int) -> tuple[str, str]:
    """The sum of the first n powers of the action."""
    return string_of(f"goal equal {' + '.join('.'.join(['p'] * k) for k in range(1, n + 1))}, 0;\n")


def moves(n: int) -> tuple[str, str]:
    """A string of n moves, under a hypothesis on its parts of any length."""
    return "action p, q;\nhyp q.p* = 0;\ngoal equal p*, 1;\n", "kat 1 different\nA\n" + "M 0\n" * n + "end\n"


def broken(n: int) -> tuple[str, str]:
    """The same with a last move that breaks the hypothesis."""
    problem, string = moves(n)
    return problem, string.replace("end\n", "M 1\nend\n")


# Proofs, with the problem that they are of

INNERMOST = "(1 + 1.1) + 1 = (1 + 1) + 1 by oneleft at 0.1; = 1 + 1 by idem at 0; = 1 by idem;"

def proof(n: int) -> tuple[str, str]:
    """n lines, each of which exchanges both halves of a sum of 66 actions."""
    term = "+".join(["a0"] * 66)
    return f"action p;\ngoal equal {term.replace('a0', 'p')}, {term.replace('a0', 'p')};\n", term + f"\n= {term} by comm;" * n


def induction(n: int) -> tuple[str, str]:
    """n inner proofs in one another, each of the premise of `1*.1 + 1 = 1` by way of that equation itself."""
    inner = INNERMOST
    for _ in range(n - 1):
        inner = f"{INNERMOST} = 1*.1 + 1 by lfp {{ {inner} }}; = 1 by lfp {{ {INNERMOST} }};"
    return "goal equal 1*.1 + 1, 1;\n", f"1*.1 + 1 = 1 by lfp {{ {inner} }};"


def atoms(n: int) -> tuple[str, str]:
    """A sum of n tests in order and in reverse, by one line."""
    tests = [f"t{k}" for k in range(n)]
    order, reverse = "+".join(tests), "+".join(reversed(tests))
    return f"test {', '.join(tests)};\ngoal equal {order}, {reverse};\n", f"{order} = {reverse} by bool;"


# Notes, with the problem that they are of

def noted(declared: str, statements: str, nodes: list[str], notes: list[int]) -> tuple[str, str]:
    """A triple of a program with these statements, which holds of nothing, and notes with these nodes."""
    problem = f"{declared}prog P {{ {statements}}}\ngoal triple {{false}} P {{true}};\n"
    lines = ["kat 1 outline", "D false", "D true", *nodes, *(f"C {it}" for it in notes), "end"]
    return problem, "\n".join(lines) + "\n"


def branches(n: int) -> tuple[str, str]:
    """n nodes in one chain, of which each asks the one test and goes on to the two before it."""
    return noted("test b;\n", "", [f"D test 0 {k + 1} {k}" for k in range(n)], [n + 1])


def lists(n: int) -> tuple[str, str]:
    """The same with 48 tests in turn, each node of which goes on to the one before it or ends."""
    tests = f"test {', '.join(f't{k}' for k in range(48))};\n"
    return noted(tests, "", [f"D test {k % 48} {k + 1} {k % 2}" for k in range(n)], [n + 1])


def notes(n: int) -> tuple[str, str]:
    """n notes, where the program has one place."""
    return noted("", "", [], [0] * n)


def places(n: int) -> tuple[str, str]:
    """n statements that do nothing, with a note at each place."""
    return noted("", "skip; " * n, [], [0] * n + [1])


CASES: dict[str, tuple[str, Callable[[int], Union[str, tuple[str, str]]], int]] = {
    "terms": ("decide", terms, 62_333),
    "parentheses": ("decide", parentheses, 2_621),
    "names": ("decide", names, 33_333),
    "condition": ("decide", condition, 2_627),
    "stars": ("decide", stars, 3_333),
    "pairs": ("decide", pairs, 2_304),
    "statements": ("run", statements, 174_000),
    "else-if": ("run", chains, 61_000),
    "blocks": ("run", blocks, 87_000),
    "uses": ("run", uses, 520_000),
    "full": ("show", full, 48),
    "choices": ("gkat", choices, 66_132),
    "factors": ("gkat", factors, 100_000),
    "loops": ("flow", loops, 1_000),
    "ways": ("flow", ways, 1_000),
    "assignments": ("flow", assignments, 15_400),
    "groups": ("flow", groups, 90),
    "chain": ("check", chain, 800_000),
    "chain-read": ("replay", chain, 800_000),
    "mixed-read": ("replay", mixed, 250_000),
    "few": ("check", few, 125_000),
    "listed": ("check", listed, 100_000),
    "nested": ("replay", nested, 1_000),
    "product": ("replay", product, 512),
    "powers": ("replay", powers, 199),
    "moves": ("check", moves, 100_000),
    "broken": ("check", broken, 100_000),
    "proof": ("chain", proof, 5_000),
    "induction": ("chain", induction, 199),
    "atoms": ("chain", atoms, 48),
    "branches": ("outline", branches, 1_000_000),
    "lists": ("outline", lists, 10_000),
    "notes": ("outline", notes, 1_000_000),
    "places": ("outline", places, 49_000),
}

# The words after the problem's
MORE = {"decide": [], "show": [], "gkat": [], "flow": [], "run": ["P", "zero", "0"], "check": ["evidence"], "replay": ["evidence"],
        "chain": ["evidence"], "outline": ["evidence"]}


# Measuring

def measure(program: str, name: str, size: int, folder: Path, runs: int) -> list[str]:
    command, make, _ = CASES[name]
    made = make(size)
    problem, evidence = made if isinstance(made, tuple) else (made, "")
    (folder / "problem").write_text(problem)
    (folder / "evidence").write_text(evidence)
    words = [command, "problem", *MORE[command]]
    found = [seconds(program, words, folder / "said") for _ in range(runs)]
    most = max(peak(program, words, folder / "said") for _ in range(runs))
    return [name, f"{size:,}", f"{len(evidence or problem):,}", command, str(found[0][0]),
            f"{min(it for _, it in found):.2f}", f"{most:.0f}" if most >= 0.5 else "-"]


def main() -> None:
    reader = argparse.ArgumentParser(description="Measures what long texts cost.")
    reader.add_argument("--kat", default=str(TOP / "kat"))
    reader.add_argument("--runs", type=int, default=3)
    reader.add_argument("case", nargs="*")
    said = reader.parse_args()
    lost = [name for name in said.case if name not in CASES]
    if lost:
        sys.exit(f"no case {lost[0]}; there are {', '.join(CASES)}")
    program = built(said.kat)
    print("| case | n | bytes | command | status | s | MB |\n|---|---|---|---|---|---|---|")
    with tempfile.TemporaryDirectory() as room:
        for name in said.case or CASES:
            for size in (CASES[name][2], CASES[name][2] // 2):
                row = measure(program, name, size, Path(room), said.runs)
                print("| " + " | ".join(row) + " |", flush=True)


if __name__ == "__main__":
    main()
