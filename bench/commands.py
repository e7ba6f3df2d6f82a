#!/usr/bin/env python3
# SPDX-License-Identifier: MIT OR Apache-2.0
"""Measures commands that `families.py` and `texts.py` do not: `kat optimise` on families of programs, `kat bench`,
`kat batch` beside `kat decide` on each goal alone, and `kat decide --json` beside `kat decide`.

    python3 bench/commands.py [--kat PROGRAM] [--runs N] [CASE[=SIZE] ..]

Without names all cases are measured at the sizes below. The program is the one that the script `kat` runs. Seconds are
of the processor, the least of N runs (3) of the whole process, added up where several calls belong together; memory is
the greatest peak in MB, with `-` where each run ended before it could be read.
"""

import argparse
import random
import sys
import tempfile
from pathlib import Path
from typing import Callable

from families import TOP, block, built, declared, names, peak, seconds

LETTERS = declared("test", names("t", 8)) + declared("action", names("a", 8))


# A case gives texts by their names, and calls that are measured: what they are called, and the words of each.
Case = tuple[dict[str, str], list[tuple[str, list[list[str]]]]]

def optimised(text: str, prog: str = "P") -> Case:
    return {"f": text}, [("optimise", [["optimise", "f", prog]])]


def program(before: str, statements: str) -> Case:
    return optimised(f"{before}prog P {{ {statements} }}\ngoal equal P, P;\n")


def ordinary(_: int) -> Case:
    """An ordinary program with three dead branches."""
    return optimised((TOP / "examples/holds/program-unswitched.kat").read_text(), "before")


def loops(n: int) -> Case:
    """n times a loop and a branch on the test of that loop."""
    return program("test b;\naction p, q;\n", " ".join(["while b { p; } if b { q; }"] * n))


def branches(n: int) -> Case:
    """n branches on eight tests, to which no step applies."""
    return program(LETTERS, " ".join(f"if t{k % 8} {{ a{k % 8}; }} else {{ a{(k + 1) % 8}; }}" for k in range(n)))


def skips(n: int) -> Case:
    """n statements that do nothing."""
    return program("", " ".join(["skip;"] * n))


def untouched(n: int) -> Case:
    """A loop that asks n comparisons which no assignment touches, and a branch on the test of the loop."""
    body = " ".join(f"if y{i} == 0 {{ z := z + 1; }} else {{ z := z + 2; }}" for i in range(n))
    return program(f"var z, {', '.join(names('y', n))};\n", f"while z < 1000 {{ {body} }} if z < 1000 {{ z := 0; }}")


def unswitched(n: int) -> Case:
    """A loop over n such comparisons whose body is one branch, on the first of them."""
    body = " ".join(f"if y{i} == 0 {{ z := z + 1; }} else {{ z := z + 2; }}" for i in range(1, n))
    loop = f"while z < 1000 {{ if y0 == 0 {{ z := z + 3; {body} }} else {{ z := z + 4; {body} z := z + 5; }} }}"
    return program(f"var z, {', '.join(names('y', n))};\n", loop)


def generated(n: int) -> Case:
    """n generated problems."""
    return {}, [("bench", [["bench", str(n)]])]


def goals(n: int) -> Case:
    """n goals over one file: random programs of some 300 statements, and the same with each loop unrolled once."""
    programs, asked = "", []
    for k in range(n):
        left, right = (block(random.Random(k), 300, 3, unrolls) for unrolls in (False, True))
        programs += f"prog P{k} {{ {left} }}\nprog Q{k} {{ {right} }}\n"
        asked.append(f"goal equal P{k}, Q{k};\n")
    alone = {f"f{k}": LETTERS + programs + goal for k, goal in enumerate(asked)}
    return {"f": LETTERS + programs + "".join(asked), **alone}, [
        ("batch", [["batch", "f"]]),
        ("decide, goal by goal", [["decide", name] for name in alone]),
    ]


def grouped(actions: list[str], size: int) -> str:
    """A product of groups of so many actions, each with its brackets from the left."""
    groups = [actions[k : k + size] for k in range(0, len(actions), size)]
    return ".".join("(" * (len(it) - 1) + it[0] + "".join(f".{a})" for a in it[1:]) for it in groups)


def report(n: int) -> Case:
    """n actions at random, and the same in other brackets, whose certificate is long."""
    pick, letters = random.Random(1), names("a", 48)
    actions = [pick.choice(letters) for _ in range(n)]
    goal = f"goal equal {grouped(actions, 24)}, {'.'.join(actions)};\n"
    return {"f": declared("action", letters) + goal}, [
        ("decide", [["decide", "f"]]),
        ("decide --json", [["decide", "f", "--json"]]),
    ]


CASES: dict[str, tuple[Callable[[int], Case], int]] = {
    "ordinary": (ordinary, 1),
    "loops": (loops, 50),
    "branches": (branches, 1_000),
    "skips": (skips, 1_000),
    "untouched": (untouched, 20),
    "unswitched": (unswitched, 20),
    "generated": (generated, 1_000),
    "goals": (goals, 10),
    "report": (report, 25_000),
}


# Measuring

def outcome(words: list[str], status: int, printed: bytes) -> str:
    """What is told of one run beside its time: how a log ends, the line of `bench`, or nothing but its length."""
    lines = printed.splitlines()
    steps = sum(line.startswith(b"S") for line in lines)
    if words[0] == "optimise" and status == 0:
        return f"{steps:,} step{'s' if steps != 1 else ''}, {lines[steps].decode()}"
    return lines[0].decode() if words[0] == "bench" and lines else ""


def measure(program: str, calls: list[list[str]], out: Path, runs: int) -> tuple[list[int], str, float, float]:
    """The statuses, what is told of the calls, and the seconds and the peak of all of them."""
    statuses, told, length, time, most = set(), "", 0, 0.0, 0.0
    for words in calls:
        found = [seconds(program, words, out) for _ in range(runs)]
        statuses |= {status for status, _ in found}
        printed = out.read_bytes()
        told, length = outcome(words, found[0][0], printed), length + len(printed)
        time += min(it for _, it in found)
        most = max(most, *(peak(program, words, out) for _ in range(runs)))
    return sorted(statuses), told or f"{length:,} bytes", time, most


HEADS = ["case", "n", "bytes", "call", "status", "what is printed", "s", "MB"]


def main() -> None:
    reader = argparse.ArgumentParser(description="Measures kat optimise, bench, batch and decide --json.")
    reader.add_argument("--kat", default=str(TOP / "kat"))
    reader.add_argument("--runs", type=int, default=3)
    reader.add_argument("case", nargs="*")
    said = reader.parse_args()
    asked = [it.partition("=") for it in said.case] or [(it, "", "") for it in CASES]
    lost = [name for name, _, _ in asked if name not in CASES]
    if lost:
        sys.exit(f"no case {lost[0]}; there are {', '.join(CASES)}")
    program = built(said.kat)
    print("| " + " | ".join(HEADS) + " |\n|" + "---|" * len(HEADS))
    for name, _, size in asked:
        make, usual = CASES[name]
        texts, calls = make(int(size or usual))
        with tempfile.TemporaryDirectory() as room:
            for file, text in texts.items():
                (Path(room) / file).write_text(text)
            for what, each in calls:
                statuses, told, time, most = measure(program, each, Path(room) / "said", said.runs)
                length = f"{len(texts['f']):,}" if texts else "-"
                row = [name, f"{int(size or usual):,}", length, what, ", ".join(map(str, statuses)), told, f"{time:.3f}",
                       f"{most:.0f}" if most else "-"]
                print("| " + " | ".join(row) + " |", flush=True)


if __name__ == "__main__":
    main()
