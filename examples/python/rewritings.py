#!/usr/bin/env python3
# SPDX-License-Identifier: MIT OR Apache-2.0
"""Checks two rewritings of a loop, as examples/c/rewritings.c does and with the same output, by the package of python/.

    pip install ./python
    python3 examples/python/rewritings.py
"""

import sys
from typing import Dict

import kat

BEFORE = "while i < n { sum := sum + i; i := i + 1; }"
REWRITINGS: Dict[str, str] = {
    "peeled": "if i < n { sum := sum + i; i := i + 1; while i < n { sum := sum + i; i := i + 1; } }",
    "hoisted": "if i < n { i := i + 1; while i < n { sum := sum + i; } }",
}


def judge(prover: kat.Library, name: str, after: str) -> None:
    problem = f"var i, n, sum;\nprog before {{ {BEFORE} }}\nprog after {{ {after} }}\ngoal equal before, after;\n"
    decision = prover.decide(problem)
    print(f"{name}: decide {decision.status}")
    checked = prover.check(problem, decision.evidence)
    print(f"{name}: check {checked.status}, {checked.text}", end="")
    if not decision.holds:
        replayed = prover.replay(problem, decision.evidence)
        print(f"{name}: replay {replayed.status}\n{replayed.text}", end="")


def main() -> int:
    prover = kat.Library()
    for name, after in REWRITINGS.items():
        try:
            judge(prover, name, after)
        except kat.Refused as why:
            print(f"{name}: {why}", file=sys.stderr)
            return 1
    return 0


if __name__ == "__main__":
    sys.exit(main())
