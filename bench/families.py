#!/usr/bin/env python3
# SPDX-License-Identifier: MIT OR Apache-2.0
"""Measures `kat decide`, and `kat check` on what it prints, on families of problems, and prints a table; and
`kat outline`, and `kat outline` on its own notes, on families of triples of programs, and prints another.

    python3 bench/families.py [--kat PROGRAM] [--runs N] [--keep FOLDER] [FAMILY[=SIZE] ..]

Without names all families are measured at the sizes below. The program is the one that the script `kat` runs; another
that takes the same words may be named. Times are the least of N runs (5) of the whole process, in seconds of the
processor; memory is the greatest peak of N more, in MB, with `-` where each ended before it could be read. `pairs` are
those of a certificate, `moves` those of a string, `nodes` and `notes` those of an outline. With --keep the problems,
their evidence and their notes stay in that folder.
"""

import argparse
import os
import random
import re
import resource
import subprocess
import sys
import tempfile
from pathlib import Path
from typing import Callable

TOP = Path(__file__).resolve().parent.parent
# Gives the text of a problem of some size.
Family = Callable[[int], str]


# Problems, as texts

def names(letter: str, count: int) -> list[str]:
    return [f"{letter}{i}" for i in range(count)]


def declared(kind: str, list_of_names: list[str]) -> str:
    return f"{kind} {', '.join(list_of_names)};\n" if list_of_names else ""


def tests(n: int) -> str:
    """A sum of tests, and the sum in reverse order."""
    t = names("t", n)
    return declared("test", t) + f"goal equal {' + '.join(t)}, {' + '.join(reversed(t))};\n"


def denest(n: int) -> str:
    """Any of n actions any number of times, as a star of a product of stars."""
    p = names("p", n)
    stars = ".".join(f"{it}*" for it in p)
    return declared("action", p) + f"goal equal ({' + '.join(p)})*, ({stars})*;\n"


def lastbut(n: int) -> str:
    """The last action but n is p, and the same with a star more."""
    more = ".".join(["(p + q)"] * n)
    return f"action p, q;\ngoal equal (p + q)*.p.{more}, (p + q)*.(p + q)*.p.{more};\n"


def nest(n: int) -> str:
    """n loops in one another, and each of them unrolled once."""
    text = declared("test", names("b", n)) + declared("action", names("p", n))
    loop, unrolled = "b0.p0", "b0.p0"
    for k in range(n):
        text += f"term w{k} = ({loop})*.!b{k};\nterm u{k} = {unrolled}.({unrolled})*.!b{k} + !b{k};\n"
        loop, unrolled = f"b{k + 1}.p{k + 1}.w{k}", f"b{k + 1}.p{k + 1}.u{k}"
    return text + f"goal equal w{n - 1}, u{n - 1};\n"


def chain(n: int) -> str:
    """n triples give the triple of their sequence."""
    t, p = names("t", n + 1), names("p", n)
    text = declared("test", t) + declared("action", p)
    text += "".join(f"hyp t{i}.p{i}.!t{i + 1} = 0;\n" for i in range(n))
    return text + f"goal triple {{t0}} {'.'.join(p)} {{t{n}}};\n"


def broken(n: int) -> str:
    """The same with the hypothesis in the middle left out."""
    middle = f"hyp t{n // 2}.p{n // 2}.!t{n // 2 + 1} = 0;\n"
    return chain(n).replace(middle, "")


def ring(n: int) -> str:
    """n triples of one action lead from test to test and back to the first."""
    t = names("t", n)
    text = declared("test", t) + "action p;\n"
    text += "".join(f"hyp t{i}.p.!t{(i + 1) % n} = 0;\n" for i in range(n))
    return text + f"goal triple {{t0}} {'.'.join(['p'] * n)} {{t0}};\n"


def differ(n: int) -> str:
    """Fewer than n times p, each power of p written out, and any number of times."""
    powers = ["1"] + [".".join(["p"] * k) for k in range(1, n)]
    return f"action p;\ngoal equal {' + '.join(powers)}, p*;\n"


def frames_before(n: int) -> str:
    """n tests that two actions leave alone, as hypotheses on single moves, and a test of a loop."""
    text = declared("test", [*names("b", n), "c"]) + "action p, q;\n"
    return text + "".join(f"hyp b{i}.{a}.!b{i} = 0;\nhyp !b{i}.{a}.b{i} = 0;\n" for a in "pq" for i in range(n))


def unswitched_frames(n: int, first: str) -> str:
    """A loop over n tests that its actions leave alone, and the same with the first test taken out of the loop."""
    later = [f"(b{i}.p + !b{i}.q)" for i in range(1, n)]
    left = ".".join(["c", "(b0.p + !b0.q)", *later])
    loops = [".".join(["c", action, *later]) for action in (first, "q")]
    return frames_before(n) + f"goal equal ({left})*.!c, b0.({loops[0]})*.!c + !b0.({loops[1]})*.!c;\n"


def frames(n: int) -> str:
    """A loop over n tests that its two actions leave alone, with the first test taken out of the loop."""
    return unswitched_frames(n, "p")


def frameless(n: int) -> str:
    """The same with the second action in the place of the first, which is wrong."""
    return unswitched_frames(n, "q")


def literal(pick: random.Random, tests_of: list[str]) -> str:
    return f"{pick.choice(['', '!'])}{pick.choice(tests_of)}"


def corner(pick: random.Random, t: list[str]) -> str:
    return f"{literal(pick, t)}.{literal(pick, t)}.{pick.choice('pq')}.{literal(pick, t)}"


def cornered(n: int, count: int, rests: int = 0, goal: Family = frames) -> str:
    """`frames` with random hypotheses more: each rules out one of its actions in a corner of three tests, or fewer. The
    left side of the goal has some of their terms more, so that the goal rests on these hypotheses."""
    pick, t = random.Random(1), names("b", n)
    terms = [corner(pick, t) for _ in range(count)]
    text = goal(n).replace("goal", "".join(f"hyp {it} = 0;\n" for it in terms) + "goal")
    return text.replace("goal equal ", "goal equal " + "".join(f"{it} + " for it in terms[:rests]))


def corners(n: int) -> str:
    """`frames` with as many random hypotheses more."""
    return cornered(n, n)


def manycorners(n: int) -> str:
    """`frames` with four times as many random hypotheses more."""
    return cornered(n, 4 * n)


def wrongcorners(n: int) -> str:
    """`frameless` with as many random hypotheses more."""
    return cornered(n, n, 0, frameless)


def resting(n: int) -> str:
    """`corners` over 46 tests, where the goal rests on n of the random hypotheses."""
    return cornered(46, 46, n)


def keep(n: int) -> str:
    """n tests that an action keeps, which hold after a loop if they hold before it: the goal rests on each."""
    t = names("b", n)
    text = declared("test", [*t, "c"]) + "action p;\n" + "".join(f"hyp {it}.p.!{it} = 0;\n" for it in t)
    return text + f"goal equal {'.'.join(t)}.(c.p)*.!c, {'.'.join(t)}.(c.p)*.!c.{'.'.join(t)};\n"


def idle(family: Family) -> Family:
    """A family with one hypothesis more, on a test and an action of its own."""
    def text(n: int) -> str:
        return "test idle;\naction idles;\nhyp idle.idles.!idle = 0;\n" + family(n)
    text.__doc__ = family.__doc__
    return text


def asked(n: int) -> str:
    """n tests that an action leaves alone, asked in front of a loop of it and again behind it, the first one more."""
    t = names("b", n)
    text = declared("test", [*t, "c"]) + "action p, q;\n"
    text += "".join(f"hyp {one}.q.{other} = 0;\n" for it in t for one, other in ((it, f"!{it}"), (f"!{it}", it)))
    branches = ".".join(f"({it}.p + !{it})" for it in t)
    return text + f"goal equal {branches}.(c.q)*.!c.{branches}, {branches}.(c.q)*.!c.({t[0]} + !{t[0]}).{branches};\n"


def moves(n: int) -> str:
    """n random hypotheses on single moves over 48 tests and 48 actions, and a loop of twelve actions unrolled once."""
    pick, t, p = random.Random(1), names("t", 48), names("p", 48)
    text = declared("test", t) + declared("action", p)
    for _ in range(n):
        text += f"hyp {literal(pick, t)}.{literal(pick, t)}.{pick.choice(p)}.{literal(pick, t)} = 0;\n"
    body = ".".join(f"({literal(pick, t)}.{pick.choice(p)} + {literal(pick, t)}.{pick.choice(p)})" for _ in range(6))
    return text + f"goal equal ({body})*, 1 + {body}.({body})*;\n"


# Programs

def unrolled_goal(before: str, guard: str, body: str) -> str:
    """A loop, and the loop with its first turn in front of it."""
    loop = f"while {guard} {{ {body} }}"
    return f"{before}prog P {{ {loop} }}\nprog Q {{ if {guard} {{ {body} {loop} }} }}\ngoal equal P, Q;\n"


def untouched(n: int) -> str:
    """A loop that tests n comparisons which no assignment touches, unrolled once."""
    before = f"var z, {', '.join(names('y', n))};\n"
    body = " ".join(f"if y{i} == 0 {{ z := z + 1; }} else {{ z := z + 2; }}" for i in range(n))
    return unrolled_goal(before, "z < 1000", body)


def line(n: int) -> str:
    """A loop whose body is n assignments in a line, unrolled once."""
    before = f"var i, {', '.join(names('x', n + 1))};\n"
    body = " ".join(f"x{k} := x{k + 1} + {k};" for k in range(n - 1)) + " i := i + 1;"
    return unrolled_goal(before, "i < 10", body)


def block(pick: random.Random, n: int, depth: int, unrolls: bool) -> str:
    """A block of some n statements over eight tests and eight actions, its loops unrolled once or not."""
    text = []
    while n > 0:
        kind = pick.randrange(4) if depth else 0
        test, inner = f"t{pick.randrange(8)}", min(n, pick.randrange(2, 6))
        if kind < 2:
            text.append(f"a{pick.randrange(8)};")
            n -= 1
            continue
        first = block(pick, inner, depth - 1, unrolls)
        n -= inner + 1
        if kind == 2:
            text.append(f"if {test} {{ {first} }} else {{ {block(pick, 2, 0, unrolls)} }}")
        else:
            loop = f"while {test} {{ {first} }}"
            text.append(f"if {test} {{ {first} {loop} }}" if unrolls else loop)
    return " ".join(text)


def structured(n: int) -> str:
    """A random program of some n statements over eight tests, and the same with each loop unrolled once."""
    before = declared("test", names("t", 8)) + declared("action", names("a", 8))
    left, right = (block(random.Random(1), n, 3, unrolls) for unrolls in (False, True))
    return f"{before}prog P {{ {left} }}\nprog Q {{ {right} }}\ngoal equal P, Q;\n"


def twice_goal(before: str, guard: str, body: str, second: str) -> str:
    """A loop, and the loop with two turns in front of it, of which the second is the same or another."""
    loop = f"while {guard} {{ {body} }}"
    turns = f"if {guard} {{ {body} if {guard} {{ {second} {loop} }} }}"
    return f"{before}prog P {{ {loop} }}\nprog Q {{ {turns} }}\ngoal equal P, Q;\n"


def subtractions(n: int) -> str:
    """The greatest common divisor of two numbers by subtractions, its loop unrolled twice, with n rounds."""
    body = "if x < y { y := y - x; } else { x := x - y; }"
    return twice_goal(f"rounds {n};\nvar x, y;\n", "x != y", body, body)


def wrongsubtractions(n: int) -> str:
    """The same with the branches of the second turn exchanged."""
    body = "if x < y { y := y - x; } else { x := x - y; }"
    return twice_goal(f"rounds {n};\nvar x, y;\n", "x != y", body, "if x < y { x := x - y; } else { y := y - x; }")


def rotated(n: int) -> str:
    """A loop over a list with an early exit, with its condition at the end in place of the start, with n rounds."""
    before, body = f"rounds {n};\nvar i, n, s, k;\n", "s := s + i; i := i + 1;"
    loop = f"while i < n && s != k {{ {body} }}"
    return f"{before}prog P {{ {loop} }}\nprog Q {{ if i < n {{ if s != k {{ {body} {loop} }} }} }}\ngoal equal P, Q;\n"


def wrongrotated(n: int) -> str:
    """The same with the early exit left out in front of the first turn."""
    return rotated(n).replace("if s != k {", "if s == s {", 1)


def strings(n: int) -> str:
    """A comparison of two strings by functions that read and go on, which leave n tests alone, unrolled twice."""
    t = names("b", n)
    before = declared("test", ["same", "end", *t]) + "action read, next, less, more;\n"
    for action in ("read", "next"):
        before += "".join(f"hyp triple {{{it}}} {action} {{{it}}};\nhyp triple {{!{it}}} {action} {{!{it}}};\n" for it in t)
    last = "if same { skip; } else { if b0 { less; } else { more; } }"
    loop = "while same && !end { next; read; }"
    turn = "if same && !end { next; read;"
    return (f"{before}prog P {{ read; {loop} {last} }}\n"
            f"prog Q {{ read; if b0 {{ {turn} {turn} {loop} }} }} }} else {{ {loop} }} {last} }}\ngoal equal P, Q;\n")


def unswitched(_: int) -> str:
    """A test taken out of a loop, and dead branches removed: an ordinary use."""
    return (TOP / "examples/holds/program-unswitched.kat").read_text()


# Triples of programs, for outlines

def guarded(n: int) -> str:
    """A loop that tests n comparisons which no assignment touches, and the triple that its condition fails behind it."""
    body = " ".join(f"if y{k} == 0 {{ i := i + 1; }} else {{ i := i + 2; }}" for k in range(n))
    loop = f"prog P {{ while i < n {{ {body} }} }}\n"
    return f"var i, n, {', '.join(names('y', n))};\n{loop}goal triple {{true}} P {{!(i < n)}};\n"


def stepwise(n: int) -> str:
    """n actions one after the other, and the triple of them all by the triples of each."""
    before = chain(n).partition("goal")[0]
    return f"{before}prog P {{ {' '.join(f'{it};' for it in names('p', n))} }}\ngoal triple {{t0}} P {{t{n}}};\n"


def loops(n: int) -> str:
    """n loops in one another, and the triple of an invariant that the action in front of each keeps."""
    text = declared("test", ["c", *names("b", n)]) + declared("action", names("p", n))
    text += "".join(f"hyp triple {{c && b{k}}} p{k} {{c}};\n" for k in range(n))
    loop = ""
    for k in reversed(range(n)):
        loop = f"while b{k} {{ p{k}; {loop}}} "
    return f"{text}prog P {{ {loop}}}\ngoal triple {{c}} P {{c && !b0}};\n"


def restored(n: int) -> str:
    """n loops in one another, each of which begins with an action that restores a test, and in the innermost an action
    that may lose it: each loop has a second turn, in which those within it are gone through again."""
    loop = "p; "
    for _ in range(n):
        loop = f"while b {{ r; {loop}}} "
    before = "test b, c;\naction p, r;\nhyp triple {true} r {c};\n"
    return f"{before}prog P {{ {loop}}}\ngoal triple {{true}} P {{!b}};\n"


def wrapped(_: int) -> str:
    """Two assignments, of which the second wraps around."""
    return (TOP / "examples/holds/wrapped-around.kat").read_text()


FAMILIES = {
    "tests": (tests, 48),
    "denest": (denest, 48),
    "lastbut": (lastbut, 400),
    "nest": (nest, 10),
    "chain": (chain, 47),
    "broken": (broken, 47),
    "ring": (ring, 47),
    "differ": (differ, 256),
    "frames": (frames, 5),
    "frameless": (frameless, 5),
    "corners": (corners, 46),
    "manycorners": (manycorners, 46),
    "wrongcorners": (wrongcorners, 46),
    "resting": (resting, 10),
    "keep": (keep, 46),
    "idlenest": (idle(nest), 12),
    "idlediffer": (idle(differ), 256),
    "asked": (asked, 4),
    "moves": (moves, 10),
    "unswitched": (unswitched, 1),
    "untouched": (untouched, 5),
    "line": (line, 40),
    "structured": (structured, 500),
    "idlestructured": (idle(structured), 3000),
    "subtractions": (subtractions, 5),
    "wrongsubtractions": (wrongsubtractions, 5),
    "rotated": (rotated, 5),
    "wrongrotated": (wrongrotated, 5),
    "strings": (strings, 46),
}

# Those that are measured by `outline`, and by `decide` and `check` beside it.
TRIPLES = {
    "guarded": (guarded, 8),
    "stepwise": (stepwise, 47),
    "loops": (loops, 10),
    "restored": (restored, 10),
    "wrapped": (wrapped, 1),
}


# Measuring

def seconds(program: str, words: list[str], out: Path) -> tuple[int, float]:
    """The status, and the seconds of the processor, of one run, whose output goes to the file."""
    before = resource.getrusage(resource.RUSAGE_CHILDREN)
    with open(out, "wb") as to:
        status = subprocess.run([program, *words], stdout=to, cwd=out.parent).returncode
    after = resource.getrusage(resource.RUSAGE_CHILDREN)
    return status, after.ru_utime + after.ru_stime - before.ru_utime - before.ru_stime


def peak(program: str, words: list[str], out: Path) -> float:
    """The peak of memory of one run in MB, as the system last told it before the end."""
    with open(out, "wb") as to:
        child = subprocess.Popen([program, *words], stdout=to, cwd=out.parent)
        most = 0
        while child.poll() is None:
            told = re.search(r"VmHWM:\s+(\d+) kB", Path(f"/proc/{child.pid}/status").read_text())
            most = max(most, int(told[1])) if told else most
    return most / 1024


def least(program: str, words: list[str], out: Path, runs: int) -> tuple[int, float, float]:
    found = [seconds(program, words, out) for _ in range(runs)]
    statuses = {status for status, _ in found}
    if len(statuses) > 1:
        sys.exit(f"{' '.join(words)}: statuses {statuses}")
    return statuses.pop(), min(it for _, it in found), max(peak(program, words, out) for _ in range(runs))


def peak_text(most: float) -> str:
    """A peak in MB; one that was read before the program was there is none."""
    return f"{most:.1f}" if most >= 0.1 else "-"


def measure(program: str, name: str, size: int, folder: Path, runs: int) -> list[str]:
    text, evidence, said = (folder / f"{name}-{size}.{end}" for end in ("kat", "evidence", "said"))
    text.write_text(FAMILIES[name][0](size))
    status, decided, much = least(program, ["decide", text.name], evidence, runs)
    if status not in (0, 1):
        return [name, str(size), f"status {status}: {evidence.read_text().strip()}", "", "", "", "", "", ""]
    checked, judged, room = least(program, ["check", text.name, evidence.name], said, runs)
    if checked != status:
        sys.exit(f"{name} {size}: decide ends with {status}, check with {checked}: {said.read_text()}")
    lines = evidence.read_bytes().split(b"\n")
    count = sum(it.startswith(b"P ") for it in lines) if status == 0 else sum(it.startswith(b"M ") for it in lines)
    what = f"{count:,} {('pair', 'move')[status]}{'s' if count != 1 else ''}"
    return [name, str(size), ("equal", "different")[status], what, f"{decided:.3f}", f"{judged:.3f}",
            peak_text(much), peak_text(room), f"{evidence.stat().st_size:,}"]


def built(named: str) -> str:
    """The program that was named. For the script `kat` it is what that runs, since the time and the memory of the script
    are not to be measured."""
    program = os.path.abspath(named)
    if program == str(TOP / "kat"):
        program = subprocess.run([program, "--program"], stdout=subprocess.PIPE, text=True).stdout.rstrip("\n")
    return program


def measure_triple(program: str, name: str, size: int, folder: Path, runs: int) -> list[str]:
    text, notes, evidence, said = (folder / f"{name}-{size}.{end}" for end in ("kat", "notes", "evidence", "said"))
    text.write_text(TRIPLES[name][0](size))
    status, found, much = least(program, ["outline", text.name], notes, runs)
    if status != 0:
        return [name, str(size), f"status {status}: {notes.read_text().strip()}", "", "", "", "", "", "", ""]
    judged, again, room = least(program, ["outline", text.name, notes.name], said, runs)
    decided, first, _ = least(program, ["decide", text.name], evidence, runs)
    checked, second, _ = least(program, ["check", text.name, evidence.name], said, runs)
    if (judged, decided, checked) != (0, 0, 0):
        sys.exit(f"{name} {size}: the notes have status {judged}, decide ends with {decided}, check with {checked}")
    lines = notes.read_bytes().split(b"\n")
    what = f"{sum(it.startswith(b'D ') for it in lines):,} nodes, {sum(it.startswith(b'C ') for it in lines):,} notes"
    return [name, str(size), what, f"{found:.3f}", f"{again:.3f}", peak_text(much), peak_text(room),
            f"{notes.stat().st_size:,}", f"{first:.3f}", f"{second:.3f}"]


HEADS = ["family", "n", "answer", "size", "decide s", "check s", "decide MB", "check MB", "bytes"]
TRIPLE_HEADS = ["family", "n", "outline", "outline s", "its notes s", "outline MB", "its notes MB", "bytes", "decide s", "check s"]
TABLES = [(FAMILIES, HEADS, measure), (TRIPLES, TRIPLE_HEADS, measure_triple)]


def main() -> None:
    reader = argparse.ArgumentParser(description="Measures kat on families of problems.")
    reader.add_argument("--kat", default=str(TOP / "kat"))
    reader.add_argument("--runs", type=int, default=5)
    reader.add_argument("--keep")
    reader.add_argument("family", nargs="*")
    said = reader.parse_args()
    known = [*FAMILIES, *TRIPLES]
    asked = [it.partition("=") for it in said.family] or [(it, "", "") for it in known]
    lost = [name for name, _, _ in asked if name not in known]
    if lost:
        sys.exit(f"no family {lost[0]}; there are {', '.join(known)}")
    program = built(said.kat)
    with tempfile.TemporaryDirectory() as room:
        folder = Path(said.keep or room).resolve()
        folder.mkdir(parents=True, exist_ok=True)
        for families, heads, measured in TABLES:
            rows = [(name, size) for name, _, size in asked if name in families]
            if rows:
                print("| " + " | ".join(heads) + " |")
                print("|" + "---|" * len(heads))
            for name, size in rows:
                row = measured(program, name, int(size or families[name][1]), folder, said.runs)
                print("| " + " | ".join(row) + " |", flush=True)


if __name__ == "__main__":
    main()
