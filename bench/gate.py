#!/usr/bin/env python3
# SPDX-License-Identifier: MIT OR Apache-2.0
"""Measures the gate, at the top of the repository.

    python3 bench/gate.py [--anew]         runs `rt ci` and prints, for each crate, the processor seconds of its proof,
                                           of its tests and of its must-fail edits, their sum in units of the proof of
                                           kat_model, and the number of edits; --anew proves and tries all
    python3 bench/gate.py --build          the same for `./kat --build`, which proves and builds the program anew
    python3 bench/gate.py --functions N..  checks these crates and their tests from nothing on one processor, over the
                                           libraries that a run left, and prints the twenty functions that took longest

A unit is the processor seconds of the proof of kat_model in the same run, so that runs on machines of different speed can be
compared. If that proof was kept from an earlier run, there are no units.

The gate prints no times, so this script reads the processor time of the processes that it starts, twice a second. A check
of less than half a second may be missed. Without --anew, what an earlier run on the machine proved is not proved again
and counts nothing.
"""

import collections
import os
import re
import subprocess
import sys
import threading
import time
from collections.abc import Iterator
from pathlib import Path
from typing import Optional

TOP = Path(__file__).resolve().parent.parent
TICKS = os.sysconf("SC_CLK_TCK")
KINDS = ("proof", "tests", "edits")
# The crate whose proof is the unit: the lowest one, which is proved first and with nothing else running.
UNIT = "kat_model"
# The processor seconds of each crate by kind.
Seconds = collections.defaultdict[tuple[str, str], float]


def descendants(root: int) -> list[int]:
    """The processes below a process, by their numbers."""
    children: dict[int, list[int]] = collections.defaultdict(list)
    for name in os.listdir("/proc"):
        if name.isdigit():
            try:
                with open(f"/proc/{name}/stat") as stat:
                    children[int(stat.read().rpartition(")")[2].split()[1])].append(int(name))
            except (OSError, IndexError):
                continue
    found: list[int] = []
    waiting = [root]
    while waiting:
        below = children[waiting.pop()]
        found += below
        waiting += below
    return found


def check_of(pid: int) -> Optional[tuple[str, str, float]]:
    """The crate that a process checks and what for, and the seconds that it has used; None for other processes."""
    try:
        with open(f"/proc/{pid}/cmdline", "rb") as line:
            words = line.read().decode(errors="replace").split("\0")
        folder = os.readlink(f"/proc/{pid}/cwd")
        with open(f"/proc/{pid}/stat") as stat:
            fields = stat.read().rpartition(")")[2].split()
    except OSError:
        return None
    found = kind_of(words, folder)
    return (*found, (int(fields[11]) + int(fields[12])) / TICKS) if found else None


def kind_of(words: list[str], folder: str) -> Optional[tuple[str, str]]:
    """The crate that a command in a folder checks, and what for; None for other commands."""
    if os.path.basename(words[0]) != "rattle" or "--crate-name" not in words:
        return None
    kind = "edits" if "/rt-edit" in folder else "tests" if "--test" in words else "proof"
    return words[words.index("--crate-name") + 1], kind


def watch(gate: subprocess.Popen, used: dict[tuple[int, str, str], float], ended: threading.Event) -> None:
    """Notes what each check below the gate has used, until the gate ends."""
    while not ended.wait(0.5):
        for pid in descendants(gate.pid):
            found = check_of(pid)
            if found:
                used[pid, found[0], found[1]] = found[2]


def gate(words: list[str]) -> int:
    """Runs the gate, or the build of the program, and prints its table."""
    began = time.monotonic()
    ran = subprocess.Popen(words, cwd=TOP, stdin=subprocess.DEVNULL, stdout=subprocess.PIPE, text=True, errors="replace")
    used: dict[tuple[int, str, str], float] = {}
    ended = threading.Event()
    looking = threading.Thread(target=watch, args=(ran, used, ended))
    looking.start()
    last = ""
    for line in ran.stdout or ():
        last = line.rstrip("\n") or last
        print(line, end="", flush=True)
    status = ran.wait()
    ended.set()
    looking.join()
    print("\n" + table(added(used), edits_of(TOP)))
    print(f"\n{sum(used.values()) / 60:.0f} processor minutes in {(time.monotonic() - began) / 60:.1f} minutes on {os.cpu_count()} processors; {last}")
    return status


def added(used: dict[tuple[int, str, str], float]) -> Seconds:
    """The seconds of all processes of each crate and kind."""
    sums: Seconds = collections.defaultdict(float)
    for (_, crate, kind), spent in used.items():
        sums[crate, kind] += spent
    return sums


def edits_of(top: Path) -> dict[str, int]:
    """The number of must-fail edits of each crate that has any."""
    return {it.parent.name: sum(1 for edit in it.iterdir() if edit.is_file()) for it in top.glob("crates/*/must-fail")}


def table(sums: Seconds, edits: dict[str, int]) -> str:
    """The processor seconds of each crate, those that took most first, with the sum in units and the edits."""
    unit = sums[UNIT, "proof"]
    lines = ["| crate | proof s | tests s | edits s | all s | all, in units | edits |", "|---|---|---|---|---|---|---|"]
    crates = sorted({crate for crate, _ in sums}, key=lambda it: (-sum(sums[it, kind] for kind in KINDS), it))
    rows = [(f"`{crate}`", [sums[crate, kind] for kind in KINDS], edits.get(crate, 0)) for crate in crates]
    totals = [sum(sums[crate, kind] for crate in crates) for kind in KINDS]
    for name, row, count in [*rows, ("all", totals, sum(edits.values()))]:
        whole = f"{sum(row) / unit:.2f}" if unit else "-"
        lines.append(f"| {name} | {' | '.join(f'{it:.0f}' for it in [*row, sum(row)])} | {whole} | {count} |")
    if unit:
        parts = [f"{total / unit:.1f} of {kind}" for total, kind in zip(totals, ("proofs", "tests", "edits"))]
        lines += ["", f"A unit is {unit:.0f} processor seconds, the proof of `{UNIT}`. In units: {', '.join(parts)}, {sum(totals) / unit:.1f} in all."]
    else:
        lines += ["", f"There are no units: the proof of `{UNIT}` was kept."]
    return "\n".join(lines)


def commands_of(names: list[str]) -> Iterator[tuple[str, list[str]]]:
    """The folder of each of these crates, and the words of its check from nothing, as the kit's `rt` has them."""
    kit = os.path.dirname(subprocess.run(["rt", "doc"], capture_output=True, text=True, check=True).stdout.strip())
    sys.path.insert(0, f"{kit}/bin")
    import rtlib

    for crate in rtlib.crates_below(str(TOP)):
        if crate.name in names:
            flags = ["--jobs", "1", "--progress"]
            yield crate.folder, [rtlib.RATTLE, "check", *crate.words(flags, tests=crate.has_tests(), keeps=False)]


def functions(names: list[str]) -> None:
    """Prints the slowest functions of crates, each timed from the end of the one before it."""
    slow = [row for folder, words in commands_of(names) for row in times_of(folder, words)]
    print("| function | s |\n|---|---|")
    for seconds, function in sorted(slow, reverse=True)[:20]:
        print(f"| `{function}` | {seconds:.1f} |")


def ended_function(line: str) -> Optional[str]:
    """The function of a line that a check prints as it ends with it."""
    found = re.match(r"checked ([^ ,]+), \d+ of \d+", line)
    return found[1] if found else None


def times_of(folder: str, words: list[str]) -> list[tuple[float, str]]:
    """The seconds between the lines that a check prints as it ends with each function."""
    ran = subprocess.Popen(words, cwd=folder, stdin=subprocess.DEVNULL, stdout=subprocess.PIPE, stderr=subprocess.STDOUT, text=True, errors="replace")
    found, before, last = [], time.monotonic(), ""
    for line in ran.stdout or ():
        last = line.rstrip("\n") or last
        function = ended_function(line)
        if function:
            now = time.monotonic()
            found.append((now - before, function))
            before = now
    if ran.wait():
        print(f"{folder}: {last}", file=sys.stderr)
    return found


if __name__ == "__main__":
    if sys.argv[1:2] == ["--functions"]:
        functions(sys.argv[2:])
    elif sys.argv[1:] in ([], ["--anew"]):
        sys.exit(gate(["rt", "ci", *sys.argv[1:]]))
    elif sys.argv[1:] == ["--build"]:
        sys.exit(gate(["./kat", "--build"]))
    else:
        sys.exit(__doc__)
