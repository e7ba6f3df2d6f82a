#!/usr/bin/env python3
# SPDX-License-Identifier: MIT OR Apache-2.0
"""What the Makefile and `over` need to know of the problems of a folder, whatever the names of their files are.

    rows.py names FOLDER ROWS KAT       links each problem FOLDER/NAME.kat as ROWS/ROW.kat, and what `KAT --program` prints as
                                        ROWS/program, and prints the names ROW
    rows.py over OPTION.. FOLDER ROWS   decides and checks the problems by GNU parallel, and prints the table
    rows.py table FOLDER ROWS           prints the table of the answers in ROWS/ROW.row, beside those stated in
                                        FOLDER/NAME.answer. Ends with 1 where one is not the one stated, or there is none

ROW is NAME, in which each byte other than letters, digits, `.`, `_` and `-` of ASCII is `+` with two digits, as `a+20b` for `a b`.
So make, the shell, ssh and rsync take it. A name that begins with `.`, and a folder, is no problem.
"""

import os
import re
import shlex
import subprocess
import sys
from pathlib import Path
from typing import Dict, Iterator, List, NamedTuple, Optional, Sequence, Tuple

# What a row may say where no other answer is stated.
ANSWERS = ("equal", "different", "refused")
MISSING, NOT_BROUGHT_BACK = "missing", "not-brought-back"
# The options of parallel that name machines, with those that have their value in the same word.
MACHINES = re.compile(r"(?:-S|--sshlogin=|--sshloginfile=|--slf=)(.+)", re.DOTALL)
MACHINES_NEXT = ("-S", "--sshlogin", "--sshloginfile", "--slf")
# The names that were decided are written here by `over`: a row that is not there was not brought back.
DECIDED = "decided"
# As parallel has it by default, but that the file is sent to which a link leads.
RSYNC_OPTIONS = "-rLDzR"


def row_of(name: str) -> str:
    """The name of a row: what make and shells take."""
    return re.sub(rb"[^A-Za-z0-9._-]", lambda it: b"+%02X" % it[0][0], os.fsencode(name)).decode()


def problems(folder: str) -> Dict[str, str]:
    """The problems of a folder, in order: the name of each with that of its row."""
    with os.scandir(folder) as found:
        names = sorted(it.name[:-4] for it in found if it.name.endswith(".kat") and not it.name.startswith(".") and it.is_file())
    return {name: row_of(name) for name in names}


def make_link(to: str, place: Path) -> None:
    if place.is_symlink() and os.readlink(place) == to:
        return
    place.unlink(missing_ok=True)
    place.symlink_to(to)


def link(folder: str, rows: Path) -> List[str]:
    """Links the problems of a folder by the names of their rows, and gives these. Links of problems that are gone are removed."""
    if not re.fullmatch(r"[A-Za-z0-9._/+-]+", str(rows)):
        raise ValueError(f"the folder of the rows is {str(rows)!r}: its name may have letters, digits and . _ / + - only")
    rows.mkdir(parents=True, exist_ok=True)
    found = problems(folder)
    for name, row in found.items():
        make_link(os.path.abspath(os.path.join(folder, f"{name}.kat")), rows / f"{row}.kat")
    for place in rows.glob("*.kat"):
        if place.is_symlink() and not place.exists():
            place.unlink()
    return list(found.values())


def names(folder: str, rows: Path, kat: str) -> int:
    found = link(folder, rows)
    ran = subprocess.run([kat, "--program"], stdout=subprocess.PIPE, text=True)
    if ran.returncode:
        return 1
    make_link(os.path.abspath(ran.stdout.strip()), rows / "program")
    print("\n".join(found))
    return 0


class Row(NamedTuple):
    """A line of the table."""

    name: str
    answer: str
    stated: str
    size: str

    def is_stated(self) -> bool:
        return self.answer == self.stated or (self.stated == "-" and self.answer in ANSWERS)

    def line(self) -> str:
        # A name may have a line feed or another character that a terminal obeys.
        shown = self.name if self.name.isprintable() else row_of(self.name)
        mark = "" if self.is_stated() else " <-- not as stated"
        return f"{shown:<32} {self.answer:<16} {self.stated:<12} {self.size:>10}{mark}"


def first_words(place: str) -> List[str]:
    """The words of a file."""
    with open(place, "rb") as file:
        return file.read().decode(errors="replace").split()


def table_rows(folder: str, rows: Path) -> Iterator[Row]:
    # Folders are listed once, since a query for each file that is not there takes most of the time of 10,000 problems.
    here, given = set(os.listdir(rows)) if rows.is_dir() else set(), set(os.listdir(folder))
    decided = set(first_words(f"{rows}/{DECIDED}")) if DECIDED in here else set()
    for name, row in problems(folder).items():
        words = first_words(f"{rows}/{row}.row") if f"{row}.row" in here else []
        answer = words[0] if words else NOT_BROUGHT_BACK if row in decided else MISSING
        stated = first_words(f"{folder}/{name}.answer") if f"{name}.answer" in given else []
        yield Row(name, answer, stated[0] if stated else "-", words[1] if len(words) > 1 else "-")


def table(folder: str, rows: Path) -> int:
    lines, failed = [f"{'problem':<32} {'answer':<16} {'stated':<12} {'bytes':>10}"], 0
    for row in table_rows(folder, rows):
        lines.append(row.line())
        failed += not row.is_stated()
    lines.append(f"{len(lines) - 1} problems, {failed} not as stated")
    print("\n".join(lines))
    return int(failed > 0)


def machines(options: Sequence[str]) -> Tuple[List[str], bool]:
    """The options that name machines, and whether one is not this one, which is `:`."""
    found: List[str] = []
    named: List[str] = []
    waits = False
    for option in options:
        joined = MACHINES.fullmatch(option)
        if waits or option in MACHINES_NEXT or joined:
            found.append(option)
        if waits or joined:
            named += (joined[1] if joined and not waits else option).split(",")
        waits = not waits and option in MACHINES_NEXT
    return found, any(re.fullmatch(r"(?:[^/]*/)?:", it) is None for it in named)


def lacking(machine_options: Sequence[str], kat: str) -> List[str]:
    """What the machines lack, in a line for each, or why they cannot be queried."""
    if not any(os.access(os.path.join(it, "rsync"), os.X_OK) for it in os.get_exec_path()):
        return ["this machine has no rsync, by which problems are sent to others"]
    query = f'for tool in rsync {shlex.quote(kat)}; do command -v "$tool" >/dev/null 2>&1 || echo "has no $tool"; done'
    ran = subprocess.run(["parallel", *machine_options, "--will-cite", "--nonall", "--tag", query], stdin=subprocess.DEVNULL,
                         stdout=subprocess.PIPE, text=True)
    # Each line begins with the machine and a tab.
    lines = [re.sub(r"^:\t", "this machine ", it).replace("\t", " ") for it in ran.stdout.splitlines() if "\thas no " in it]
    return lines if lines or not ran.returncode else ["a machine cannot be reached, or runs no commands"]


def over(options: Sequence[str], folder: str, rows: Path) -> int:
    kat = os.environ.get("KAT", "kat")
    found = link(folder, rows)
    machine_options, is_far = machines(options)
    faults = lacking(machine_options, kat) if is_far else []
    for fault in faults:
        print(f"over: {fault}", file=sys.stderr)
    if faults:
        return 2
    # A call that continues an earlier one keeps its rows.
    if "--resume" not in options:
        for place in [*rows.glob("*.row"), rows / DECIDED]:
            place.unlink(missing_ok=True)
    listed = rows / "names"
    listed.write_text("".join(f"{it}\n" for it in found))
    command = f"mkdir -p {rows} && ./answer {shlex.quote(kat)} {rows}/{{}}.kat > {rows}/{{}}.row && echo {{}}"
    words = ["parallel", *options, "--will-cite", "--basefile", "answer", "--transferfile", f"{rows}/{{}}.kat",
             "--return", f"{rows}/{{}}.row", "--cleanup", command, "::::", str(listed)]
    with open(rows / DECIDED, "a") as decided:
        subprocess.run(words, stdin=subprocess.DEVNULL, stdout=decided, env={**os.environ, "PARALLEL_RSYNC_OPTS": RSYNC_OPTIONS})
    return table(folder, rows)


def main(words: List[str]) -> int:
    try:
        if len(words) == 4 and words[0] == "names":
            return names(words[1], Path(words[2]), words[3])
        if len(words) >= 3 and words[0] == "over":
            return over(words[1:-2], words[-2], Path(words[-1]))
        if len(words) == 3 and words[0] == "table":
            return table(words[1], Path(words[2]))
    except (OSError, ValueError) as why:
        print(f"rows.py: {why}", file=sys.stderr)
        return 2
    print(__doc__, file=sys.stderr)
    return 2


if __name__ == "__main__":
    sys.exit(main(sys.argv[1:]))
