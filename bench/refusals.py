#!/usr/bin/env python3
# SPDX-License-Identifier: MIT OR Apache-2.0
"""Refuses each request for memory in turn, in some calls of the program.

    python3 bench/refusals.py [--kat PROGRAM] [CALL ..]

Without names all calls are made. The program is the one that the script `kat` runs. It runs as it was built, once for
each request: what stands between it and the C library, and makes `malloc` or `realloc` answer that there is no memory,
is a small library that the C compiler `cc` makes of the text below. A run may end with status 6 and no output, or with
its own status and its whole output. A line is printed for each that ends otherwise, and for each call how many requests
it makes and how its runs ended. The status is 0 where none ended otherwise.
"""

import argparse
import os
import subprocess
import sys
import tempfile
from collections import Counter
from pathlib import Path

from families import TOP

EXAMPLES = TOP / "examples"
SECONDS = 60
NO_MEMORY = 6

LIBRARY = r"""
#include <fcntl.h>
#include <stdio.h>
#include <stdlib.h>

extern void *__libc_malloc(size_t);
extern void *__libc_realloc(void *, size_t);

static long requests;

static int is_refused(void) {
    const char *number = getenv("REFUSED");
    return ++requests == (number ? atol(number) : 0);
}

void *malloc(size_t size) { return is_refused() ? NULL : __libc_malloc(size); }
void *realloc(void *old, size_t size) { return is_refused() ? NULL : __libc_realloc(old, size); }

__attribute__((destructor)) static void tell(void) {
    const char *name = getenv("REQUESTS");
    int file = name ? open(name, O_WRONLY | O_CREAT | O_TRUNC, 0600) : -1;
    if (file >= 0) dprintf(file, "%ld", requests);
}
"""


def example(name: str) -> str:
    return (EXAMPLES / name).read_text()


# The words of each call, and its files.
CALLS: dict[str, tuple[list[str], dict[str, str]]] = {
    "different": (["decide", "f"], {"f": "test b, c; goal equal [b && c], b;\n"}),
    "triple": (["decide", "f"], {"f": example("holds/triple.kat")}),
    "program": (["decide", "f"], {"f": example("holds/wrapped-around.kat")}),
    "goals": (["batch", "f"], {"f": "test b; goal equal b, b; goal equal b, 1;\n"}),
    "report": (["decide", "f", "--json"], {"f": example("fails/unkept.kat")}),
    "certificate": (["check", "f", "e"],
                    {"f": example("holds/denesting.kat"), "e": example("holds/denesting.evidence")}),
    "under-tests": (["check", "f", "e"],
                    {"f": example("holds/second-test.kat"), "e": example("holds/second-test.under.evidence")}),
    "string": (["replay", "f", "e"], {"f": example("fails/unkept.kat"), "e": example("fails/unkept.evidence")}),
    "explained": (["explain", "f", "e"],
                  {"f": example("fails/assignment-hoisted.kat"), "e": example("fails/assignment-hoisted.out")}),
    "shown": (["show", "f"], {"f": example("holds/wrapped-around.kat")}),
    "proof": (["chain", "f", "p"], {"f": example("chains/star-twice.kat"), "p": example("chains/star-twice.proof")}),
    "run": (["run", "f", "gcd", "a=12,b=18", "100"], {"f": example("runs/euclid.kat")}),
    "one-loop": (["oneloop", "f", "gcd"], {"f": example("runs/euclid.kat")}),
    "optimised": (["optimise", "f", "locked"], {"f": example("programs/held-lock.kat")}),
    "guarded": (["gkat", "f"], {"f": example("guarded/nested-loops.gkat")}),
    "flow": (["flow", "f"], {"f": example("flow/loop-condition.flow")}),
    "refused": (["decide", "f"], {"f": "goal equal b, b;\n"}),
    "no-words": (["decide"], {}),
}


class Refuser:
    """Runs the program with one request refused."""

    def __init__(self, program: str, folder: Path) -> None:
        self.program, self.folder, self.told = program, folder, folder / "requests"
        self.library = folder / "refusing.so"
        source = folder / "refusing.c"
        source.write_text(LIBRARY)
        subprocess.run([os.environ.get("CC", "cc"), "-shared", "-fPIC", "-o", self.library, source], check=True)

    def run(self, words: list[str], request: int) -> tuple[int, bytes]:
        """The status and the output where this request is refused, or none where it is 0."""
        how = {"LD_PRELOAD": str(self.library), "REQUESTS": str(self.told), "REFUSED": str(request)}
        ended = subprocess.run([self.program, *words], cwd=self.folder, env=how, stdin=subprocess.DEVNULL,
                               stdout=subprocess.PIPE, timeout=SECONDS)
        return ended.returncode, ended.stdout

    def requests(self) -> int:
        """How many requests the last run made; none are told where the library does not reach the program."""
        return int(self.told.read_text()) if self.told.is_file() else 0


def refuse(refuser: Refuser, name: str) -> bool:
    """Whether each run of the call ends as it may."""
    words, files = CALLS[name]
    for file, text in files.items():
        (refuser.folder / file).write_text(text)
    refuser.told.unlink(missing_ok=True)
    own = refuser.run(words, 0)
    requests = refuser.requests()
    if requests == 0:
        sys.exit("the program's requests for memory do not reach the library")
    ends: Counter[str] = Counter()
    for request in range(1, requests + 1):
        found = refuser.run(words, request)
        end = "none" if found == (NO_MEMORY, b"") else "own" if found == own else "other"
        ends[end] += 1
        if end == "other":
            print(f"{name}: where request {request} is refused, status {found[0]} and {found[1][:200]!r}", flush=True)
    row = [name, " ".join(words), own[0], *(f"{it:,}" for it in (requests, ends["none"], ends["own"], ends["other"]))]
    print("| " + " | ".join(map(str, row)) + " |", flush=True)
    return ends["other"] == 0


def main() -> int:
    reader = argparse.ArgumentParser(description="Refuses each request for memory in turn.")
    reader.add_argument("--kat", default=str(TOP / "kat"))
    reader.add_argument("call", nargs="*")
    said = reader.parse_args()
    lost = [name for name in said.call if name not in CALLS]
    if lost:
        sys.exit(f"no call {lost[0]}; there are {', '.join(CALLS)}")
    program = os.path.abspath(said.kat)
    if program == str(TOP / "kat"):
        # What the script runs is run without it, since the script's own requests are not to be refused.
        program = subprocess.run([program, "--program"], stdout=subprocess.PIPE, text=True).stdout.rstrip("\n")
    print("| call | words | status | requests | status 6 | its own | other |\n|---|---|---|---|---|---|---|")
    with tempfile.TemporaryDirectory() as room:
        refuser = Refuser(program, Path(room))
        passed = [refuse(refuser, name) for name in said.call or CALLS]
    return int(not all(passed))


if __name__ == "__main__":
    sys.exit(main())
