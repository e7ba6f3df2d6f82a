#!/usr/bin/env python3
"""Runs the commands on pages in a copy of the tree, and compares what they print with the page, byte for byte.

    docs/console.py [--write] [PAGE..]

Without PAGE the pages are README.md and all of docs/, except docs/llvm.md, whose commands need clang and opt. A command is
a line of an indented block that begins with `$ `; the lines of the block up to the next command are what it prints, on
standard output and standard error together. The commands run in turn, each by a shell of its own, in one copy, so that they
read the files that earlier ones wrote. With --write what they print is put on the page instead. The status is 0 if
everything is as on the pages.
"""

import argparse
import os
import re
import signal
import subprocess
import sys
import tempfile
from pathlib import Path
from shutil import copytree
from textwrap import indent
from typing import NamedTuple

TOP = Path(__file__).resolve().parent.parent
NEEDS_MORE = "llvm.md"
INDENT = " " * 4
# A command, and the indented lines after it. An empty line belongs to what is printed only if an indented one follows.
COMMAND = re.compile(r"^    \$ (?P<words>.*\n)(?P<printed>(?:\n*    (?!\$ ).*\n)*)", re.MULTILINE)
SECONDS = 300


class Command(NamedTuple):
    """A command of a page: the number of its line, from 1, what is typed, and what it prints."""

    line: int
    words: str
    printed: str


def commands(page: str) -> list[Command]:
    """The commands of a page, in turn."""
    return [Command(page.count("\n", 0, it.start()) + 1, it["words"].rstrip("\n"),
                    re.sub(f"^{INDENT}", "", it["printed"], flags=re.MULTILINE)) for it in COMMAND.finditer(page)]


def rewritten(page: str, outputs: list[str]) -> str:
    """The page with these outputs after its commands."""
    following = iter(outputs)
    return COMMAND.sub(lambda it: f"{INDENT}$ {it['words']}{indent(next(following), INDENT)}", page)


def tree_in(room: Path) -> Path:
    """A copy of the tree, so that a command of a page writes no file to the tree. The sources, which are large, are linked."""
    def left_out(folder: str, names: list[str]) -> list[str]:
        return [it for it in names if it == "__pycache__" or (Path(folder) == TOP and it in (".git", "crates"))]

    tree = room / "tree"
    copytree(TOP, tree, ignore=left_out, symlinks=True)
    (tree / "crates").symlink_to(TOP / "crates")
    (room / "kat").symlink_to(tree / "kat")
    return tree


def run(words: str, tree: Path) -> str:
    """What a command prints in the tree, where `kat` is a command too. One that lasts too long is ended with all that it
    started."""
    environment = {**os.environ, "PATH": f"{tree.parent}:{os.environ.get('PATH', os.defpath)}"}
    with subprocess.Popen(["/bin/sh", "-c", words], cwd=tree, env=environment, stdin=subprocess.DEVNULL, stdout=subprocess.PIPE,
                          stderr=subprocess.STDOUT, start_new_session=True) as process:
        try:
            output, _ = process.communicate(timeout=SECONDS)
        except subprocess.TimeoutExpired:
            os.killpg(process.pid, signal.SIGKILL)
            return f"nothing in {SECONDS} seconds\n"
    return output.decode(errors="replace")


def checked(path: Path, tree: Path, write: bool) -> tuple[int, int]:
    """How many commands a page has, and how many of them print something else than the page says."""
    page = path.read_text(encoding="utf-8")
    found, wrong = commands(page), 0
    outputs = [run(it.words, tree) for it in found]
    if write:
        path.write_text(rewritten(page, outputs), encoding="utf-8")
        return len(found), 0
    for command, output in zip(found, outputs):
        if output != command.printed:
            wrong += 1
            print(f"{path}:{command.line}: `{command.words}` printed {output!r}, not {command.printed!r}", flush=True)
    return len(found), wrong


def main() -> int:
    parser = argparse.ArgumentParser(description=__doc__, formatter_class=argparse.RawDescriptionHelpFormatter)
    parser.add_argument("--write", action="store_true", help="write what the commands print to the pages")
    parser.add_argument("pages", nargs="*", metavar="PAGE", type=Path)
    words = parser.parse_args()
    # The script proves and builds a program where none fits the sources, which no command of a page must wait for.
    subprocess.run([TOP / "kat", "--program"], stdout=subprocess.DEVNULL, check=True)
    pages = words.pages or [TOP / "README.md", *(it for it in sorted((TOP / "docs").glob("*.md")) if it.name != NEEDS_MORE)]
    with tempfile.TemporaryDirectory(prefix="kat-console-") as room:
        tree = tree_in(Path(room))
        counts = [checked(page, tree, words.write) for page in pages]
    total, wrong = (sum(it[k] for it in counts) for k in (0, 1))
    print(f"docs/console.py: {total - wrong} commands print what the pages say, {wrong} do not")
    return int(wrong > 0)


if __name__ == "__main__":
    sys.exit(main())
