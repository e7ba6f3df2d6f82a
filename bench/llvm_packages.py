#!/usr/bin/env python3
# SPDX-License-Identifier: MIT OR Apache-2.0
"""Measures `tools/llvm/validate` on the C files of Debian source packages, at -O2 step by step.

    bench/llvm_packages.py [--files WORD] [-j N] [--timeout S] FOLDER PACKAGE..

It takes the sources by `apt-get source` with package lists of its own, so it changes nothing of the system, and makes the IR of
each file that compiles alone by `clang`, without value names. It needs Debian with `apt-get`, `dpkg-dev`, `clang` and `opt`, and the
net the first time; where a program is missing it says so and ends with 0. --files keeps the files whose path has a word.
What it prints: answers by size of function (blocks before the first step) and by pass, the reasons, and seconds."""

import argparse
import json
import re
import shutil
import subprocess
import sys
from collections import Counter
from pathlib import Path

TOP = Path(__file__).resolve().parent.parent
NEEDED = "apt-get", "dpkg-source", "clang", "opt"
COMPILE = "clang -O2 -Xclang -disable-llvm-passes -w -DHAVE_UNISTD_H -S -emit-llvm".split()
SIZES = (5, "1-5"), (15, "6-15"), (40, "16-40"), (10 ** 9, "41 and more")
ANSWERS = "equal", "differs", "not proved", "not read"
FUNCTION = re.compile(r"^define [^\n]*?@([-\w.$]+)\([^\n]*\n(.*?)^\}", re.M | re.S)


def fetch(folder: Path, packages: list[str]) -> None:
    """Unpacks the sources of packages that are not in the folder yet."""
    lists = folder / "lists"
    (lists / "partial").mkdir(parents=True, exist_ok=True)
    name = re.search(r"^VERSION_CODENAME=(\w+)", Path("/etc/os-release").read_text(), re.M)[1]
    (folder / "sources.list").write_text(f"deb-src http://deb.debian.org/debian {name} main\n")
    words = {"Dir::Etc::sourcelist": folder / "sources.list", "Dir::Etc::sourceparts": "-", "Dir::State::lists": lists,
             "Dir::Cache::srcpkgcache": "", "Dir::Cache::pkgcache": ""}
    options = [word for key, value in words.items() for word in ("-o", f"{key}={value}")]
    missing = [package for package in packages if not list(folder.glob(f"{package}_*.dsc"))]
    if missing:
        subprocess.run(["apt-get", "-q", *options, "update"], check=True, stdout=sys.stderr)
        subprocess.run(["apt-get", "-q", *options, "source", *missing], check=True, stdout=sys.stderr, cwd=folder)


def compiled(folder: Path, packages: list[str], word: str) -> list[Path]:
    """The IR of each file that compiles alone."""
    made = []
    (folder / "ir").mkdir(exist_ok=True)
    for source in sorted(source for package in packages for source in folder.glob(f"{package}-*/*.c") if word in str(source)):
        file = folder / "ir" / f"{source.parent.name}-{source.stem}.ll"
        run = subprocess.run([*COMPILE, f"-I{source.parent}", "-o", file, source], stderr=subprocess.DEVNULL)
        made += [file] * (run.returncode == 0)
    return made


def blocks(text: str) -> dict[str, int]:
    """How many blocks each function of a module has."""
    return {found[1]: 1 + len(re.findall(r"^[-\w.$]+:", found[2].split("\n", 1)[-1], re.M)) for found in FUNCTION.finditer(text)}


def size_of(count: int) -> str:
    return next(word for most, word in SIZES if count <= most)


def row(word: str, found: list[dict]) -> str:
    """A line of a table: the answers of some steps, and their seconds: median, nine of ten, and most."""
    counts, times = Counter(one["answer"] for one in found), sorted(one["seconds"] for one in found)
    marks = ", ".join(f"{times[int((len(times) - 1) * share)]:.2f}" for share in (0.5, 0.9, 1))
    return f"| {word} | {len(found)} | " + " | ".join(str(counts[answer]) for answer in ANSWERS) + f" | {marks} |"


def table(head: str, groups: dict[str, list[dict]]) -> list[str]:
    return [f"| {head} | steps | {' | '.join(ANSWERS)} | seconds: median, nine of ten, most |", "|---" * 7 + "|",
            *(row(word, groups[word]) for word in groups), row("all", sum(groups.values(), []))]


def grouped(found: list[dict], words: list[str]) -> dict[str, list[dict]]:
    """The records by a word of each."""
    pairs = list(zip(words, found))
    return {word: [one for other, one in pairs if other == word] for word in sorted(set(words), key=lambda word: (len(word), word))}


def main() -> None:
    parser = argparse.ArgumentParser(description=__doc__, formatter_class=argparse.RawDescriptionHelpFormatter)
    parser.add_argument("folder", type=Path, help="for sources, IR and answers, which a later run takes from there")
    parser.add_argument("packages", nargs="+")
    parser.add_argument("--files", default="", help="only files whose path has this word")
    parser.add_argument("-j", dest="processes", default="4")
    parser.add_argument("--timeout", default="20")
    words = parser.parse_args()
    missing = [program for program in NEEDED if not shutil.which(program)]
    if missing:
        print(f"skipped: no {', '.join(missing)}")
        return
    fetch(words.folder.resolve(), words.packages)
    files = compiled(words.folder.resolve(), words.packages, words.files)
    command = [TOP / "tools/llvm/validate", "--pipeline", "default<O2>", "--json", "-j", words.processes, "--timeout", words.timeout,
               "--cache", words.folder.resolve() / "answers", *files]
    found = json.loads(subprocess.run(command, stdout=subprocess.PIPE, text=True).stdout)
    sizes = {(str(file), name): count for file in files for name, count in blocks(file.read_text()).items()}
    print(f"{len(files)} files, {len({(one['file'], one['function']) for one in found})} functions with a changed step")
    print("\n".join(table("blocks", grouped(found, [size_of(sizes.get((one["file"], one["function"]), 1)) for one in found]))))
    print("\n".join(table("pass", grouped(found, [one["passed"] for one in found]))))
    print("\n".join(f"{count} {why}" for why, count in Counter(one["why"][:90] for one in found if one["answer"] != "equal").most_common(30)))
    print("\n".join(f"{one['file']} step {one['step']}, {one['passed']}, {one['function']}: {one['why']}\n{one['difference']}"
                    for one in found if one["answer"] == "differs"))


if __name__ == "__main__":
    main()
