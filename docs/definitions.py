#!/usr/bin/env python3
# SPDX-License-Identifier: MIT OR Apache-2.0
"""Prints the definitions of the crates' specs/, or checks the names on docs/definitions.md.

    docs/definitions.py [CRATE..]    for each crate (all, without a name) and each file of its specs/: the first comment
                                     of the file, and each public definition with the comment over it
    docs/definitions.py --check      ends with 1 if docs/definitions.md names what no file of specs/ defines

A definition without a comment is left out, and so are laws, which docs/proofs.md lists.
"""

import re
import sys
from pathlib import Path

TOP = Path(__file__).resolve().parent.parent
PAGE = TOP / "docs/definitions.md"
DEFINITION = re.compile(r"(?:abbrev|opaque|unfoldable) pub (\S+)|pub (?:abbrev|opaque|record|data) (\S+)")


def definitions(text: str) -> tuple[str, list[tuple[str, str]]]:
    """The first comment of a file, and its definitions as pairs of a name and the comment over it."""
    first, comment, found = None, [], []
    for line in text.splitlines():
        if line.startswith("--"):
            comment.append(line[2:].strip())
            continue
        if first is None:
            first, comment = " ".join(comment), []
        named = DEFINITION.match(line)
        if named and comment:
            found.append((named[1] or named[2], " ".join(comment)))
        comment = []
    return first or "", found


def listed(crate: str) -> list[str]:
    """The lines of a crate."""
    lines = [f"## {crate}", ""]
    for path in sorted((TOP / "crates" / crate / "specs").glob("*.antt")):
        first, found = definitions(path.read_text())
        if found and path.stem not in ("Laws", "Lib"):
            lines += [f"{path.stem}: {first}", ""]
            lines += [f"- {it}: {comment}" for it, comment in found] + [""]
    return lines


def lost(page: str) -> list[str]:
    """The names on a page, written in backquotes, that no file of specs/ has."""
    known = set()
    for path in (TOP / "crates").glob("*/specs/*.antt"):
        known |= set(re.findall(r"[\w']+", path.read_text())) | {path.stem}
    known |= {path.name for path in (TOP / "crates").iterdir()}
    return sorted(set(re.findall(r"`([A-Za-z_]\w*)`", page)) - known)


def main(words: list[str]) -> int:
    if words == ["--check"]:
        names = lost(PAGE.read_text())
        if names:
            print(f"docs/definitions.md names what no file of specs/ has: {', '.join(names)}", file=sys.stderr)
        return int(bool(names))
    crates = words or sorted(path.name for path in (TOP / "crates").iterdir() if (path / "specs").is_dir())
    unknown = [it for it in crates if not (TOP / "crates" / it).is_dir()]
    if unknown:
        print(f"docs/definitions.py: no such crate: {', '.join(unknown)}", file=sys.stderr)
        return 2
    print("\n".join(line for crate in crates for line in listed(crate)))
    return 0


if __name__ == "__main__":
    sys.exit(main(sys.argv[1:]))
