#!/usr/bin/env python3
# SPDX-License-Identifier: MIT OR Apache-2.0
"""Draws the rooms of crates.txt: boxes with their crates, and an arrow from each room to those that it stands on.

    docs/rooms.py            writes docs/rooms.dot, and docs/rooms.svg if Graphviz is installed
    docs/rooms.py --check    ends with 1 if docs/rooms.dot is not what crates.txt gives, if a crate is listed before one
                             that it stands on, or if a row of docs/architecture.md is not the first sentence of the
                             crate's own comment, or has more than twelve words

A room is a comment line of crates.txt after an empty line. Arrows that follow from others are left out, and so are the
rooms of tests.
"""

import re
import shutil
import subprocess
import sys

import crates
from crates import TOP

DOT, SVG, PAGE = TOP / "docs/rooms.dot", TOP / "docs/rooms.svg", TOP / "docs/architecture.md"
WORDS = 12
# The crates of each room, and the crates that each crate stands on.
Rooms = dict[str, list[str]]
Below = dict[str, list[str]]


def tables_of(found: list[crates.Crate]) -> tuple[Rooms, Below]:
    """The rooms with their crates in order, and what each crate stands on."""
    return crates.by_room(found), {it.name: list(it.below) for it in found}


def early(rooms: Rooms, stands_on: Below) -> list[str]:
    """The crates that are listed before one that they stand on."""
    order = [name for names in rooms.values() for name in names]
    place = {name: at for at, name in enumerate(order)}
    return [name for name in order if any(place.get(it, -1) > place[name] for it in stands_on[name])]


def arrows(rooms: Rooms, stands_on: Below) -> dict[str, list[str]]:
    """For each room the rooms that it stands on, without those that another of them stands on."""
    room_of = {name: room for room, names in rooms.items() for name in names}
    below = {room: {room_of[it] for name in names for it in stands_on[name] if it in room_of} - {room}
             for room, names in rooms.items()}

    def reached(room: str) -> set[str]:
        return below[room].union(*(reached(it) for it in below[room]))

    return {room: sorted(it for it in found if not any(it in reached(other) for other in found - {it}))
            for room, found in below.items()}


def dot(rooms: Rooms, stands_on: Below) -> str:
    lines = ["digraph rooms {", "  rankdir=BT;", '  node [shape=box, fontname="Helvetica", fontsize=11];']
    drawn = [room for room in rooms if not room.startswith("Tests")]
    for room in drawn:
        label = "\\n".join([room.upper(), "", *rooms[room]])
        lines.append(f'  "{room}" [label="{label}"];')
    for room in drawn:
        lines += [f'  "{room}" -> "{it}";' for it in arrows(rooms, stands_on)[room]]
    return "\n".join([*lines, "}"]) + "\n"


def first_sentence(source: str) -> str:
    """The first sentence of the comment at the head of a source, without its full stop."""
    head = re.match(r"(?://![^\n]+\n)*", source)
    return re.split(r"\.(?:\s|$)", " ".join(line[3:].strip() for line in head[0].splitlines()))[0]


def source_of(name: str) -> str:
    """The text of the root file of a crate."""
    return next(TOP.glob(f"crates/{name}/src/[lm]*[bn].rt")).read_text()


def rows(page: str) -> dict[str, str]:
    """What the tables of rooms say of each crate."""
    return dict(re.findall(r"(?m)^\| `(\w+)`\*? \| ([^|]*) \|$", page))


def wrong_rows(rooms: Rooms, page: str) -> list[str]:
    """The crates, but for those of tests, whose row is not their first sentence or is too long."""
    said = rows(page)
    names = [name for room, found in rooms.items() if not room.startswith("Tests") for name in found]
    return [name for name in names
            if said.get(name) != first_sentence(source_of(name)) or len(said[name].split()) > WORDS]


def faults(rooms: Rooms, stands_on: Below, text: str) -> list[str]:
    """What the check reports."""
    found = []
    if early(rooms, stands_on):
        found.append(f"crates.txt lists {', '.join(early(rooms, stands_on))} before a crate that it stands on")
    if DOT.read_text() != text:
        found.append("docs/rooms.dot is not what crates.txt gives: run docs/rooms.py")
    for name in wrong_rows(rooms, PAGE.read_text()):
        found.append(f"docs/architecture.md: the row of {name} is not the first sentence of its comment, in {WORDS} words")
    return found


def main(words: list[str]) -> int:
    rooms, stands_on = tables_of(crates.read())
    text = dot(rooms, stands_on)
    if words == ["--check"]:
        found = faults(rooms, stands_on, text)
        print("".join(f"{line}\n" for line in found), end="", file=sys.stderr)
        return int(bool(found))
    DOT.write_text(text)
    if shutil.which("dot"):
        subprocess.run(["dot", "-Tsvg", str(DOT), "-o", str(SVG)], check=True)
    else:
        print("docs/rooms.py: Graphviz is not installed, so docs/rooms.svg stays as it is", file=sys.stderr)
    return 0


if __name__ == "__main__":
    sys.exit(main(sys.argv[1:]))
