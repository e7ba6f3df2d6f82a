# SPDX-License-Identifier: MIT OR Apache-2.0
"""Reads crates.txt, for the scripts of docs/ and bench/.

A line is `NAME KIND..: BELOW..`: a crate, the kinds of library that it is besides, and the crates that it is built over.
What follows a `#` is a comment. A comment line after an empty line is the title of a room, to which the crates until the
next title belong.
"""

from dataclasses import dataclass
from pathlib import Path

TOP = Path(__file__).resolve().parent.parent


@dataclass(frozen=True)
class Crate:
    """A line of crates.txt."""

    name: str
    room: str
    kinds: tuple[str, ...]
    below: tuple[str, ...]


def parse(text: str) -> list[Crate]:
    """The crates of a text, in its order. Crates before the first title are in the room `""`."""
    found, room, after_empty = [], "", False
    for line in text.splitlines():
        code, has_comment, comment = line.partition("#")
        head, is_crate, below = code.partition(":")
        if is_crate:
            name, *kinds = head.split()
            found.append(Crate(name, room, tuple(kinds), tuple(below.split())))
        elif has_comment and after_empty:
            room = comment.strip()
        after_empty = not line.strip()
    return found


def read() -> list[Crate]:
    """The crates of this repository."""
    return parse((TOP / "crates.txt").read_text())


def by_room(crates: list[Crate]) -> dict[str, list[str]]:
    """The names of the crates of each room, both in the order of the file."""
    rooms: dict[str, list[str]] = {}
    for crate in crates:
        rooms.setdefault(crate.room, []).append(crate.name)
    return rooms
