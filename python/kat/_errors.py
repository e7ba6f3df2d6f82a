# SPDX-License-Identifier: MIT OR Apache-2.0
"""The exceptions of this package. An argument of a wrong type raises TypeError, a number out of range OverflowError."""

import re
from typing import Optional, Tuple

# Words whose number is no place: that of a hypothesis.
WITHOUT_PLACE = ("NotSimple",)


class Error(Exception):
    """What all exceptions of this package have in common."""


class LibraryNotFound(Error, OSError):
    """There is no library of kat at the place that was named, or at any that is searched."""


class OutOfMemory(Error, MemoryError):
    """Memory ran out within a call."""


class _Answer(Error):
    """A call that gave no answer to its question, with what the command prints."""

    def __init__(self, call: str, output: bytes) -> None:
        super().__init__(call, output)
        self.call, self.output = call, output

    def __str__(self) -> str:
        return f"{self.call}: {self.output.decode().strip()}"


class NoSuch(_Answer):
    """The text has no program of that name, or the store does not fit it."""


class Refused(_Answer):
    """A text is refused: the problem, or what was given with it."""

    def __init__(self, call: str, output: bytes, problem: bytes) -> None:
        super().__init__(call, output)
        self.problem = problem
        # So that a copy, as one from another process, has the same arguments.
        self.args = (call, output, problem)

    @property
    def reason(self) -> str:
        """What follows `refused: `, as `Syntax 31`."""
        return self.output.decode().strip().partition(": ")[2]

    @property
    def offset(self) -> Optional[int]:
        """The byte of the problem, counted from 0, at which the fault is, or None where the fault has no place in it."""
        found = re.fullmatch(r"([A-Za-z0-9]+) ([0-9]+)", self.reason)
        return int(found[2]) if found and found[1] not in WITHOUT_PLACE else None

    @property
    def place(self) -> Optional[Tuple[int, int]]:
        """The line and the column of the fault, both counted from 1, the column in characters."""
        if self.offset is None:
            return None
        before = self.problem[: self.offset]
        line = before.rpartition(b"\n")[2]
        return before.count(b"\n") + 1, len(line.decode(errors="replace")) + 1

    def __str__(self) -> str:
        place = self.place
        return super().__str__() + (f" (line {place[0]}, column {place[1]})" if place else "")
