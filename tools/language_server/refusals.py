"""A refusal that a command printed: what it means, in a sentence, and where in the text its fault is."""

from __future__ import annotations

import re
from typing import NamedTuple

from refusal_table import SENTENCES

LINE = re.compile(r"refused: (?P<word>\w+)(?: (?P<offset>[0-9]+))?$", re.MULTILINE)


class Refusal(NamedTuple):
    """A line `refused: WORD` or `refused: WORD OFFSET`, where the place is a byte of the text."""

    word: str
    offset: int | None

    @property
    def sentence(self) -> str:
        return SENTENCES.get(self.word, "docs/commands.md says what this means.")


def read(printed: str) -> Refusal | None:
    """The refusal that a command printed, or None if it printed something else."""
    found = LINE.match(printed)
    return found and Refusal(found["word"], found["offset"] and int(found["offset"]))
