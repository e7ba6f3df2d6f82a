"""Refusals in words: the line and the place of the fault, and what its word means."""

from typing import NamedTuple, Optional

from refusal_table import SENTENCES

from .prover import Refusal

class Fault(NamedTuple):
    """The number of a line from 1, its text, the columns from 0 that are at fault, and the reason."""

    line: int
    text: str
    start: int
    end: int
    reason: str


def fault_of(data: bytes, refusal: Refusal) -> Optional[Fault]:
    """Where a text is at fault, if the refusal says a place."""
    if refusal.offset is None or refusal.offset > len(data):
        return None
    before = data[:refusal.offset].decode("utf-8", "replace")
    start = before.rfind("\n") + 1
    rest = data[refusal.offset:].decode("utf-8", "replace")
    line_end = rest.find("\n")
    text = before[start:] + (rest if line_end < 0 else rest[:line_end])
    column = len(before) - start
    return Fault(before.count("\n") + 1, text, column, column + width_of_token(text[column:]), reason_of(refusal.word))


def reason_of(word: str) -> str:
    return SENTENCES.get(word, "")


def width_of_token(text: str) -> int:
    """The letters of the token at the start of a text, at least one."""
    count = 0
    while count < len(text) and (text[count].isalnum() or text[count] == "_"):
        count += 1
    return max(count, 1)
