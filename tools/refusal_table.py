"""What the words of refusals mean and what is often meant, from the table release/refusals.txt."""

from __future__ import annotations

import re
from pathlib import Path
from typing import NamedTuple

TABLE = Path(__file__).resolve().parents[1] / "release/refusals.txt"


class Hint(NamedTuple):
    """What is often meant at a fault with this word, where the pattern is that of the tokens before and at the fault."""

    word: str
    pattern: re.Pattern[str]
    text: str


def rows(text: str) -> list[list[str]]:
    return [line.split("\t") for line in text.splitlines() if line and not line.startswith("#")]


def sentences(text: str) -> dict[str, str]:
    """The sentence of each word of a refused text; words of evidence and notes have others."""
    return {row[1]: row[2] for row in rows(text) if row[0] in ("place", "other")}


def hints(text: str) -> list[Hint]:
    return [Hint(row[1], re.compile(row[2]), row[3]) for row in rows(text) if row[0] == "hint"]


SENTENCES = sentences(TABLE.read_text(encoding="utf-8"))
HINTS = hints(TABLE.read_text(encoding="utf-8"))


def hint(word: str, before: str, token: str) -> str:
    """What may be meant by a token at fault, after the token before it; empty if nothing is known."""
    return next((it.text for it in HINTS if it.word == word and it.pattern.fullmatch(f"{before} {token}")), "")
