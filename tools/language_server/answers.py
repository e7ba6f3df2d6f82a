"""What kat says of each goal of a text, as diagnostics of the protocol."""

from __future__ import annotations

import re
from pathlib import Path
from typing import Any

from refusal_table import hint

from . import refusals
from .prover import Ended, Kat, OutOfTime
from .texts import Text

Diagnostic = dict[str, Any]
ERROR, INFORMATION = 1, 3
# As many goals has a file at most, for `kat batch`.
MOST_GOALS = 64
# How many loop bodies `try` enters at most in a run.
TURNS = "1000"
EQUAL, DIFFERENT = 0, 1
STATUSES = {4: "a file could not be read", 5: "its output failed", 6: "it ran out of memory", 7: "it has no such command"}
# What `different` means of terms, of programs over variables and of graphs, as docs/commands.md and docs/flow.md say.
OF_TERMS = "different: the two sides differ in some table in which the hypotheses hold."
OF_PROGRAMS = ("different: the question over tests and actions fails. This says nothing about stores; look for a move that no "
               "store makes.")
OF_STORES = "different: the goal is false from this store, from which the programs end as below it."
OF_GRAPHS = "different: the question over tests and actions fails. The graphs may still agree; docs/flow.md says what to try."
# What a fault at the end of a text means, whose place is the last token.
TOO_EARLY = "The text ends too early, after this."


def diagnostic(place: dict[str, Any], severity: int, code: str, message: str) -> Diagnostic:
    return {"range": place, "severity": severity, "source": "kat", "code": code, "message": message}


def goal_range(text: Text, number: int) -> dict[str, Any]:
    """The keyword of a goal; for a text without goals, its last token."""
    if not text.goals:
        return text.fault_range(len(text.bytes))
    token, _ = text.goals[number]
    return text.range(token.start, token.end)


def refused(text: Text, number: int, ended: Ended, is_of_text: bool) -> Diagnostic:
    """A refusal, at the place of its fault, if the place is one of the text and not of a problem that was made of it."""
    found = refusals.read(ended.printed)
    if found is None:
        why = STATUSES.get(ended.status, f"it ended with {ended.status}")
        return diagnostic(goal_range(text, number), INFORMATION, "none", f"no answer of kat: {why}")
    if not is_of_text or found.offset is None:
        return diagnostic(goal_range(text, number), ERROR, found.word, f"{found.word}: {found.sentence}")
    before, token = text.texts_at(found.offset)
    sentence = f"{found.sentence} {hint(found.word, before, token)}".rstrip() if token or found.word != "Syntax" else TOO_EARLY
    return diagnostic(text.fault_range(found.offset), ERROR, found.word, f"{found.word}: {sentence}")


def has_variables(text: Text) -> bool:
    """Whether a goal of a problem file may be about stores."""
    return text.language == "kat" and any(it.kind == "variable" for it in text.definitions)


def in_words(explained: str, problem: str) -> str:
    """What `explain` says, with comparisons and assignments for the names of tests and actions that `flow` made."""
    meant = dict(re.findall(r"^# ([ta]\d+) is (.*)$", problem, re.MULTILINE))

    def word(found: re.Match[str]) -> str:
        text = meant.get(found["name"], found["name"])
        return f"!({text})" if found["not"] and found["name"] in meant else found["not"] + text

    return re.sub(r"(?P<not>!?)\b(?P<name>[ta]\d+)\b", word, explained)


class Goal:
    """A goal of a text, and the files of its question in a folder."""

    def __init__(self, kat: Kat, folder: Path, text: Text, number: int) -> None:
        self.kat, self.folder, self.text, self.number = kat, folder, text, number

    def at(self, code: str, message: str) -> Diagnostic:
        return diagnostic(goal_range(self.text, self.number), INFORMATION, code, message)

    async def store(self, problem: str, evidence: str) -> str:
        """A store from which the goal is false, if `try` finds one in time, with the ends of the programs."""
        try:
            ended = await self.kat.call(self.folder, "try", problem, TURNS, evidence)
        except OutOfTime:
            return ""
        return ended.printed.rstrip("\n") if ended.status == DIFFERENT else ""

    async def difference(self, problem: str, printed: str) -> str:
        """What a string means, and what `explain` and `try` say of it."""
        evidence = f"{self.number}.evidence"
        (self.folder / evidence).write_text(printed, encoding="utf-8")
        explained = (await self.kat.call(self.folder, "explain", problem, evidence)).printed.rstrip("\n")
        if self.text.language == "flow":
            made = (self.folder / problem).read_text(encoding="utf-8")
            return f"{OF_GRAPHS}\n{in_words(explained, made)}"
        if not has_variables(self.text):
            return f"{OF_TERMS}\n{explained}"
        store = await self.store(problem, evidence)
        return f"{OF_STORES}\n{store}\n{explained}" if store else f"{OF_PROGRAMS}\n{explained}"

    async def decided(self) -> Diagnostic:
        """Translates the text if it is no problem file, and decides it."""
        text, language = self.text, self.text.language
        source, problem = f"{self.number}.{language}", f"{self.number}.kat"
        (self.folder / source).write_bytes(text.with_goal(self.number))
        if language != "kat":
            ended = await self.kat.call(self.folder, language, source)
            if ended.status:
                return refused(text, self.number, ended, is_of_text=True)
            (self.folder / problem).write_text(ended.printed, encoding="utf-8")
        ended = await self.kat.call(self.folder, "decide", problem)
        if ended.status == EQUAL:
            return self.at("equal", "equal: proved")
        if ended.status == DIFFERENT:
            return self.at("different", await self.difference(problem, ended.printed))
        return refused(text, self.number, ended, is_of_text=language == "kat")

    async def answer(self) -> Diagnostic:
        """The answer, or that there is none within the time."""
        try:
            return await self.decided()
        except OutOfTime:
            return self.at("none", f"no answer within {self.kat.seconds:g} seconds")


def numbers(text: Text) -> range:
    """The goals that are decided; a text without one is read too, for its fault."""
    return range(min(max(len(text.goals), 1), MOST_GOALS))


def too_many(text: Text) -> list[Diagnostic]:
    """A fault at the first goal that is one too many."""
    if len(text.goals) <= MOST_GOALS:
        return []
    return [diagnostic(goal_range(text, MOST_GOALS), ERROR, "TooMany", f"TooMany: There are more than {MOST_GOALS} goals.")]


def without_doubles(found: list[Diagnostic]) -> list[Diagnostic]:
    """A fault of the text is found for each goal, and is reported once."""
    kept: list[Diagnostic] = []
    for it in found:
        if it not in kept:
            kept.append(it)
    return kept
