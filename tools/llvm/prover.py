"""Asks `kat` whether a function still returns the same."""

import re
import subprocess
from functools import cache
from itertools import islice
from pathlib import Path
from textwrap import indent
from typing import NamedTuple

import differences
from ir import Unread
from module import Module
from pairs import tries
from terms import exact
from values import Options

KAT = Path(__file__).resolve().parents[2] / "kat"
LIMIT = re.compile(r"refused: ([A-Z]\w+)")


@cache
def behind(program: str) -> str:
    """The program that the script of this tree runs, so that a limit of time ends it, and refusals, which are usual here, are
    not explained on standard error. Any other program is itself."""
    if program != str(KAT):
        return program
    return subprocess.run([program, "--program"], stdout=subprocess.PIPE, encoding="utf-8").stdout.rstrip("\n") or program


class Answer(NamedTuple):
    """An answer, `equal`, `differs`, `not proved` or `not read`; the cuts of the proof, what differs, or why there is no proof;
    and the run that differs or, if it was asked for, the difference that `kat` found."""
    word: str
    why: str
    difference: str = ""


class Prover:
    """Calls of `kat` on files of a folder."""

    def __init__(self, program, folder):
        self.program, self.folder = program, Path(folder)
        self.folder.mkdir(parents=True, exist_ok=True)

    def kat(self, word: str, *files: str, output: str = "printed") -> tuple:
        """The status of a command, and what it prints."""
        words = [behind(str(self.program)), word, *(self.folder / file for file in files)]
        ended = subprocess.run(words, stdout=subprocess.PIPE, encoding="utf-8")
        (self.folder / output).write_text(ended.stdout, "utf-8")
        return ended.returncode, ended.stdout

    def ask(self, text: str, name: str, refine: bool = False) -> str:
        """Whether a flow text is proved: `equal`, `different`, or what is refused. With `refine` the question is only whether
        the second graph returns what the first one does, where that returns: the goal of the problem is another one."""
        (self.folder / f"{name}.flow").write_text(text, "utf-8")
        status, printed = self.kat("flow", f"{name}.flow", output=f"{name}.kat")
        if status == 0 and refine:
            new, count = re.subn(r"^goal equal ", "goal below ", printed, flags=re.M)
            if count != 1:
                return "a problem without one goal"
            (self.folder / f"{name}.kat").write_text(new, "utf-8")
        if status == 0:
            status, printed = self.kat("decide", f"{name}.kat", output=f"{name}.evidence")
            answer = {0: "equal", 1: "different"}.get(status)
            if answer and self.kat("check", f"{name}.kat", f"{name}.evidence") == (status, f"accepted {answer}\n"):
                return answer
        return printed.strip() or f"status {status}"

    def explain(self, name: str) -> str:
        """What `explain` says of a difference, with comparisons and assignments for the names of tests and actions."""
        said = dict(re.findall(r"^# ([ta]\d+) is (.*)$", (self.folder / f"{name}.kat").read_text("utf-8"), re.M))
        printed = self.kat("explain", f"{name}.kat", f"{name}.evidence")[1]
        return indent(re.sub(r"\b[ta]\d+\b", lambda found: said.get(found[0], found[0]), printed.strip()), "    ")

    def validate(self, before: Module, after: Module, name: str, options: Options = Options(), most: int = None,
                 explain: bool = False, defined: frozenset = frozenset(), runs: int = differences.RUNS) -> Answer:
        """The answer for a function of two modules. Where the first choice of cuts gives no proof, so many runs look for a
        difference. `defined` are functions whose code a pass may know."""
        answers, file, first = {}, exact(name)[:100], ""
        try:
            for number, (choice, text) in enumerate(islice(tries(before, after, name, options), most)):
                first = first or text
                answer = self.ask(text, f"{file}-{number}", options.refine)
                if answer == "equal":
                    return Answer(answer, choice)
                answers.setdefault(answer, f"{file}-{number}")
                run = differences.found(before, after, name, options, defined, runs) if number == 0 else None
                if run:
                    return Answer("differs", *run)
        except Unread as why:
            return Answer("not read", str(why))
        difference = self.explain(answers["different"]) if explain and "different" in answers else ""
        return Answer("not proved", reason(answers, first), difference)


def reason(answers: dict, text: str) -> str:
    """Why there is no proof: the operations that only one side has, and the limits that some choices of cuts met."""
    found = [operations(text)] if "different" in answers else []
    limits = dict.fromkeys(word for answer in answers for word in LIMIT.findall(answer) or [answer] if answer != "different")
    return "; ".join(found + [f"refused: {', '.join(limits)}"] * bool(limits))


def operations(text: str) -> str:
    """The functions that only one graph of a text has."""
    graphs = re.findall(r"^graph \w+ \{\n(.*?)^\}", text, re.M | re.S)
    left, right = (set(re.findall(r"\b(?![us](?:8|16|32|64)\(|s[lg][te]\()(\w+)\(", graph)) for graph in graphs)
    parts = [f"only {side}: {', '.join(sorted(names)[:4])}{', ..' * (len(names) > 4)}"
             for side, names in (("before", left - right), ("after", right - left)) if names]
    return "; ".join(parts) or "the same operations on both sides"
