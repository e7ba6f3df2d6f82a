"""Calls of the program `kat`, each limited to some seconds."""

import json
import re
import subprocess
import tempfile
import time
from pathlib import Path
from typing import NamedTuple, Optional

TOP = Path(__file__).resolve().parents[2]
EQUAL, DIFFERENT, REFUSED, NO_COMMAND = 0, 1, 2, 7


class Answer(NamedTuple):
    """The answer of `decide`: `equal`, `different`, or another line that was printed, with the evidence."""

    status: Optional[int]
    word: str
    evidence: str
    size: int
    hypotheses: int
    seconds: float


class Refusal(NamedTuple):
    word: str
    offset: Optional[int]


class Kat:
    def __init__(self, program: str, seconds: float) -> None:
        self.program, self.seconds = program, seconds

    def call(self, *words: str) -> tuple[Optional[int], str]:
        """The status and the output, or no status if the time was not enough."""
        try:
            ended = subprocess.run([self.program, *words], stdin=subprocess.DEVNULL, stdout=subprocess.PIPE,
                                   stderr=subprocess.DEVNULL, timeout=self.seconds)
        except subprocess.TimeoutExpired:
            return None, ""
        return ended.returncode, ended.stdout.decode("utf-8", "replace")

    def decide(self, file: Path) -> Answer:
        begun = time.perf_counter()
        status, printed = self.call("decide", str(file), "--json")
        seconds = time.perf_counter() - begun
        if status in (EQUAL, DIFFERENT):
            said = json.loads(printed)
            return Answer(status, said["answer"], said["evidence"], said["size"], said["hypotheses"], seconds)
        word = "no answer in time" if status is None else printed.strip() or f"status {status}"
        return Answer(status, word, "", 0, 0, seconds)

    def with_evidence(self, evidence: str, *words: str) -> tuple[Optional[int], str]:
        """Calls a command whose last word is a file with this evidence."""
        with tempfile.NamedTemporaryFile("w", suffix=".evidence") as file:
            file.write(evidence)
            file.flush()
            return self.call(*words, file.name)


def refusal_of(printed: str) -> Optional[Refusal]:
    """What a line `refused: WORD N` says."""
    found = re.match(r"refused: (?:(?:evidence )?(\w+))(?: (\d+))?$", printed.strip())
    return Refusal(found[1], int(found[2]) if found[2] else None) if found else None


def read_replay(printed: str) -> tuple[list[dict[int, bool]], list[int]]:
    """The truth values of the tests in each state of a string, and the actions between them."""
    states, actions = [], []
    for line in printed.splitlines():
        if re.fullmatch(r"\d+( !?t\d+)*", line):
            states.append({int(word.lstrip("!t")): word[0] != "!" for word in line.split()[1:]})
        elif re.fullmatch(r"a\d+", line):
            actions.append(int(line[1:]))
    return states, actions


def found_program() -> str:
    """The program that the script `kat` runs."""
    ran = subprocess.run([str(TOP / "kat"), "--program"], stdin=subprocess.DEVNULL, stdout=subprocess.PIPE, text=True)
    return ran.stdout.rstrip("\n")
