"""What a proof used: the lines of `explain` of a certificate, with the tests and actions of a question in words."""

import re
from typing import NamedTuple, Optional

from .questions import Question


class Used(NamedTuple):
    """The facts that a certificate uses: for each action the tests known after it, the tests that are known together, and
    stated hypotheses."""

    after: dict[str, list[str]]
    together: list[str]
    stated: list[str]

    def size(self) -> int:
        return sum(map(len, self.after.values())) + len(self.together) + len(self.stated)


def used_facts(explained: list[str], question: Optional[Question], problem_text: str) -> Used:
    used, reasons = Used({}, [], []), reasons_of(problem_text)
    for line in explained:
        after = re.match(r"known after (.*?): (.*)$", line)
        if after:
            add_after(used, after[1], after[2])
        elif line.startswith("known together: "):
            used.together.append(line.removeprefix("known together: "))
        elif line.startswith("hyp "):
            add_stated(used, line, reasons.get(line), question)
    return used


def add_after(used: Used, action: str, test: str) -> None:
    tests = used.after.setdefault(action, [])
    if test not in tests:
        tests.append(test)


def add_stated(used: Used, line: str, reason: Optional[str], question: Optional[Question]) -> None:
    """A hypothesis that the question states; if `flow` says why, it is a fact."""
    words = (reason or "").split()
    if not words or question is None:
        used.stated.append(line.removeprefix("hyp ").rstrip(";"))
    elif words[0] == "assign":
        action, test = (int(word[1:]) for word in words[1:3])
        add_after(used, question.action_words(action), question.test_words(test, True))
    else:
        together = ", ".join(question.test_words(int(word[1:]), True) for word in words[1:])
        if together not in used.together:
            used.together.append(together)


def reasons_of(text: str) -> dict[str, str]:
    """The comment before each hypothesis that `flow` prints."""
    reasons, reason = {}, ""
    for line in text.splitlines():
        found = re.match(r"# ((?:assign|F\d+)(?: [at]\d+)+)$", line)
        if found:
            reason = found[1]
        elif line.startswith("hyp ") and reason:
            reasons[line] = reason
        elif not line.startswith("hyp "):
            reason = ""
    return reasons
