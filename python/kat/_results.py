# SPDX-License-Identifier: MIT OR Apache-2.0
"""What the calls give: a status and the bytes that the command prints, with what they mean."""

import enum
import json
import re
from dataclasses import dataclass
from typing import Any, Dict, Tuple


class Status(enum.IntEnum):
    """What a call answers. docs/commands.md says for each command what it means."""

    EQUAL = 0
    """The goal holds, evidence of that is accepted, or the command succeeded."""
    DIFFERENT = 1
    """The goal does not hold, evidence of that is accepted, a store refutes it, or a run did not end."""
    REFUSED = 2
    """A text is refused. Calls raise Refused."""
    REJECTED = 3
    """Evidence, a proof or notes do not show what they claim."""
    NO_SUCH = 7
    """The text has no such program, or the store does not fit it. Calls raise NoSuch."""


@dataclass(frozen=True)
class Result:
    """The answer of a call."""

    status: Status
    output: bytes
    """All that the command prints."""

    @property
    def text(self) -> str:
        """The output as a string."""
        return self.output.decode()


@dataclass(frozen=True)
class Decision(Result):
    """The answer of `decide` and `outline`: whether the goal holds, with what shows it."""

    @property
    def holds(self) -> bool:
        """Whether the goal holds. If it is about programs, False says nothing about stores."""
        return self.status is Status.EQUAL

    @property
    def evidence(self) -> bytes:
        """What `check` accepts after `decide`, or after an `outline` whose triple does not hold."""
        return self.output


@dataclass(frozen=True)
class Report(Decision):
    """The answer of `decide_json`."""

    @property
    def value(self) -> Dict[str, Any]:
        """The line of JSON as an object."""
        value: Dict[str, Any] = json.loads(self.output)
        return value

    @property
    def evidence(self) -> bytes:
        evidence: str = self.value["evidence"]
        return evidence.encode()


@dataclass(frozen=True)
class Batch(Result):
    """The answer of `batch`: EQUAL if all goals hold."""

    @property
    def holds(self) -> bool:
        """Whether all goals hold."""
        return self.status is Status.EQUAL

    @property
    def decisions(self) -> Tuple[Decision, ...]:
        """The decision of each goal, in the order of the file."""
        parts = re.split(rb"^goal [0-9]+\n", self.output, flags=re.MULTILINE)[1:]
        return tuple(Decision(_status_of_evidence(it), it) for it in parts)


def _status_of_evidence(evidence: bytes) -> Status:
    return Status.DIFFERENT if evidence.startswith(b"kat 1 different\n") else Status.EQUAL


@dataclass(frozen=True)
class Check(Result):
    """The answer of a call that checks evidence, a proof, notes or a string."""

    @property
    def accepted(self) -> bool:
        """Whether it shows what it claims. After `check` the status is EQUAL if that is that the goal holds, and DIFFERENT if it
        is that the goal does not hold."""
        return self.status is not Status.REJECTED


@dataclass(frozen=True)
class Trial(Result):
    """The answer of `try_` and `try_with`."""

    @property
    def found(self) -> bool:
        """Whether a store was found from which the goal is false."""
        return self.status is Status.DIFFERENT


@dataclass(frozen=True)
class Run(Result):
    """The answer of `run`."""

    @property
    def ended(self) -> bool:
        """Whether the run ended. Otherwise it is stuck, or has turns left to do."""
        return self.status is Status.EQUAL
