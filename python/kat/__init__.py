# SPDX-License-Identifier: MIT OR Apache-2.0
"""The calls of kat, which decides equations of programs and of Kleene algebra with tests and proves its answers.

    import kat
    prover = kat.Library()
    decision = prover.decide(problem)
    if decision.holds:
        assert prover.check(problem, decision.evidence).accepted

Each method of Library is a command of kat on texts instead of files; docs/commands.md says what each prints, and
docs/embedding.md how the library is found and what it needs.
"""

from ._errors import Error, LibraryNotFound, NoSuch, OutOfMemory, Refused
from ._library import Library, Text
from ._results import Batch, Check, Decision, Report, Result, Run, Status, Trial
from ._version import VERSION as __version__

__all__ = [
    "Batch", "Check", "Decision", "Error", "Library", "LibraryNotFound", "NoSuch", "OutOfMemory", "Refused", "Report", "Result",
    "Run", "Status", "Text", "Trial", "__version__",
]
