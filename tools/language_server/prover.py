"""Calls of the program kat, each limited in time and ended when nobody waits for it any more.

Calls of the library would be faster by the start of a process, but nothing can interrupt them (docs/embedding.md).
"""

from __future__ import annotations

import asyncio
import contextlib
import os
import shutil
import signal
import subprocess
from pathlib import Path
from typing import NamedTuple

SECONDS_TO_FIND = 60
NO_COMMAND = 7


class NoProgram(Exception):
    """There is no program kat."""


class OutOfTime(Exception):
    """A call took too long and was ended."""


class Ended(NamedTuple):
    status: int
    printed: str


def awaited(process: subprocess.Popen[bytes]) -> Ended:
    """Waits for the end of a process."""
    with process:
        output = process.stdout.read()
    return Ended(process.returncode, output.decode(errors="replace"))


def end(process: subprocess.Popen[bytes]) -> None:
    """Ends a process that may have ended, with all that it started."""
    if process.poll() is None:
        with contextlib.suppress(ProcessLookupError):
            os.killpg(process.pid, signal.SIGKILL)


async def run(words: list[str], seconds: float, folder: Path | None = None, environment: dict[str, str] | None = None) -> Ended:
    """Runs a program. It is ended after these seconds, or when this task is cancelled. A thread waits for it, since what asyncio
    has for processes does not end where a task is cancelled while its process starts (Python 3.11)."""
    process = subprocess.Popen(words, cwd=folder, env=environment, stdin=subprocess.DEVNULL, stdout=subprocess.PIPE,
                               stderr=subprocess.DEVNULL, start_new_session=True)
    try:
        return await asyncio.wait_for(asyncio.get_running_loop().run_in_executor(None, awaited, process), seconds)
    except asyncio.TimeoutError as why:
        raise OutOfTime from why
    finally:
        end(process)


async def find(given: str) -> str:
    """The program that the script `kat` runs; what was given if it is the program itself."""
    script = shutil.which(given)
    if script is None:
        raise NoProgram(f"{given} is no program")
    # Where no program fits the sources, the script proves and builds one if it finds the Rattle kit on the PATH. A server
    # must not begin that, so the PATH has the system's folders only.
    try:
        status, printed = await run([script, "--program"], SECONDS_TO_FIND, environment={**os.environ, "PATH": os.defpath})
    except (OSError, OutOfTime) as why:
        raise NoProgram(f"{script} does not run") from why
    found = script if status == NO_COMMAND else printed.rstrip("\n")
    if not Path(found).is_file():
        raise NoProgram(f"{script} has no program; call it once in a shell, which unpacks, or proves and builds one")
    return found


class Kat:
    """The program, of which at most as many calls run at a time as there are processors."""

    def __init__(self, program: str, seconds: float) -> None:
        self.program, self.seconds = program, seconds
        self.slots = asyncio.Semaphore(os.cpu_count() or 1)

    async def call(self, folder: Path, *words: str) -> Ended:
        """Runs a command in a folder. The time begins when it starts."""
        async with self.slots:
            return await run([self.program, *words], self.seconds, folder)
