"""Answers for many functions: side by side, each within a time, and remembered by the text of both sides."""

import hashlib
import json
import os
import re
import signal
import tempfile
import time
from concurrent.futures import ProcessPoolExecutor
from dataclasses import asdict, dataclass
from itertools import islice
from pathlib import Path
from typing import Iterable, Iterator, Optional

from differences import raw_text
from ir import Unread
from module import Module
from pairs import changed, modules
from prover import KAT, Answer, Prover
from steps import Job
from terms import exact
from values import Options

HERE = Path(__file__).resolve().parent
BATCH = 256


class Late(Exception):
    """The time for a function is over."""


@dataclass
class Settings:
    """How functions are asked about. The cache and the folder that keeps texts may be None, and so may the seconds."""
    options: Options = Options()
    tries: Optional[int] = None
    kat: str = str(KAT)
    keep: Optional[str] = None
    cache: Optional[str] = None
    timeout: Optional[float] = None
    explain: bool = False


@dataclass
class Record:
    """What is found for a function at a step."""
    file: str
    step: int
    passed: str
    function: str
    answer: str
    why: str
    difference: str
    seconds: float


def late(*_) -> None:
    raise Late


def tool() -> str:
    """A sum of what an answer depends on beside the texts: the reader and the program."""
    found = hashlib.sha256()
    for file in [*sorted(HERE.glob("*.py")), HERE.parents[1] / "release/SHA256SUMS"]:
        found.update(file.read_bytes() if file.exists() else b"")
    return found.hexdigest()


def key(before: Module, after: Module, name: str, settings: Settings, defined: frozenset = frozenset()) -> str:
    """A sum of both texts and of what the reader and the runs take from their modules."""
    words = set(re.findall(r"@([-\w.$]+|\"[^\"]*\")", before.texts[name] + after.texts[name]))
    known = [sorted((word, module.attributes.get(word.strip('"'), "")) for word in words) for module in (before, after)]
    raw = [raw_text(module, name) for module in (before, after)]
    lines = [[line for line in module.raw if line[:1] == "@" and line[1:].split(" = ")[0] in words] for module in (before, after)]
    heads = [sorted((word, module.heads.get(word.strip('"'), "")) for word in words) for module in (before, after)]
    nodes = [[module.nodes.get(number) for number in re.findall(r"!(\d+)", text)] for module, text in zip((before, after), raw)]
    known += [raw, lines, heads, nodes, sorted(words & defined)]
    parts = [tool(), settings.options, settings.tries, str(settings.kat), before.datalayout, before.types, after.types, known,
             before.texts[name], after.texts[name]]
    return hashlib.sha256(repr(parts).encode()).hexdigest()


def remembered(settings: Settings, file: str) -> Optional[Answer]:
    """An answer of an earlier run; where a difference is wanted it must have been asked for."""
    path = Path(settings.cache or "", file)
    if not settings.cache or not path.exists():
        return None
    found = Answer(*json.loads(path.read_text("utf-8")))
    return None if settings.explain and found.word == "not proved" and not found.difference else found


def remember(settings: Settings, file: str, answer: Answer) -> None:
    path = Path(settings.cache, file)
    path.parent.mkdir(parents=True, exist_ok=True)
    with tempfile.NamedTemporaryFile("w", dir=path.parent, delete=False, encoding="utf-8") as new:
        json.dump(answer, new)
    os.replace(new.name, path)


def asked(before: Module, after: Module, job: Job, settings: Settings) -> Answer:
    """The answer for a function within the time. One that came late is not remembered."""
    file = key(before, after, job.function, settings, job.defined)
    found = remembered(settings, file)
    if found:
        return found
    signal.signal(signal.SIGALRM, late)
    signal.setitimer(signal.ITIMER_REAL, settings.timeout or 0)
    try:
        with tempfile.TemporaryDirectory() as folder:
            kept = Path(settings.keep, exact(job.file), f"{job.step}") if settings.keep else folder
            found = Prover(settings.kat, kept).validate(before, after, job.function, settings.options, settings.tries, settings.explain,
                                                             job.defined)
    except Late:
        return Answer("not proved", f"no answer in {settings.timeout:g} s")
    finally:
        signal.setitimer(signal.ITIMER_REAL, 0)
    if settings.cache:
        remember(settings, file, found)
    return found


def record(job: Job, settings: Settings) -> Optional[Record]:
    """The record of a function, None where the reader sees no change."""
    start = time.monotonic()
    try:
        before, after = modules(job.before, job.after, (job.file, job.file))
        if job.function not in changed(before, after):
            return None
        answer = asked(before, after, job, settings)
    except Unread as why:
        answer = Answer("not read", str(why))
    return Record(job.file, job.step, job.passed, job.function, *answer, time.monotonic() - start)


def records(jobs: Iterable[Job], settings: Settings, processes: int = 1) -> Iterator[Record]:
    """The records of functions in their order, from some processes."""
    jobs = iter(jobs)
    if processes == 1:
        yield from filter(None, (record(job, settings) for job in jobs))
        return
    with ProcessPoolExecutor(processes) as pool:
        while batch := list(islice(jobs, BATCH)):
            yield from filter(None, pool.map(record, batch, [settings] * len(batch)))


def as_json(found: list) -> str:
    return json.dumps([asdict(one) for one in found], indent=1)
