"""What passes of LLVM make of a module: one pass, or each step of a pipeline that changes something."""

import re
import subprocess
from typing import Iterator, NamedTuple

from lines import NAME, unquoted

DUMP = re.compile(r"^(?:; )?\*\*\* IR Dump After (\S+) on (.*?) \*\*\*")
FUNCTION = re.compile(rf"^(define [^\n]*?@({NAME})\([^\n]*)\n.*?^\}}$", re.M | re.S)


class Job(NamedTuple):
    """A function that may have changed: where it is, the number and the pass of the step, the modules before and after with the
    code of this function only, and the functions that have code."""
    file: str
    step: int
    passed: str
    function: str
    before: str
    after: str
    defined: frozenset = frozenset()


def opt(program: str, text: str, *options: str) -> str:
    return subprocess.run([program, "-S", *options], input=text, stdout=subprocess.PIPE, text=True, check=True).stdout


def functions(text: str) -> dict:
    """The definitions of a module by name."""
    return {unquoted(found[2]): found[0] for found in FUNCTION.finditer(text)}


def reduced(text: str, kept: str) -> str:
    """The module with the code of one function; of the others only what is declared."""
    return FUNCTION.sub(lambda found: found[0] if unquoted(found[2]) == kept else
                        "declare" + found[1].removeprefix("define").rstrip(" {"), text)


def jobs(before: str, after: str, file: str, step: int = 0, passed: str = "") -> Iterator[Job]:
    """A job for each function whose text two modules have in two ways, and for all where a type is another one."""
    first, second = functions(before), functions(after)
    types = [re.findall(r"^%.* = type .*", text, re.M) for text in (before, after)]
    for name, body in second.items():
        if name in first and (body != first[name] or types[0] != types[1]):
            yield Job(file, step, passed, name, reduced(before, name), reduced(after, name), frozenset(first) | frozenset(second))


def pipeline(program: str, text: str, passes: str, file: str) -> Iterator[Job]:
    """The jobs of each step of a pipeline, in their order."""
    before = opt(program, text)
    words = [program, f"-passes={passes}", "-print-changed=quiet", "-print-module-scope", "-disable-output"]
    run = subprocess.Popen(words, stdin=subprocess.PIPE, stdout=subprocess.DEVNULL, stderr=subprocess.PIPE, text=True)
    run.stdin.write(before)
    run.stdin.close()
    lines, passed, step = [], "", 0
    for line in [*run.stderr, "*** IR Dump After end on end ***"]:
        found = DUMP.match(line)
        if not found:
            lines.append(line)
            continue
        after = "".join(lines)
        if passed:
            step += 1
            yield from jobs(before, after, file, step, passed)
            before = after
        lines, passed = [], found[1]
    if run.wait():
        raise subprocess.CalledProcessError(run.returncode, words)
