#!/usr/bin/env python3
# SPDX-License-Identifier: MIT OR Apache-2.0
"""Compares the calls of the package over a shared object with the examples of the repository.

    compare.py SHARED_OBJECT

`decide` has to give the output beside each problem of holds/, fails/ and refused/, and `check` has to accept the evidence;
the same from four threads at once. Each other call is compared with an example of its command. A call with too little room
has to write nothing.
"""

import ctypes
import sys
from concurrent.futures import ThreadPoolExecutor
from pathlib import Path
from typing import Callable, Iterator, Tuple

sys.path.insert(0, str(Path(__file__).resolve().parent.parent))
import kat  # noqa: E402

EXAMPLES = Path(__file__).resolve().parent.parent.parent / "examples"
STATUSES = {"holds": 0, "fails": 1, "refused": 2}
ACCEPTED = [b"accepted equal\n", b"accepted different\n"]


def answer(call: Callable[..., kat.Result], *given: object) -> Tuple[int, bytes]:
    """The status and the output of a call, also where it raises what the command says by its status."""
    try:
        result = call(*given)
    except kat.Refused as why:
        return 2, why.output
    except kat.NoSuch as why:
        return 7, why.output
    return int(result.status), result.output


def first_of(pattern: str) -> Tuple[Path, Path]:
    """The first example of a kind, and its folder with the name up to its first dot."""
    found = sorted(EXAMPLES.glob(pattern))[0]
    return found, found.with_name(found.name.partition(".")[0])


def read(path: Path) -> bytes:
    return path.read_bytes()


def decides(prover: kat.Library, problem: Path, status: int) -> bool:
    text, expected = read(problem), read(problem.with_suffix(".out"))
    if answer(prover.decide, text) != (status, expected):
        return False
    return status == 2 or answer(prover.check, text, expected) == (status, ACCEPTED[status])


def others(prover: kat.Library) -> Iterator[Tuple[str, bool]]:
    """Each of the other calls, and whether it gives what an example says of it."""
    batch, _ = first_of("batches/*.kat")
    yield "batch", prover.batch(read(batch)).output == read(batch.with_suffix(".out"))
    shown, _ = first_of("holds/*.show")
    yield "show", answer(prover.show, read(shown.with_suffix(".kat"))) == (0, read(shown))
    replayed, problem = first_of("fails/*.replay")
    text, evidence = read(problem.with_suffix(".kat")), read(replayed.with_suffix(".evidence"))
    yield "replay", answer(prover.replay, text, evidence)[1] == read(replayed)
    explained, _ = first_of("fails/*.explain")
    text, evidence = read(explained.with_suffix(".kat")), read(explained.with_suffix(".out"))
    yield "explain", answer(prover.explain, text, evidence) == (0, read(explained))
    yield from triples_and_proofs(prover)
    guarded = sorted(EXAMPLES.glob("guarded/*.kat"))[0]
    yield "gkat", answer(prover.gkat, read(guarded.with_suffix(".gkat"))) == (0, read(guarded))
    flow = sorted(EXAMPLES.glob("flow/*.kat"))[0]
    yield "flow", answer(prover.flow, read(flow.with_suffix(".flow"))) == (0, read(flow))
    report = prover.decide_json(read(EXAMPLES / "holds/twice.kat"))
    yield "decide_json", report.holds and report.output.count(b"\n") == 1 and report.value["answer"] == "equal"
    yield from programs(prover)


def triples_and_proofs(prover: kat.Library) -> Iterator[Tuple[str, bool]]:
    tried, problem = first_of("fails/*.100.try")
    text, string = read(problem.with_suffix(".kat")), read(problem.with_suffix(".out"))
    yield "try", answer(prover.try_, text, 100) == (1, read(tried))
    yield "try_with", answer(prover.try_with, text, 100, string) == (1, read(tried))
    proof, problem = first_of("chains/*.proof")
    yield "chain", answer(prover.chain, read(problem.with_suffix(".kat")), read(proof))[1] == read(proof.with_suffix(".out"))
    outline, _ = first_of("outlines/*.kat")
    yield "outline", answer(prover.outline, read(outline))[1] == read(outline.with_suffix(".out"))
    notes, problem = first_of("outlines/*.notes")
    printed = answer(prover.outline_check, read(problem.with_suffix(".kat")), read(notes))[1]
    yield "outline_check", printed == read(notes.with_suffix(".check"))


def programs(prover: kat.Library) -> Iterator[Tuple[str, bool]]:
    euclid = read(EXAMPLES / "runs/euclid.kat")
    yield "run", answer(prover.run, euclid, "gcd", "a=12,b=18", 100) == (0, b"done a=6 b=6\n")
    yield "run of no UTF-8", answer(prover.run, euclid, b"\xff", "a=12,b=18", 100) == (7, b"refused: words\n")
    form, problem = first_of("runs/*.*.kat")
    yield "oneloop", answer(prover.oneloop, read(problem.with_suffix(".kat")), form.name.split(".")[1]) == (0, read(form))
    log = next(it for it in sorted(EXAMPLES.glob("programs/*.log")) if it.name.count(".") == 2)
    text, program = read(log.with_name(log.name.partition(".")[0] + ".kat")), log.name.split(".")[1]
    yield "optimise", answer(prover.optimise, text, program) == (0, read(log))


def writes_nothing(shared_object: str) -> bool:
    """A call with one byte too few leaves the memory as it was, and one with enough leaves what comes after the output."""
    text, expected = read(EXAMPLES / "holds/twice.kat"), read(EXAMPLES / "holds/twice.out")
    decide = ctypes.CDLL(shared_object).kat_decide
    decide.restype = ctypes.c_uint8
    needed = ctypes.c_size_t()

    def call(room: int) -> Tuple[int, int, bytes]:
        memory = ctypes.create_string_buffer(b"#" * (len(expected) + 8), len(expected) + 8)
        status = decide(text, ctypes.c_size_t(len(text)), memory, ctypes.c_size_t(room), ctypes.byref(needed))
        return status, needed.value, memory.raw

    before = b"#" * (len(expected) + 8)
    return call(len(expected) - 1) == (9, len(expected), before) and call(len(expected)) == (0, len(expected), expected + b"#" * 8)


def main() -> int:
    shared_object = str(Path(sys.argv[1]).resolve())
    prover = kat.Library(shared_object)
    problems = [(it, status) for folder, status in STATUSES.items() for it in sorted((EXAMPLES / folder).glob("*.kat"))]
    rows = [(f"decide {it.parent.name}/{it.name}", decides(prover, it, status)) for it, status in problems]
    with ThreadPoolExecutor(4) as pool:
        rows.append(("four threads", all(pool.map(lambda row: decides(prover, *row), problems * 2))))
    rows += [*others(prover), ("too little room", writes_nothing(shared_object))]
    failed = [name for name, passed in rows if not passed]
    for name in failed:
        print(f"python/tests/compare.py: {name} gives something else")
    print(f"python/tests/compare.py: {len(rows) - len(failed)} passed, {len(failed)} failed")
    return int(bool(failed))


if __name__ == "__main__":
    sys.exit(main())
