# SPDX-License-Identifier: MIT OR Apache-2.0
"""The calls of kat by ctypes over the shared object of the library."""

import ctypes
import os
from pathlib import Path
from typing import Any, Dict, List, Sequence, Tuple, Type, TypeVar, Union

from ._errors import LibraryNotFound, NoSuch, OutOfMemory, Refused
from ._results import Batch, Check, Decision, Report, Result, Run, Status, Trial

Text = Union[str, bytes, bytearray, memoryview]
"""A text: bytes, or a string, which is encoded as UTF-8."""

FILE, WORD, NUMBER = "file", "word", "number"
CALLS: Dict[str, Tuple[str, ...]] = {
    "decide": (FILE,), "decide_json": (FILE,), "batch": (FILE,), "show": (FILE,), "gkat": (FILE,), "flow": (FILE,),
    "outline": (FILE,), "check": (FILE, FILE), "replay": (FILE, FILE), "explain": (FILE, FILE), "chain": (FILE, FILE),
    "outline_check": (FILE, FILE), "try": (FILE, NUMBER), "try_with": (FILE, NUMBER, FILE),
    "run": (FILE, WORD, WORD, NUMBER), "oneloop": (FILE, WORD), "optimise": (FILE, WORD, NUMBER),
}
"""The functions kat_NAME of kat.h, and what each takes before the output: texts, which the commands read from files, words of
the command line, and numbers."""

# The statuses of kat.h that are no answers.
NO_MEMORY, NO_ROOM = 6, 9
# The room for the output of the first call. Where it is longer the call is made again, which does the work again.
FIRST_ROOM = 65536
NAMES = ("libkat.so.0", "libkat.so")

Answer = TypeVar("Answer", bound=Result)


def bytes_of(call: str, argument: str, value: Text) -> bytes:
    """The bytes of a text."""
    if isinstance(value, str):
        return value.encode()
    if isinstance(value, (bytes, bytearray, memoryview)):
        return bytes(value)
    hint = "; give the text, as path.read_bytes() does" if isinstance(value, os.PathLike) else ""
    raise TypeError(f"{call}: {argument} must be str or bytes, not {type(value).__name__}{hint}")


def number_of(call: str, argument: str, value: int) -> int:
    """A number that the library takes. ctypes would take any other modulo 2^64."""
    if not isinstance(value, int) or isinstance(value, bool):
        raise TypeError(f"{call}: {argument} must be int, not {type(value).__name__}")
    if not 0 <= value < 1 << 64:
        raise OverflowError(f"{call}: {argument} must be from 0 to 2^64 - 1, not {value}")
    return value


def places_of(named: Union[str, "os.PathLike[str]", None]) -> List[str]:
    """Where the library may be. A name without a slash is for the loader of the system, all else the path of a file."""
    if named is None:
        named = os.environ.get("KAT_LIBRARY") or None
    if named is None:
        beside = [Path(__file__).with_name(it) for it in NAMES]
        return [str(it) for it in beside if it.is_file()] + list(NAMES)
    if isinstance(named, os.PathLike):
        return [str(Path(named).resolve())]
    if isinstance(named, str):
        return [named if "/" not in named else str(Path(named).resolve())]
    raise TypeError(f"Library: the place must be str or a path, not {type(named).__name__}")


def loaded(places: Sequence[str]) -> ctypes.CDLL:
    """The first library that can be loaded."""
    faults = []
    for place in places:
        try:
            return ctypes.CDLL(place)
        except OSError as why:
            faults.append(str(why))
    by_loader = len(places) == 1 and "/" not in places[0]
    hint = "; a file in the current folder is ./NAME" if by_loader else "; the variable KAT_LIBRARY may name the file"
    raise LibraryNotFound(f"no library of kat: {'; '.join(faults)}{hint}")


class Library:
    """The library of kat. Any number of threads may call at once; other threads of Python run meanwhile.

    Without an argument it is the file that the variable KAT_LIBRARY names, or libkat.so.0 beside this package, or the one that
    the loader of the system finds. A path, or a string with a slash, names a file; any other string is for the loader.

    Methods raise TypeError for arguments of other types, Refused for texts that are not what the call reads, NoSuch where a
    program or a store does not fit, and OutOfMemory.
    """

    def __init__(self, place: Union[str, "os.PathLike[str]", None] = None) -> None:
        library = loaded(places_of(place))
        self._functions = {name: self._function(library, name, kinds) for name, kinds in CALLS.items()}
        self._version = self._found(library, "version")
        self._version.argtypes, self._version.restype = [], ctypes.c_uint32

    @staticmethod
    def _found(library: ctypes.CDLL, name: str) -> Any:
        try:
            return getattr(library, f"kat_{name}")
        except AttributeError:
            raise LibraryNotFound(f"{library._name} has no call kat_{name}, so it is no library of kat of this version") from None

    @staticmethod
    def _function(library: ctypes.CDLL, name: str, kinds: Sequence[str]) -> Any:
        function = Library._found(library, name)
        pointer, length = ctypes.c_char_p, ctypes.c_size_t
        taken: List[Any] = [it for kind in kinds for it in ((ctypes.c_uint64,) if kind == NUMBER else (pointer, length))]
        function.argtypes = [*taken, pointer, length, ctypes.POINTER(length)]
        function.restype = ctypes.c_uint8
        return function

    def _call(self, name: str, answer: Type[Answer], *given: Union[bytes, int]) -> Answer:
        """Calls a function with enough room for its output."""
        words: List[Any] = [it for value in given for it in ((value,) if isinstance(value, int) else (value, len(value)))]
        room, needed = FIRST_ROOM, ctypes.c_size_t()
        while True:
            output = ctypes.create_string_buffer(room)
            status = self._functions[name](*words, output, room, ctypes.byref(needed))
            if status != NO_ROOM:
                break
            room = needed.value
        if status == NO_MEMORY:
            raise OutOfMemory(f"{name}: out of memory")
        printed = output.raw[: needed.value]
        if status == Status.REFUSED:
            assert isinstance(given[0], bytes)
            raise Refused(name, printed, given[0])
        if status == Status.NO_SUCH:
            raise NoSuch(name, printed)
        return answer(Status(status), printed)

    @property
    def version(self) -> str:
        """The version of the library, which may be another than that of this package, `kat.__version__`."""
        number = self._version()
        return f"{number // 1_000_000}.{number // 1000 % 1000}.{number % 1000}"

    def decide(self, problem: Text) -> Decision:
        """Decides the goal of a problem file."""
        return self._call("decide", Decision, bytes_of("decide", "problem", problem))

    def decide_json(self, problem: Text) -> Report:
        """Decides the goal of a problem file, and gives the answer as a line of JSON."""
        return self._call("decide_json", Report, bytes_of("decide_json", "problem", problem))

    def batch(self, problem: Text) -> Batch:
        """Decides each of up to 64 goals of a problem file."""
        return self._call("batch", Batch, bytes_of("batch", "problem", problem))

    def check(self, problem: Text, evidence: Text) -> Check:
        """Checks evidence for the goal of a problem file, whoever wrote it."""
        return self._call("check", Check, bytes_of("check", "problem", problem), bytes_of("check", "evidence", evidence))

    def replay(self, problem: Text, evidence: Text) -> Check:
        """Prints the string of evidence, state by state."""
        return self._call("replay", Check, bytes_of("replay", "problem", problem), bytes_of("replay", "evidence", evidence))

    def explain(self, problem: Text, evidence: Text) -> Check:
        """Explains evidence in the words of the problem file."""
        return self._call("explain", Check, bytes_of("explain", "problem", problem), bytes_of("explain", "evidence", evidence))

    def try_(self, problem: Text, turns: int) -> Trial:
        """Looks for a store from which the goal is false, with runs of at most this many loop bodies."""
        return self._call("try", Trial, bytes_of("try_", "problem", problem), number_of("try_", "turns", turns))

    def try_with(self, problem: Text, turns: int, evidence: Text) -> Trial:
        """The same, but the stores that follow the string of evidence are tried first."""
        given = bytes_of("try_with", "problem", problem), number_of("try_with", "turns", turns)
        return self._call("try_with", Trial, *given, bytes_of("try_with", "evidence", evidence))

    def chain(self, problem: Text, proof: Text) -> Check:
        """Checks a proof that turns one side of the goal into the other by axioms."""
        return self._call("chain", Check, bytes_of("chain", "problem", problem), bytes_of("chain", "proof", proof))

    def outline(self, problem: Text) -> Decision:
        """Proves a triple of a program: its output is notes if the triple holds, and a string otherwise."""
        return self._call("outline", Decision, bytes_of("outline", "problem", problem))

    def outline_check(self, problem: Text, notes: Text) -> Check:
        """Checks notes in the program of a triple, whoever wrote them."""
        given = bytes_of("outline_check", "problem", problem), bytes_of("outline_check", "notes", notes)
        return self._call("outline_check", Check, *given)

    def show(self, problem: Text) -> Result:
        """Prints the problem of tests and actions that is decided for a problem file."""
        return self._call("show", Result, bytes_of("show", "problem", problem))

    def gkat(self, programs: Text) -> Result:
        """Translates a text of guarded programs into a problem file."""
        return self._call("gkat", Result, bytes_of("gkat", "programs", programs))

    def flow(self, graphs: Text) -> Result:
        """Prints the question whether two flow graphs always return the same as a problem file."""
        return self._call("flow", Result, bytes_of("flow", "graphs", graphs))

    def run(self, problem: Text, program: Text, store: Text, turns: int) -> Run:
        """Runs a program of a problem file from a store, as "a=12,b=18", for at most this many loop bodies."""
        words = bytes_of("run", "program", program), bytes_of("run", "store", store)
        return self._call("run", Run, bytes_of("run", "problem", problem), *words, number_of("run", "turns", turns))

    def oneloop(self, problem: Text, program: Text) -> Result:
        """Prints an equivalent program with a single loop."""
        return self._call("oneloop", Result, bytes_of("oneloop", "problem", problem), bytes_of("oneloop", "program", program))

    def optimise(self, problem: Text, program: Text, steps: int = 1000) -> Result:
        """Rewrites a program by at most this many steps that the prover finds correct: the steps, and the program."""
        given = bytes_of("optimise", "problem", problem), bytes_of("optimise", "program", program)
        return self._call("optimise", Result, *given, number_of("optimise", "steps", steps))
