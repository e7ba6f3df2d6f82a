# SPDX-License-Identifier: MIT OR Apache-2.0
"""The calls as commands, to try the library:

    python3 -m kat decide FILE
    python3 -m kat run FILE PROG STORE TURNS

prints what the call gives, and ends with its status. A call is named as in kat.h: decide, decide_json, try_with and so on. 4: a
file could not be read. 6: out of memory. 7: no such call, or its words do not fit. 70: there is no library.
"""

import sys
from pathlib import Path
from typing import List, Optional

from . import Library, LibraryNotFound, NoSuch, Refused
from ._library import CALLS, FILE, NUMBER
from ._results import Result

NO_FILE, NO_MEMORY, NO_SUCH, NO_LIBRARY = 4, 6, 7, 70
# Methods whose name is not that of the call.
METHODS = {"try": "try_"}


def fault(why: object, status: int) -> int:
    print(f"kat: {why}", file=sys.stderr)
    return status


def arguments(name: str, words: List[str]) -> Optional[List[object]]:
    """What the call gets for the words of the command line, or nothing where they do not fit."""
    kinds = CALLS.get(name, ())
    if not kinds or len(words) != len(kinds):
        return None
    given: List[object] = []
    for kind, word in zip(kinds, words):
        if kind == NUMBER and not (word.isascii() and word.isdigit()):
            return None
        given.append(Path(word).read_bytes() if kind == FILE else int(word) if kind == NUMBER else word)
    return given


def answer(name: str, given: List[object]) -> int:
    """Calls, prints the output, and gives the status."""
    try:
        result: Result = getattr(Library(), METHODS.get(name, name))(*given)
        status, output = int(result.status), result.output
    except (Refused, NoSuch) as why:
        status, output = (2 if isinstance(why, Refused) else NO_SUCH), why.output
    sys.stdout.buffer.write(output)
    return status


def main(words: List[str]) -> int:
    name = words[0] if words else ""
    try:
        given = arguments(name, words[1:])
        return fault(__doc__, NO_SUCH) if given is None else answer(name, given)
    except LibraryNotFound as why:
        return fault(why, NO_LIBRARY)
    except MemoryError:
        return NO_MEMORY
    except OverflowError as why:
        return fault(why, NO_SUCH)
    except OSError as why:
        return fault(why, NO_FILE)


if __name__ == "__main__":
    sys.exit(main(sys.argv[1:]))
