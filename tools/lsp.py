#!/usr/bin/env python3
"""A language server for problem files (.kat), flow graphs (.flow) and guarded programs (.gkat), over standard input and output.

    tools/lsp.py [--kat PROGRAM] [--seconds N]

An editor starts it. It reports faults of a text at their places, writes `equal` or `different` at each goal, says what a name
is and where it is declared. The prover is the program that the script `kat` of this checkout runs, or a program of that name
on the PATH, or PROGRAM. A goal that is not decided within N seconds (10) is reported as such; while you type, only the newest
text is decided. The status is 0 if the editor shut the server down.
"""

from __future__ import annotations

import argparse
import asyncio
import sys
import threading
from pathlib import Path
from typing import Callable

from language_server import messages
from language_server.server import Server

TOP = Path(__file__).resolve().parent.parent


def send(message: messages.Message) -> None:
    sys.stdout.buffer.write(messages.packed(message))
    sys.stdout.buffer.flush()


def receive_all(loop: asyncio.AbstractEventLoop, put: Callable[[object], None]) -> None:
    """Reads messages until the stream ends or one says `exit`, and puts each, or why it is none. The last one is None."""
    is_last = False
    while not is_last:
        message: object
        try:
            message = messages.read(sys.stdin.buffer)
            is_last = message is None or message.get("method") == "exit"
        except messages.NotAMessage as why:
            message = why
        except messages.Broken as why:
            message, is_last = why, True
        loop.call_soon_threadsafe(put, message)
    loop.call_soon_threadsafe(put, None)


async def serve(kat: str, seconds: float) -> int:
    """Serves until the editor says `exit`, or its stream ends."""
    queue: asyncio.Queue[object] = asyncio.Queue()
    server = Server(kat, seconds, send)
    # A thread reads, so that any kind of standard input will do.
    threading.Thread(target=receive_all, args=(asyncio.get_running_loop(), queue.put_nowait), daemon=True).start()
    while (message := await queue.get()) is not None:
        if isinstance(message, Exception):
            send({"id": None, "error": {"code": messages.PARSE_ERROR, "message": str(message)}})
        elif not server.receive(message):
            break
    return 0 if server.is_shut_down else 1


def main() -> int:
    parser = argparse.ArgumentParser(description=__doc__, formatter_class=argparse.RawDescriptionHelpFormatter)
    own = TOP / "kat"
    parser.add_argument("--kat", default=str(own) if own.is_file() else "kat", help="the program, or the script kat")
    parser.add_argument("--seconds", type=float, default=10, help="how long a goal is decided at most")
    parser.add_argument("--stdio", action="store_true", help="what some editors add; there is no other way")
    words = parser.parse_args()
    return asyncio.run(serve(words.kat, words.seconds))


if __name__ == "__main__":
    sys.exit(main())
