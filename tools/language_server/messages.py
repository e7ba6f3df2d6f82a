"""Messages of the language server protocol: JSON-RPC 2.0, each with a header that has its length."""

from __future__ import annotations

import json
from typing import Any, BinaryIO

Message = dict[str, Any]
PARSE_ERROR, INVALID_REQUEST, METHOD_NOT_FOUND, INVALID_PARAMS, NOT_INITIALIZED = -32700, -32600, -32601, -32602, -32002
# A text that kat reads has at most 1 MiB, of which JSON makes at most six times as much.
MOST_BYTES = 16 << 20
LONGEST_LINE = 4096


class NotAMessage(Exception):
    """What was read is no message; the stream continues after it."""


class Broken(Exception):
    """The stream has no header where one must be, so nothing after it can be read."""


def length_of_next(stream: BinaryIO) -> int | None:
    """Reads a header, and returns the length of its message, or None at the end of the stream."""
    length = None
    while (line := stream.readline(LONGEST_LINE)) not in (b"\r\n", b"\n"):
        if not line:
            return None
        name, _, value = line.partition(b":")
        if name.strip().lower() == b"content-length" and value.strip().isdigit():
            length = int(value)
    if length is None or length > MOST_BYTES:
        raise Broken("a header has no length, or one that is too large")
    return length


def read(stream: BinaryIO) -> Message | None:
    """Reads the next message, or returns None at the end of the stream."""
    length = length_of_next(stream)
    body = b"" if length is None else stream.read(length)
    if length is None or len(body) < length:
        return None
    try:
        message = json.loads(body)
    except ValueError as why:
        raise NotAMessage(str(why)) from why
    if not isinstance(message, dict):
        raise NotAMessage("a message is an object")
    return message


def packed(message: Message) -> bytes:
    """A message with its header."""
    body = json.dumps({"jsonrpc": "2.0", **message}).encode()
    return b"Content-Length: %d\r\n\r\n%b" % (len(body), body)
