# SPDX-License-Identifier: MIT OR Apache-2.0
"""Reads the functions of Rattle sources with their contracts, for clauses.py and house.py.

It is no parser of Rattle: it splits a text into tokens and follows its braces, which is enough for files that `rt` accepts.
"""

import io
import re
import subprocess
import tarfile
from dataclasses import dataclass, field
from pathlib import Path, PurePosixPath
from typing import Optional

TOP = Path(__file__).resolve().parent.parent
TOKEN = re.compile(
    r"""(?P<comment>//[^\n]*|/\*.*?\*/)
      | (?P<text>b?"(?:\\.|[^"\\])*" | b?'(?:\\(?:x[0-9a-fA-F]{2}|u\{[0-9a-fA-F]+\}|.)|[^\\'])')
      | (?P<word>'?[^\W\d]\w*'* | \d\w*)
      | (?P<sign>::|->|=>|\S)""",
    re.VERBOSE | re.DOTALL,
)
GHOST_USE = re.compile(r"ghost use ([\w.]+?)(?:\.\{([^}]*)\}| as (\w+))\s*;")
CLAUSES = ("requires", "ensures")


@dataclass(frozen=True)
class Token:
    """A token, with its place in the text."""

    text: str
    start: int


@dataclass
class Function:
    """A function: whose it is, its signature, its clauses by their heads, and the lines of its body."""

    owner: str
    name: str
    is_public: bool
    line: int
    signature: list[str]
    # The head is the keyword and the name of the clause, if it has one.
    clauses: list[tuple[str, list[str]]] = field(default_factory=list)
    body_lines: int = 0


def tokens_of(text: str) -> list[Token]:
    """The tokens of a text without its comments."""
    return [Token(it[0], it.start()) for it in TOKEN.finditer(text) if it.lastgroup != "comment"]


def closing(tokens: list[Token], at: int) -> int:
    """The index of the token that closes the brace at an index."""
    depth = 0
    for place in range(at, len(tokens)):
        depth += {"{": 1, "}": -1}.get(tokens[place].text, 0)
        if depth == 0:
            return place
    raise ValueError("a brace is not closed")


def imports_of(text: str) -> dict[str, str]:
    """The full path of each name that the file's `ghost use` lines import, without signs of operators."""
    found = {}
    for module, items, alias in GHOST_USE.findall(text):
        if alias:
            found[alias] = module
        for item in items.split(","):
            name, _, other = (it.strip() for it in item.partition(" as "))
            if name and "◌" not in name:
                found[other or name] = f"{module}.{name}"
    return found


class Reader:
    """Reads the functions of a file."""

    def __init__(self, text: str) -> None:
        self.text, self.tokens = text, tokens_of(text)
        self.found: list[Function] = []
        self.read(0, len(self.tokens), "", False)

    def read(self, at: int, end: int, owner: str, all_public: bool) -> None:
        """Reads the items between two indices, which belong to a type, a trait or a module."""
        while at < end:
            word = self.tokens[at].text
            if word == "fn":
                at = self.function(at, owner, all_public)
            elif word in ("impl", "trait", "mod"):
                at = self.block(at, end, owner)
            elif word == "{":
                at = closing(self.tokens, at)
            at += 1

    def block(self, at: int, end: int, owner: str) -> int:
        """Reads an impl, a trait or a module, and gives the index of its last token."""
        last = next((it for it in range(at, end) if self.tokens[it].text in ("{", ";")), end - 1)
        if self.tokens[last].text != "{":
            return last
        head = [it.text for it in self.tokens[at + 1 : last]]
        word = self.tokens[at].text
        close = closing(self.tokens, last)
        inner = owner if word == "mod" else " ".join(without_generics(head))
        self.read(last + 1, close, inner, word == "trait" and self.is_public(at))
        return close

    def is_public(self, at: int) -> bool:
        """Whether `pub` without a restriction precedes the item at an index."""
        before = at - 1
        while before >= 0 and (self.tokens[before].text in ("unsafe", "extern", "const") or self.tokens[before].text[0] == '"'):
            before -= 1
        return before >= 0 and self.tokens[before].text == "pub"

    def function(self, at: int, owner: str, all_public: bool) -> int:
        """Reads a function, and gives the index of its last token."""
        line = self.text.count("\n", 0, self.tokens[at].start) + 1
        made = Function(owner, self.tokens[at + 1].text, all_public or self.is_public(at), line, [])
        # In brackets a semicolon precedes the length of an array.
        depth = 0
        while depth > 0 or self.tokens[at].text not in (*CLAUSES, "{", ";"):
            made.signature.append(self.tokens[at].text)
            depth += {"(": 1, "[": 1, ")": -1, "]": -1}.get(self.tokens[at].text, 0)
            at += 1
        while self.tokens[at].text in CLAUSES:
            opened = next(it for it in range(at, len(self.tokens)) if self.tokens[it].text == "{")
            close = closing(self.tokens, opened)
            head = " ".join(it.text for it in self.tokens[at:opened])
            made.clauses.append((head, [it.text for it in self.tokens[opened + 1 : close]]))
            at = close + 1
        if self.tokens[at].text == "{":
            close = closing(self.tokens, at)
            made.body_lines = max(0, self.text.count("\n", self.tokens[at].start, self.tokens[close].start) - 1)
            at = close
        self.found.append(made)
        return at


def without_generics(head: list[str]) -> list[str]:
    """The words of the head of an impl or a trait without what is in angle brackets, and without bounds."""
    kept, depth = [], 0
    for word in head:
        depth += {"<": 1, ">": -1}.get(word, 0)
        if depth == 0 and word in (":", "where"):
            break
        if depth == 0 and word not in ("<", ">"):
            kept.append(word)
    return kept


def functions_of(text: str) -> list[Function]:
    """The functions of a source in their order."""
    return Reader(text).found


def sources(revision: Optional[str] = None) -> dict[PurePosixPath, str]:
    """The texts below crates/ of src/, specs/ and proofs/, by their paths from there: those here, or those of a commit."""
    found = {}
    if revision is None:
        for path in sorted(it for part in ("src", "specs", "proofs") for it in TOP.glob(f"crates/*/{part}/**/*")):
            if path.suffix in (".rt", ".antt"):
                found[PurePosixPath(path.relative_to(TOP / "crates").as_posix())] = path.read_text()
        return found
    packed = subprocess.run(["git", "archive", revision, "crates"], cwd=TOP, stdout=subprocess.PIPE, check=True).stdout
    with tarfile.open(fileobj=io.BytesIO(packed)) as archive:
        for member in archive:
            name = PurePosixPath(member.name)
            content = archive.extractfile(member) if member.isfile() and name.suffix in (".rt", ".antt") else None
            if content and name.parts[2] in ("src", "specs", "proofs"):
                found[name.relative_to("crates")] = content.read().decode()
    return found
