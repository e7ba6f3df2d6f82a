#!/usr/bin/env python3
# SPDX-License-Identifier: MIT OR Apache-2.0
"""Compares every public clause of the sources here with those of an older commit, up to renaming.

    python3 bench/clauses.py REVISION [--names FILE] [--loose] [--moved]

For each public function, method and method of a public trait it compares the signature and the clauses, token by token.
A name that a `ghost use` line imports is compared by its full path; with --loose only by its last part, so that a
definition may move between modules. FILE has renamings, one a line, as `OLD NEW`: a name, a full path of a definition
(`Rattle.a.specs.B.c`) or of a module, or `CRATE::OLD NEW` for a name in one crate only. What follows a `#` is a comment.

A function that has the same owner, name, signature and clauses in another crate has moved: --moved lists these too. The
script prints functions that are gone, new or different, and a line of counts. It ends with 0 if there are none.
"""

import argparse
import collections
import sys
from dataclasses import dataclass
from pathlib import Path, PurePosixPath
from typing import Callable

import rattle

Clause = tuple[str, tuple[str, ...]]


@dataclass(frozen=True)
class Public:
    """A public function: its crate, the type or trait that it belongs to, its name, its place, and what it promises."""

    crate: str
    owner: str
    name: str
    place: str
    promises: tuple[Clause, ...]

    def title(self) -> str:
        return "::".join(filter(None, (self.crate, self.owner, self.name)))


class Names:
    """Renamings, and how imported names are compared."""

    def __init__(self, text: str = "", is_loose: bool = False) -> None:
        rows = [line.partition("#")[0].split() for line in text.splitlines()]
        wrong = [row for row in rows if len(row) not in (0, 2)]
        if wrong:
            raise ValueError(f"a renaming has two words, and not {' '.join(wrong[0])!r}")
        self.new: dict[str, str] = {row[0]: row[1] for row in rows if row}
        self.is_loose = is_loose

    def word(self, crate: str, word: str) -> str:
        return self.new.get(f"{crate}::{word}", self.new.get(word, word))

    def words(self, crate: str, words: str) -> str:
        return " ".join(self.word(crate, it) for it in words.split())

    def path(self, crate: str, path: str) -> str:
        """A path: the longest part of it that is renamed as a whole, and its other words one by one."""
        words = path.split(".")
        for end in range(len(words), 1, -1):
            known = self.new.get(".".join(words[:end]))
            if known:
                return ".".join([known, *(self.word(crate, it) for it in words[end:])])
        return ".".join(self.word(crate, it) for it in words)

    def tokens(self, crate: str, tokens: list[str], imported: dict[str, str]) -> tuple[str, ...]:
        """The tokens with imported names as full paths, renamed. A path takes the names after it, as in `module.name`."""
        found: list[str] = []
        at = 0
        while at < len(tokens):
            path, is_field = imported.get(tokens[at]), at > 0 and tokens[at - 1] == "."
            if path and not is_field:
                while at + 2 < len(tokens) and tokens[at + 1] == "." and "." in path:
                    path, at = f"{path}.{tokens[at + 2]}", at + 2
                path = self.path(crate, path)
                found.append(path.rpartition(".")[2] if self.is_loose else path)
            elif not (tokens[at] == "," and tokens[at + 1 : at + 2] in ([")"], ["]"], ["}"])):
                found.append(self.word(crate, tokens[at]))
            at += 1
        return tuple(found)


def publics(texts: dict[PurePosixPath, str], names: Names) -> list[Public]:
    """The public functions of sources, renamed."""
    found = []
    for path, text in texts.items():
        if path.parts[1] != "src":
            continue
        crate, imported = path.parts[0], rattle.imports_of(text)
        for it in rattle.functions_of(text):
            if it.is_public:
                rows: list[tuple[str, list[str], dict[str, str]]] = [("signature", it.signature, {}), *((head, clause, imported) for head, clause in it.clauses)]
                promises = tuple((names.words(crate, head), names.tokens(crate, row, known)) for head, row, known in rows)
                owner, name = names.words(crate, it.owner), names.word(crate, it.name)
                found.append(Public(names.word(crate, crate), owner, name, f"{path}:{it.line}", promises))
    return found


@dataclass
class Outcome:
    """What the comparison found."""

    same: int
    moved: list[tuple[Public, Public]]
    changed: list[tuple[Public, Public]]
    gone: list[Public]
    new: list[Public]

    def differs(self) -> bool:
        return bool(self.changed or self.gone or self.new)


def pairs_by(old: list[Public], new: list[Public], key: Callable[[Public], object]) -> list[tuple[Public, Public]]:
    """Pairs with one key; both are taken out of the lists. Of several with one key the earlier ones are paired."""
    waiting: dict[object, list[Public]] = collections.defaultdict(list)
    for it in new:
        waiting[key(it)].append(it)
    found = [(it, waiting[key(it)].pop(0)) for it in old if waiting[key(it)]]
    taken = {id(it) for pair in found for it in pair}
    old[:] = [it for it in old if id(it) not in taken]
    new[:] = [it for it in new if id(it) not in taken]
    return found


def compare(old: list[Public], new: list[Public]) -> Outcome:
    """Pairs the functions of both lists: first those that are equal in their crate, then those that are equal in another,
    then those of one title, then those of one owner and name."""
    old, new = list(old), list(new)
    same = pairs_by(old, new, lambda it: (it.title(), frozenset(it.promises)))
    moved = pairs_by(old, new, lambda it: (it.owner, it.name, frozenset(it.promises)))
    changed = pairs_by(old, new, Public.title)
    changed += pairs_by(old, new, lambda it: (it.owner, it.name))
    return Outcome(len(same), moved, changed, old, new)


def report(outcome: Outcome, with_moved: bool = False) -> str:
    """The lines that the script prints."""
    lines = [f"moved {a.title()} ({a.place}) to {b.title()} ({b.place})" for a, b in outcome.moved if with_moved]
    lines += [f"gone {it.title()} ({it.place})" for it in outcome.gone]
    lines += [f"new {it.title()} ({it.place})" for it in outcome.new]
    for a, b in outcome.changed:
        lines.append(f"differs {a.title()} ({a.place}) and {b.title()} ({b.place})")
        lines += [f"  {sign} {head} {{ {' '.join(clause)} }}" for sign, one, other in (("-", a, b), ("+", b, a))
                  for head, clause in one.promises if (head, clause) not in other.promises]
    count = outcome.same + len(outcome.moved) + len(outcome.changed)
    return "\n".join([*lines, f"{count + len(outcome.gone)} public functions then, {count + len(outcome.new)} now: {outcome.same} the same, "
                      f"{len(outcome.moved)} moved, {len(outcome.changed)} differ, {len(outcome.gone)} gone, {len(outcome.new)} new"])


def main() -> int:
    reader = argparse.ArgumentParser(description="Compares the public clauses with those of an older commit, up to renaming.")
    reader.add_argument("revision")
    reader.add_argument("--names", type=Path)
    reader.add_argument("--loose", action="store_true")
    reader.add_argument("--moved", action="store_true")
    words = reader.parse_args()
    names = Names(words.names.read_text() if words.names else "", words.loose)
    old = publics(rattle.sources(words.revision), names)
    outcome = compare(old, publics(rattle.sources(), Names("", words.loose)))
    clauses = sum(len(it.promises) - 1 for it in old)
    print(report(outcome, words.moved))
    print(f"{clauses} public clauses then")
    return int(outcome.differs())


if __name__ == "__main__":
    sys.exit(main())
