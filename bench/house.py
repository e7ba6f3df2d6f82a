#!/usr/bin/env python3
# SPDX-License-Identifier: MIT OR Apache-2.0
"""Measures the style of the sources: what is long, written twice or named by habit.

    python3 bench/house.py [REVISION] [--list]

It prints, for the sources here or those of a commit:
- the lines of src/, specs/ and proofs/ of each room of crates.txt, and the lines of clauses over 100 columns;
- lemmas whose statements, made alike in bound names, occur in the proofs/ of two or more crates, apart by whether one of
  their proofs has more than one line;
- identifiers with a word of the table of habits in CONTRIBUTING.md, with their uses;
- functions whose bodies have over 40 lines, and files with over 800.
With --list the lemmas, identifiers, functions and files are listed.
"""

import argparse
import re
import subprocess
import sys
from collections import Counter, defaultdict
from dataclasses import dataclass
from pathlib import Path, PurePosixPath
from typing import Iterator, Optional

import rattle

sys.path.insert(0, str(Path(__file__).resolve().parent.parent / "docs"))
import crates

Texts = dict[PurePosixPath, str]
PARTS = ("src", "specs", "proofs")
COLUMNS, BODY_LINES, FILE_LINES = 100, 40, 800
HABITS = frozenset("ask asked asks asking say said says stand stands stood stop stopped stops tell tells told wanted wants".split())
# Files of proofs that are not lemmas: answers to goals of functions, and invariants of loops.
NO_LEMMAS = ("Answers", "Invariants")
# A statement that is not in the scope of parameters, which would be part of it.
STATEMENT = re.compile(r"(?:pub )?(?P<name>[^\s:(){}\[\]]+) : (?P<type>.+)")
NO_NAMES = ("--", "use", "let", "in", "data", "record", "abbrev", "opaque", "module", "goal")
BOUND = re.compile(r"[({]([^(){}:]+) :|λ ([^.]+)\.")
WORD = re.compile(r"[^\W\d][\w'-]*")
# A word of an identifier such as `asked_by` or `AsksFor`.
PART = re.compile(r"[A-Z]?[a-z]+|[A-Z]+(?![a-z])")


def lines_of(text: str) -> int:
    return text.count("\n")


def clause_lines(text: str) -> set[int]:
    """The numbers of the lines of a source that belong to clauses, from 0."""
    tokens, found, at = rattle.tokens_of(text), set(), 0
    while at < len(tokens):
        if tokens[at].text in rattle.CLAUSES:
            opened = next(it for it in range(at, len(tokens)) if tokens[it].text == "{")
            close = rattle.closing(tokens, opened)
            found |= {text.count("\n", 0, tokens[it].start) for it in range(at, close + 1)}
            at = close
        at += 1
    return found


def long_clauses(text: str) -> int:
    """How many lines of clauses have over 100 columns."""
    lines = text.split("\n")
    return sum(len(lines[it]) > COLUMNS for it in clause_lines(text))


def room_rows(texts: Texts, room_of: dict[str, str]) -> dict[str, Counter[str]]:
    """The lines of each part of each room, and its long lines of clauses."""
    rows: dict[str, Counter[str]] = {room: Counter() for room in dict.fromkeys(room_of.values())}
    for path, text in texts.items():
        row = rows.setdefault(room_of.get(path.parts[0], "no room"), Counter())
        row[path.parts[1]] += lines_of(text)
        row["long"] += long_clauses(text) if path.parts[1] == "src" else 0
    return rows


@dataclass(frozen=True)
class Lemma:
    """A statement of a file of proofs/, and how many lines its proof has."""

    path: PurePosixPath
    line: int
    name: str
    statement: str
    proof_lines: int


def alike(statement: str) -> str:
    """A statement with its bound names numbered in their order, and without layout."""
    names: dict[str, str] = {}
    for listed, single in BOUND.findall(statement):
        for name in (listed or single).split():
            names.setdefault(name.strip("()"), f"v{len(names)}")
    words = re.findall(r"[\w'-]+|[^\w\s]", statement)
    return " ".join(names.get(word, word) for word in words)


def lemmas_of(path: PurePosixPath, text: str) -> Iterator[Lemma]:
    """The statements of a file. A statement ends where its name begins a line again."""
    lines = text.split("\n")
    for at, line in enumerate(lines):
        found = STATEMENT.fullmatch(line)
        if not found or found["name"].startswith(NO_NAMES[0]) or line.split()[0] in NO_NAMES:
            continue
        proof = next((it for it in range(at + 1, len(lines)) if lines[it].split(" ")[0] == found["name"]), None)
        if proof is not None and all(it.strip() for it in lines[at:proof]):
            end = next((it for it in range(proof, len(lines)) if not lines[it].strip() or lines[it].lstrip().startswith("--")), len(lines))
            statement = " ".join([found["type"], *(it.strip() for it in lines[at + 1 : proof])])
            if re.search("[→≡]", statement):
                yield Lemma(path, at + 1, found["name"], alike(statement), end - proof)


def twins(texts: Texts) -> list[list[Lemma]]:
    """Lemmas with one statement in two or more crates."""
    same = defaultdict(list)
    for path, text in texts.items():
        if path.parts[1] == "proofs" and path.stem not in NO_LEMMAS:
            for lemma in lemmas_of(path, text):
                same[lemma.statement].append(lemma)
    return [found for _, found in sorted(same.items()) if len({it.path.parts[0] for it in found}) > 1]


def is_short(found: list[Lemma]) -> bool:
    """Whether all proofs of a statement have one line."""
    return all(it.proof_lines == 1 for it in found)


def without_comments(path: PurePosixPath, text: str) -> str:
    return re.sub(r"(?m)(?://|--).*$" if path.suffix == ".rt" else r"(?m)--.*$", " ", text)


def has_habit(name: str) -> bool:
    return not HABITS.isdisjoint(it.lower() for it in PART.findall(name))


def habits(texts: Texts, parts: tuple[str, ...]) -> Counter[str]:
    """The identifiers of habit of some parts of the crates, with their uses."""
    uses: Counter[str] = Counter()
    for path, text in texts.items():
        if path.parts[1] in parts:
            uses.update(filter(has_habit, WORD.findall(without_comments(path, text))))
    return uses


def long_bodies(texts: Texts) -> list[tuple[int, str]]:
    """The functions whose bodies have over 40 lines."""
    found = [(it.body_lines, f"{path}:{it.line} {it.name}") for path, text in texts.items() if path.parts[1] == "src"
             for it in rattle.functions_of(text) if it.body_lines > BODY_LINES]
    return sorted(found, reverse=True)


def long_files(texts: Texts) -> list[tuple[int, str]]:
    """The files with over 800 lines."""
    return sorted(((lines_of(text), str(path)) for path, text in texts.items() if lines_of(text) > FILE_LINES), reverse=True)


def room_table(rows: dict[str, Counter[str]]) -> list[str]:
    columns = (*PARTS, "long")
    total: Counter[str] = sum(rows.values(), Counter())
    lines = [f"| room | src | specs | proofs | clauses over {COLUMNS} columns |", "|---|---|---|---|---|"]
    return lines + [f"| {room} | {' | '.join(f'{row[it]:,}' for it in columns)} |" for room, row in [*rows.items(), ("all", total)]]


def report(texts: Texts, room_of: dict[str, str], with_lists: bool = False) -> list[str]:
    """The lines that the script prints."""
    same = twins(texts)
    named, proved = habits(texts, ("src", "specs")), habits(texts, PARTS)
    bodies, files = long_bodies(texts), long_files(texts)
    lines = room_table(room_rows(texts, room_of)) + [
        "",
        f"Lemmas in two or more crates: {len(same)}, {sum(map(is_short, same))} of them with proofs of one line.",
        f"Identifiers of habit: {len(named):,} in src and specs, with {named.total():,} uses; {len(proved):,} with those of proofs, {proved.total():,} uses.",
        f"Bodies over {BODY_LINES} lines: {len(bodies)}. Files over {FILE_LINES} lines: {len(files)}.",
    ]
    if with_lists:
        for found in sorted(same, key=is_short):
            lines += ["", found[0].statement[:200], *(f"  {it.path}:{it.line} {it.name}, {it.proof_lines}" for it in found)]
        lines += ["", *(f"{count:5} {name}" for name, count in named.most_common())]
        lines += ["", *(f"{count:5} {what}" for count, what in bodies + files)]
    return lines


def crates_at(revision: Optional[str]) -> list[crates.Crate]:
    if revision is None:
        return crates.read()
    words = ["git", "show", f"{revision}:crates.txt"]
    return crates.parse(subprocess.run(words, cwd=rattle.TOP, stdout=subprocess.PIPE, text=True, check=True).stdout)


def main() -> int:
    reader = argparse.ArgumentParser(description="Measures the style of the sources.")
    reader.add_argument("revision", nargs="?")
    reader.add_argument("--list", action="store_true")
    words = reader.parse_args()
    room_of = {it.name: it.room for it in crates_at(words.revision)}
    print("\n".join(report(rattle.sources(words.revision), room_of, words.list)))
    return 0


if __name__ == "__main__":
    sys.exit(main())
