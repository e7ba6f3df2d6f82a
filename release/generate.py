#!/usr/bin/env python3
# SPDX-License-Identifier: MIT OR Apache-2.0
"""Writes the files that follow from the table of commands, release/commands.json, and from the first version of CHANGELOG.md.

    release/generate.py             writes the files that are not current
    release/generate.py --check     writes nothing; the status is 1 where a file is not current

From the table it writes what `kat --help` prints, kat(1) and the completions, each from its template in release/templates.
The version it puts into the lines of the library, of include/kat.h and of the packages that name it. It also checks that
docs/commands.md has the commands of the table, and that manual pages and help refer to pages that an installation has.
"""

import json
import re
import sys
from dataclasses import dataclass
from email.utils import formatdate
from pathlib import Path
from typing import Callable, Dict, Iterator, List, Tuple

TOP = Path(__file__).resolve().parent.parent
DOCS = "/usr/share/doc/kat/"
# The form of a whole version.
WHOLE = "{major}.{minor}.{patch}"
# The lines of each file that name the version: an expression, whose group is what is written there, and the form of that.
VERSION_LINES = {
    "crates/kat_c/src/version.rt": [
        (r"^    ensures \{ result ≡ version_number (.*) \}$", "{major} {minor} {patch}"),
        (r"^const MAJOR: u32 = (.*);$", "{major}"), (r"^const MINOR: u32 = (.*);$", "{minor}"),
        (r"^const PATCH: u32 = (.*);$", "{patch}")],
    "include/kat.h": [
        (r'^#define KAT_VERSION "(.*)"$', WHOLE), (r"^#define KAT_VERSION_MAJOR (.*)$", "{major}"),
        (r"^#define KAT_VERSION_MINOR (.*)$", "{minor}"), (r"^#define KAT_VERSION_PATCH (.*)$", "{patch}")],
    "release/kat.5": [(r'^\.TH KAT 5 "" "kat (.*)" "File Formats"$', WHOLE)],
    "release/kat.pc": [(r"^Version: (.*)$", WHOLE)],
    "release/cmake/katConfigVersion.cmake": [(r'^set\(PACKAGE_VERSION "(.*)"\)$', WHOLE)],
    "python/kat/_version.py": [(r'^VERSION = "(.*)"$', WHOLE)],
    "rust/Cargo.toml": [(r'^version = "(.*)"$', WHOLE)],
    "CITATION.cff": [(r"^version: (.*)$", WHOLE)],
}
# What prints the names after `prog` in the text of a problem file, without its comments, one in a line: in all three shells.
PROGRAMS = r"""sed 's/#.*//' | tr '\n\t' '  ' | grep -oE '(^|[^A-Za-z0-9_])prog +[^ {}();,]+' | sed 's/.* //'"""
DEBIAN = """kat ({version}-1) unstable; urgency=medium

  * The changes are in CHANGELOG.md.

 -- {maintainer}  {date}
"""


@dataclass(frozen=True)
class Command:
    """A command: its words as `try FILE TURNS [EVIDENCE]`, the suffix of its FILE, its line of the help and of kat(1)."""

    words: str
    reads: str
    help: str
    manual: str

    @property
    def name(self) -> str:
        return self.words.split()[0]

    def forms(self) -> List[str]:
        """The words without what is in brackets, and those with it."""
        without = re.sub(r" \[[^]]*\]", "", self.words)
        return list(dict.fromkeys([without, re.sub(r"[][]", "", self.words)]))

    def kinds(self) -> Iterator[Tuple[int, str]]:
        """The places after the command at which a completion is offered, and what it is."""
        for place, word in enumerate(re.sub(r"[][]", "", self.words).split()[1:], 1):
            kind = word if word.startswith("--") else self.kind_of(word)
            if kind:
                yield place, kind

    def kind_of(self, word: str) -> str:
        if word == "FILE":
            return self.reads
        return {"EVIDENCE": "file", "NOTES": "file", "PROOF": "file", "PROG": "program"}.get(word, "")


def roff(text: str) -> str:
    """The text with the hyphens of options and the backslashes of the page written for roff."""
    return text.replace("\\", "\\e").replace("--", "\\-\\-")


def roff_words(words: str, before: str = "") -> str:
    """The words of a command in the fonts of a synopsis: literal words bold, arguments in italics."""
    parts = []
    for word in words.split():
        bare = word.strip("[]")
        font = "I" if bare.isupper() else "B"
        parts.append(roff(word).replace(roff(bare), f"\\f{font}{roff(bare)}\\fP"))
    return (f"\\fB{before}\\fP " if before else "") + " ".join(parts)


def manual_entry(words: str, text: str) -> str:
    """The entry of a command in kat(1). What is between backquotes is bold, and arguments are in italics."""
    parts = []
    for index, part in enumerate(text.split("`")):
        bold = index % 2 == 1
        parts.append(f"\\fB{roff(part)}\\fP" if bold else re.sub(r"\b(TURNS|N)\b", r"\\fI\1\\fP", roff(part)))
    return f".TP\n{roff_words(words)}\n{''.join(parts)}"


def joined(lines: Iterator[str]) -> str:
    return "\n".join(lines)


def single_quoted(text: str) -> str:
    """A word for bash, zsh and fish. The table has none of the characters that they read differently."""
    if "'" in text or "\\" in text:
        raise ValueError(f"release/commands.json: {text!r} has a quotation mark or a backslash")
    return f"'{text}'"


class Table:
    def __init__(self, table: Dict[str, List[Dict[str, str]]]) -> None:
        self.commands = [Command(it["words"], it.get("reads", ""), it["help"], it["manual"]) for it in table["commands"]]
        self.script = [(it["words"], it["manual"]) for it in table["script"]]

    def help(self) -> Dict[str, str]:
        return {"COMMANDS": joined(f"  {it.words:<31} {it.help}" for it in self.commands)}

    def manual(self) -> Dict[str, str]:
        synopsis = [roff_words(it.words, "kat") for it in self.commands]
        synopsis.append("\\fBkat\\fP " + " | ".join(f"\\fB{roff(words)}\\fP" for words, _ in self.script))
        entries = [manual_entry(it.words, it.manual) for it in self.commands]
        entries += [manual_entry(words, text) for words, text in self.script]
        return {"SYNOPSIS": "\n.br\n".join(synopsis), "COMMANDS": "\n".join(entries)}

    def kinds(self) -> Dict[str, List[str]]:
        """The places COMMAND:PLACE of each kind."""
        found: Dict[str, List[str]] = {}
        for command in self.commands:
            for place, kind in command.kinds():
                found.setdefault(kind, []).append(f"{command.name}:{place}")
        return found

    def names(self) -> str:
        return " ".join(it.name for it in self.commands)

    def bash(self) -> Dict[str, str]:
        cases = (f"    {' | '.join(places)}) echo {kind} ;;" for kind, places in self.kinds().items())
        return {"KINDS": joined(cases), "PROGRAMS": PROGRAMS, "NAMES": self.names(), "SCRIPT": " ".join(words for words, _ in self.script)}

    def zsh(self) -> Dict[str, str]:
        rows = [(it.name, it.help) for it in self.commands] + [(words, text.rstrip(".")) for words, text in self.script]
        lines = (f"        {single_quoted(f'{name}:{text}')}" for name, text in rows)
        return {"KINDS": self.bash()["KINDS"], "PROGRAMS": PROGRAMS, "DESCRIPTIONS": joined(lines)}

    def fish(self) -> Dict[str, str]:
        cases = (f"        case {' '.join(places)}\n            echo -- {kind}" for kind, places in self.kinds().items())
        start = "complete -c kat -n __fish_use_subcommand"
        lines = [f"{start} -a {it.name} -d {single_quoted(it.help)}" for it in self.commands]
        lines += [f"{start} -l {words[2:]} -d {single_quoted(text.rstrip('.'))}" for words, text in self.script]
        return {"KINDS": joined(cases), "PROGRAMS": PROGRAMS, "DESCRIPTIONS": "\n".join(lines)}


def filled(template: str, values: Dict[str, str]) -> str:
    return re.sub(r"@([A-Z]+)@", lambda found: values[found[1]], template)


def version_of(changes: str) -> str:
    """The first version that is a heading of CHANGELOG.md."""
    found = re.search(r"^## ([0-9]+)\.([0-9]+)\.([0-9]+)\b", changes, re.MULTILINE)
    if not found:
        raise ValueError("CHANGELOG.md has no heading that is a version")
    # kat_version of the library has three digits for each of the last two.
    if max(int(found[2]), int(found[3])) > 999:
        raise ValueError(f"CHANGELOG.md: the version {found[0][3:]} has a second or third number above 999")
    return found[0][3:]


def with_version(text: str, lines: List[Tuple[str, str]], version: str) -> str:
    """The text with the version in the lines that expressions describe, each in its form."""
    major, minor, patch = version.split(".")
    for line, form in lines:
        found = re.search(line, text, re.MULTILINE)
        if not found:
            raise ValueError(f"no line is {line}")
        text = text[: found.start(1)] + form.format(major=major, minor=minor, patch=patch) + text[found.end(1) :]
    return text


def debian_changelog(path: Path, version: str) -> str:
    """The changelog of the Debian package: a new one where the version of the one that is there is another."""
    text = path.read_text()
    if text.startswith(f"kat ({version}-1) "):
        return text
    maintainer = re.search(r"^Maintainer: (.*)$", (path.parent / "control").read_text(), re.MULTILINE)
    if not maintainer:
        raise ValueError("debian/control has no maintainer")
    return DEBIAN.format(version=version, maintainer=maintainer[1], date=formatdate())


def generated() -> Iterator[Tuple[Path, str]]:
    """Each file that this script writes, with what it has to have."""
    table = Table(json.loads((TOP / "release/commands.json").read_text()))
    version = version_of((TOP / "CHANGELOG.md").read_text())
    makers: Dict[str, Callable[[], Dict[str, str]]] = {
        "help.txt": table.help, "kat.1": table.manual, "kat.bash": table.bash, "kat.zsh": table.zsh, "kat.fish": table.fish}
    for name, make in makers.items():
        template = (TOP / "release/templates" / name).read_text()
        yield TOP / "release" / name, filled(template, {"VERSION": version, **make()})
    for name, lines in VERSION_LINES.items():
        path = TOP / name
        yield path, with_version(path.read_text(), lines, version)
    path = TOP / "debian/changelog"
    yield path, debian_changelog(path, version)


def documented() -> List[str]:
    """The commands in the first table of docs/commands.md."""
    rows = []
    for line in (TOP / "docs/commands.md").read_text().splitlines():
        if line.startswith("| `"):
            rows.append(line.split("`")[1])
        elif rows:
            break
    return rows


def faults() -> Iterator[str]:
    """What docs/commands.md has other than the table, and references to pages that are not installed."""
    table = Table(json.loads((TOP / "release/commands.json").read_text()))
    forms = {form for it in table.commands for form in it.forms()}
    for form in sorted(forms.symmetric_difference(documented())):
        yield f"`{form}` is not both in release/commands.json and in the first table of docs/commands.md"
    for name in ("kat.1", "kat.5"):
        for page in re.findall(re.escape(DOCS) + r"([A-Za-z.]+)", (TOP / "release" / name).read_text()):
            if not (TOP / "docs" / page).is_file() and page != "README.md":
                yield f"release/{name} refers to {DOCS}{page}, which is not installed"


def main() -> int:
    if sys.argv[1:] not in ([], ["--check"]):
        print(__doc__, file=sys.stderr)
        return 2
    check, failed = bool(sys.argv[1:]), 0
    for path, text in generated():
        name = path.relative_to(TOP)
        if path.is_file() and path.read_text() == text:
            continue
        if check:
            print(f"release/generate.py: {name} is not current: run release/generate.py")
            failed += 1
        else:
            path.write_text(text)
            print(f"release/generate.py: wrote {name}")
    for fault in faults():
        print(f"release/generate.py: {fault}")
        failed += 1
    if check and not failed:
        print("release/generate.py: help, manual pages, completions and versions are current")
    return int(failed > 0)


if __name__ == "__main__":
    sys.exit(main())
