"""The command: reads its words, and writes the page."""

import argparse
import re
from pathlib import Path
from typing import Iterator

from .cases import Case, case_of
from .html_text import counted
from .page import page_html
from .prover import DIFFERENT, EQUAL, Kat, found_program


# The script `kat` ends with this where it has no program, and says why.
NO_PROGRAM = 70


def main(words: list[str], description: str) -> int:
    parser = argparse.ArgumentParser(description=description, formatter_class=argparse.RawDescriptionHelpFormatter)
    parser.add_argument("files", nargs="+", type=Path, metavar="FILE")
    parser.add_argument("-o", dest="output", required=True, type=Path, metavar="PAGE")
    parser.add_argument("--kat", metavar="PROGRAM")
    parser.add_argument("--turns", type=int, default=1000, metavar="N")
    parser.add_argument("--seconds", type=float, default=60, metavar="N")
    chosen = parser.parse_args(words)
    missing = [str(file) for file in chosen.files if not file.exists()]
    if missing:
        parser.error("no such file or folder: " + ", ".join(missing))
    program = chosen.kat or found_program()
    if not program:
        return NO_PROGRAM
    try:
        cases = [case for file in chosen.files for case in cases_of(Kat(program, chosen.seconds), file, chosen.turns)]
        if not cases:
            parser.error("no file to show in " + ", ".join(map(str, chosen.files)))
        chosen.output.write_text(page_html(cases), encoding="utf-8")
    except OSError as why:
        parser.error(str(why))
    return 0


def cases_of(kat: Kat, file: Path, turns: int) -> Iterator[Case]:
    """A case for a file. For a folder and each one in it: where it has flow texts, as `validate --keep` leaves them, a case for
    each function, and otherwise one for each of its files."""
    if not file.is_dir():
        yield case_of(kat, file, turns)
        return
    for folder in [file, *sorted(found for found in file.rglob("*") if found.is_dir())]:
        groups = groups_of(sorted(folder.glob("*.flow")))
        for name, files in groups.items():
            case = first_proved(kat, name, files, turns)
            case.title = where_of(file, folder) + case.title
            yield case
        if not groups:
            for each in sorted([*folder.glob("*.kat"), *folder.glob("*.gkat")]):
                yield case_of(kat, each, turns)


def where_of(top: Path, folder: Path) -> str:
    """What comes before the name of a function: its folder below the one that is shown. `validate --keep` has a folder for
    each file of IR, in whose name letters that are not ASCII stand for signs, and in it one for each step of a pipeline."""
    parts = [re.sub(r"^\u02c8n(?=\d)", "", part) for part in folder.relative_to(top).parts]
    words = re.sub("\u02c8([0-9a-f]+)\u02c8", lambda found: chr(int(found[1], 16)), "/".join(parts).replace("\u02cc", "."))
    step = re.fullmatch(r"(.*\.ll)/(\d+)", words)
    if step and len(list(folder.parent.iterdir())) > 1:
        words = f"{step[1]}, step {step[2]}"
    elif step:
        words = step[1]
    return words + ": " if words != "." and words else ""


def groups_of(files: list[Path]) -> dict[str, list[Path]]:
    """The choices of cuts for each function, in the order in which `validate` tried them: NAME-0.flow, NAME-1.flow .."""
    groups: dict[str, list[Path]] = {}
    for file in files:
        found = re.fullmatch(r"(.*)-(\d+)", file.stem)
        groups.setdefault(found[1] if found else file.stem, []).append(file)
    for group in groups.values():
        group.sort(key=lambda file: int(re.sub(r".*-", "", file.stem)) if re.search(r"-\d+$", file.stem) else -1)
    return groups


def first_proved(kat: Kat, name: str, files: list[Path], turns: int) -> Case:
    """The choice that is equal; otherwise the first that is different; otherwise the first."""
    evidence = {file: first_line(file.with_suffix(".evidence")) for file in files}
    proved = [file for file in files if evidence[file] in ("kat 2 equal", "kat 1 equal under", "kat 1 equal")]
    differ = [file for file in files if evidence[file] == "kat 1 different"]
    case = case_of(kat, (proved or differ or files)[0], turns)
    if len(files) > 1 or name != files[0].stem:
        case.title = f"{name} ({(proved or differ or files)[0].name})"
    if case.answer.status == DIFFERENT:
        case.notes.append(f"None of {counted(len(files), 'choice')} of cuts gave a proof; this is the first. That is not a bug "
                          "in the pass by itself: the question knows little about operations.")
    elif case.answer.status == EQUAL and len(files) > 1:
        case.notes.append(f"`validate` tried {counted(len(files), 'choice')} of cuts.")
    return case


def first_line(file: Path) -> str:
    try:
        with file.open(encoding="utf-8", errors="replace") as lines:
            return lines.readline().rstrip("\n")
    except OSError:
        return ""
