"""Prints what was found for functions: a line for each, sums, and a table by pass."""

from collections import Counter

from answers import Record

WORDS = "equal", "differs", "not proved", "not read"


def line(found: Record) -> str:
    difference = f"\n{found.difference}" if found.difference else ""
    return f"{found.function:24} {found.answer:10} {found.seconds:8.2f}  {found.why}{difference}"


def sums(found: list) -> str:
    counts = Counter(one.answer for one in found)
    return f"changed {len(found)}: " + ", ".join(f"{word} {counts[word]}" for word in WORDS)


def first_steps(found: list) -> list:
    """For each function of a pipeline how many steps are proved, and the first one that is not."""
    lines = []
    for place in dict.fromkeys((one.file, one.function) for one in found):
        own = [one for one in found if (one.file, one.function) == place]
        bad = next((one for one in own if one.answer != "equal"), None)
        said = f"step {bad.step}, {bad.passed}: {bad.answer}: {bad.why}" if bad else ""
        difference = f"\n{bad.difference}" if bad and bad.difference else ""
        lines.append(f"{place[1]:24} {sum(one.answer == 'equal' for one in own):4} of {len(own):4} steps  {said}{difference}".rstrip())
    return lines


def by_pass(found: list) -> list:
    """A line for each pass: how many steps, how many of each answer, and the seconds: median, nine of ten, and most."""
    lines = [f"{'pass':32} {'steps':>6} {'equal':>6} {'differs':>8} {'not proved':>11} {'not read':>9}  seconds: median, 9 of 10, most"]
    for passed in sorted({one.passed for one in found}):
        own = [one for one in found if one.passed == passed]
        counts, times = Counter(one.answer for one in own), sorted(one.seconds for one in own)
        marks = ", ".join(f"{times[int((len(times) - 1) * share)]:.2f}" for share in (0.5, 0.9, 1))
        lines.append(f"{passed:32} {len(own):6} {counts['equal']:6} {counts['differs']:8} {counts['not proved']:11} {counts['not read']:9}  {marks}")
    return lines
