"""What the text of a module promises beside its instructions: attributes of parameters and results, and metadata of accesses.
The reader drops them; a run that breaks one shows nothing."""

import re
from functools import lru_cache

# Metadata that says nothing of what a run may do.
HARMLESS = {"dbg", "prof", "llvm.loop", "srcloc", "nontemporal", "annotation", "heapallocsite", "unpredictable", "nosanitize",
            "tbaa", "tbaa.struct", "invariant.group", "llvm.preserve.access.index", "callees", "callback", "noundef", "range", "nonnull",
            "align", "dereferenceable", "dereferenceable_or_null"}
KNOWN_VALUE = {"range", "nonnull", "align", "dereferenceable"}
POINTS = re.compile(r"\b(?:nonnull|dereferenceable\(\d+\)|noalias)\b")
ALIGN = re.compile(r"\balign (\d+)|\balign\((\d+)\)")
RANGE = re.compile(r"\brange\(i(\d+) (-?\d+), (-?\d+)\)")


@lru_cache(maxsize=4096)
def metadata(line: str) -> dict:
    """The kinds of metadata of an instruction, each with what it names."""
    return dict(re.findall(r", !([\w.]+) !([\w.]+|\{[^}]*\}|DI\w+\(.*?\))", line))


def is_in(ranges: list, value: int, bits: int) -> bool:
    """Whether a number is in one of some ranges, which may go beyond the greatest number."""
    return any((value - low) % 2 ** bits < (high - low) % 2 ** bits or (high - low) % 2 ** bits == 0 for low, high in ranges)


@lru_cache(maxsize=4096)
def ranges(text: str) -> tuple:
    """The ranges of a node of metadata, as `!{i8 0, i8 2}`."""
    numbers = [int(one) for one in re.findall(r"i\d+ (-?\d+)", text)]
    return tuple(zip(numbers[::2], numbers[1::2]))


@lru_cache(maxsize=4096)
def parts(text: str) -> tuple:
    """The text before the parameters of a heading or call, its parameters, and what follows them."""
    start = re.search(r'[@%](?:"[^"]*"|[-\w.$]+)\(', text)
    if not start:
        return text, (), ""
    depth, at, found, first = 0, start.end(), [], start.end()
    while at < len(text) and depth >= 0:
        depth += (text[at] in "([{<") - (text[at] in ")]}>")
        if text[at] == "," and depth == 0 or depth < 0:
            found.append(text[first:at].strip())
            first = at + 1
        at += 1
    return text[:start.start()], tuple(one for one in found if one), text[at:]


def value_holds(text: str, value, bits: int) -> bool:
    """Whether a number has what the attributes of a parameter or result promise."""
    if not isinstance(value, int):
        return not re.search(r"\bnoundef\b", text)
    found, align = RANGE.search(text), ALIGN.search(text)
    points = re.search(r"\b(?:nonnull|dereferenceable\()", text)
    return not (found and not is_in([(int(found[2]), int(found[3]))], value, bits) or points and value == 0 or
                align and value % int(align[1] or align[2]))


def access_holds(line: str, nodes: dict, value, bits: int) -> bool:
    """Whether what a load gave is what its metadata promise."""
    said = metadata(line)
    if not isinstance(value, int):
        return not said.keys() & {"noundef", *KNOWN_VALUE}
    if "range" in said and not is_in(ranges(nodes.get(said["range"], "")), value, bits):
        return False
    if said.keys() & {"nonnull", "dereferenceable"} and value == 0:
        return False
    number = re.search(r"i64 (\d+)", nodes.get(said.get("align", ""), ""))
    return not (number and value % int(number[1]))
