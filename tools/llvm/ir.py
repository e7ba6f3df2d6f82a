"""Functions of LLVM IR: types, values, instructions and blocks.

A type is ("int", bits), ("float", bits) for half, float and double, ("opaque", word) for another of floating point,
("vector", word of the count, type), ("ptr", address space), ("void",), ("array", count, type), ("struct", is packed, types),
("function", type) or ("named", name). A value is ("%", name), ("@", name), ("int", number), ("float", text), ("text", text)
for a constant of an opaque type or a vector, ("undef", word), ("zero", ""), ("list", pairs) for a constant structure or array,
or ("ins", Ins) for a constant that is computed. An operand is a pair of a type and a value."""

from contextlib import contextmanager
from dataclasses import dataclass, field

CASTS = set("trunc zext sext fptrunc fpext fptoui fptosi uitofp sitofp ptrtoint inttoptr bitcast addrspacecast".split())
BINARY = set("add sub mul udiv sdiv urem srem shl lshr ashr and or xor fadd fsub fmul fdiv frem".split())
ENDS = {"br", "switch", "ret", "unreachable", "invoke", "resume"}
BIT, PTR, VOID = ("int", 1), ("ptr", 0), ("void",)


class Unread(Exception):
    """What the reader refuses: the construct, and where it is known the instruction, the line and the file."""

    def __init__(self, reason: str, text: str = "", line: int = 0, file: str = ""):
        super().__init__(reason, text, line, file)
        self.reason, self.text, self.line, self.file = reason, text, line, file

    def __str__(self) -> str:
        place = f" ({self.file + ' ' * bool(self.file)}line {self.line})" if self.line else ""
        return self.reason + f": {self.text}" * bool(self.text) + place


@dataclass
class Ins:
    """An instruction: its result or None, operation, type and operands. The word is the relation of a comparison, the function
    of a call or the operation of `atomicrmw`. `mode` has the words of an access that is volatile or atomic, and `site` what is
    written at a call. `results` are the parts of a result that is a structure."""
    name: str
    op: str
    text: str
    type: tuple = VOID
    args: list = field(default_factory=list)
    word: str = ""
    flags: set = field(default_factory=set)
    labels: list = field(default_factory=list)
    signature: bool = False
    mode: str = ""
    site: set = field(default_factory=set)
    shape: str = ""
    results: list = field(default_factory=list)
    line: int = 0


@dataclass
class Function:
    """A function: the type of its result, its parameters as pairs (name, type), its blocks by label, and its file."""
    type: tuple
    params: list
    blocks: dict
    file: str = ""


@contextmanager
def located(text: str, line: int = 0, file: str = ""):
    """A refusal inside says at which instruction, if it does not say so yet."""
    try:
        yield
    except Unread as why:
        raise Unread(why.reason, why.text or text, why.line or line, why.file or file) from why
    except (LookupError, ValueError, RecursionError) as why:
        raise Unread(f"no sense in {why}", text, line, file) from why


def reached(blocks: dict) -> list:
    """The labels of the blocks that some run reaches, in their order. Other blocks may have values that need themselves."""
    found, new = set(), {next(iter(blocks))}
    while new:
        found |= new
        new = {other for label in new for ins in blocks[label][-1:] for other in ins.labels if other in blocks} - found
    return [label for label in blocks if label in found]
