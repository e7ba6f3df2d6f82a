"""Calls of intrinsics whose meaning other instructions have: they become these instructions."""

import re
from dataclasses import replace

from folding import unary
from ir import BIT, Function, Ins

COPIES = r"llvm\.(expect|expect\.with\.probability|ssa\.copy|launder\.invariant\.group|strip\.invariant\.group|annotation)\."
NAME = re.compile(r"llvm\.([us](?:min|max)|abs|fsh[lr]|[us](?:add|sub)\.sat|[us](?:add|sub|mul)\.with\.overflow"
                  r"|bswap|bitreverse|ctpop|ctlz|cttz)\.i\d+")
LEAST, MOST = "umin smin", "umax smax"


class Expansion(list):
    """The instructions for a call. Their results have the call's name, a quotation mark and a number, which no value of IR has."""

    def __init__(self, call: Ins):
        super().__init__()
        self.call, self.type = call, call.args[0][0]
        self.bits = self.type[1]

    def put(self, op: str, *args: tuple, word: str = "", type: tuple = (), name: str = "") -> tuple:
        """Adds an instruction, and gives its result as an operand."""
        type = type or (BIT if op == "icmp" else args[-1][0])
        name = name or f'{self.call.name}"e{len(self)}'
        self.append(Ins(name, op, self.call.text, type, list(args), word, line=self.call.line))
        return type, ("%", name)

    def number(self, number: int) -> tuple:
        return self.type, ("int", number)

    def choose(self, word: str, left: tuple, right: tuple, one: tuple, other: tuple) -> None:
        """The call's result is one value where a comparison holds, and the other where it does not."""
        self.put("select", self.put("icmp", left, right, word=word), one, other, name=self.call.name)

    def minimum(self, word: str) -> None:
        left, right = self.call.args
        self.choose(word[0] + ("lt" if word.endswith("min") else "gt"), left, right, left, right)

    def absolute(self) -> None:
        value = self.call.args[0]
        self.choose("slt", value, self.number(0), self.put("sub", self.number(0), value), value)

    def funnel(self, word: str) -> None:
        """A shift of two numbers in a row by a constant."""
        left, right, (_, (_, count)) = self.call.args
        count %= self.bits
        if count == 0:
            self.put("freeze", left if word == "fshl" else right, name=self.call.name)
            return
        up = count if word == "fshl" else self.bits - count
        self.put("or", self.put("shl", left, self.number(up)), self.put("lshr", right, self.number(self.bits - up)), name=self.call.name)

    def saturate(self, word: str) -> None:
        """An addition or subtraction without sign that ends at the greatest number or at 0."""
        left, right = self.call.args
        found = self.put(word[1:4], left, right)
        if word[1:4] == "add":
            self.choose("ult", found, left, self.number(-1), found)
        else:
            self.choose("ult", left, right, self.number(0), found)

    def overflow(self, word: str) -> None:
        """The result modulo 2 to the width, and whether it is another one without end."""
        left, right = self.call.args
        (value, _), (bit, _) = self.call.results
        found = self.put(word[1:4], left, right, name=value)
        if word[1:4] == "mul":
            self.product(word[0], left, right, found, bit)
        elif word[0] == "u":
            self.put("icmp", *((found, left) if word[1:4] == "add" else (left, right)), word="ult", name=bit)
        else:
            below = self.put("icmp", right, self.number(0), word="slt" if word[1:4] == "add" else "sgt")
            self.put("xor", below, self.put("icmp", found, left, word="slt"), name=bit)

    def product(self, sign: str, left: tuple, right: tuple, found: tuple, bit: str) -> None:
        wide, word = ("int", 2 * self.bits), {"u": "zext", "s": "sext"}[sign]
        longs = [self.put(word, one, type=wide) for one in (left, right, found)]
        self.put("icmp", self.put("mul", *longs[:2]), longs[2], word="ne", name=bit)

    def made(self, word: str) -> bool:
        """Whether the call has become instructions."""
        if word in ("umin", "umax", "smin", "smax"):
            self.minimum(word)
        elif word == "abs":
            self.absolute()
        elif word[:3] == "fsh" and self.call.args[2][1][0] == "int":
            self.funnel(word)
        elif word in ("uadd.sat", "usub.sat"):
            self.saturate(word)
        elif word.endswith("overflow") and (word[1:4] != "mul" or self.bits <= 32):
            self.overflow(word)
        elif self.call.args[0][1][0] == "int" and unary(word, 0, self.bits) is not None:
            self.put("freeze", self.number(unary(word, self.call.args[0][1][1] % 2 ** self.bits, self.bits)), name=self.call.name)
        return bool(self)


def each(ins: Ins) -> list:
    if ins.op != "call" or ins.site or ins.shape:
        return [ins]
    if re.match(COPIES, ins.word):
        return [replace(ins, op="freeze", args=ins.args[:1], word="")]
    found = NAME.fullmatch(ins.word)
    new = Expansion(ins) if found else None
    return new if found and new.made(found[1]) else [ins]


def expanded(function: Function) -> Function:
    """The function with instructions in place of such calls. Its structures are parts already."""
    return Function(function.type, function.params, {label: [new for ins in block for new in each(ins)]
                    for label, block in function.blocks.items()}, function.file)
