"""What operations on numbers and floating point compute in LLVM (LLVM Language Reference): a number, poison, or a value that
nothing defines. Division by zero and the like are undefined behaviour."""

import math
import struct

from folding import binary, signed, unary
from interpreter import RELATIONS, compared
from ir import Ins

FAST = {"nnan", "ninf", "nsz", "arcp", "contract", "afn", "reassoc", "fast"}
FORMATS = {16: "<e", 32: "<f", 64: "<d"}
EXACT = 2 ** 53


class Mark:
    """A value that is no number."""

    def __init__(self, word: str):
        self.word = word

    def __repr__(self) -> str:
        return self.word


POISON, UNDEFINED = Mark("poison"), Mark("an undefined value")


class Undefined(Exception):
    """The run has undefined behaviour."""


class Unknown(Exception):
    """What follows is not known: an operation whose meaning is not here, or one that may end in several ways."""


def marked(values: list):
    """Poison if some value is, else an undefined value if some value is, else None."""
    return POISON if POISON in values else UNDEFINED if UNDEFINED in values else None


def integer(op: str, flags: set, left: int, right: int, bits: int):
    """An operation of two numbers; a promise of a flag that does not hold makes poison."""
    found = binary(op, left, right, bits)
    if found is None and op in ("udiv", "urem", "sdiv", "srem"):
        raise Undefined(f"{op} of {left} by {right}")
    return POISON if found is None or broken(op, flags, left, right, found, bits) else found


def broken(op: str, flags: set, left: int, right: int, found: int, bits: int) -> bool:
    """Whether an operation with a result breaks a promise of its flags."""
    a, b, low = signed(left, bits), signed(right, bits), 2 ** bits - 1
    if op in ("add", "sub", "mul"):
        wide = [{"add": x + y, "sub": x - y, "mul": x * y}[op] for x, y in ((left, right), (a, b))]
        return "nuw" in flags and wide[0] != found or "nsw" in flags and wide[1] != signed(found, bits)
    if op == "shl":
        return "nuw" in flags and found >> right != left or "nsw" in flags and signed(found, bits) >> right != a
    if op in ("lshr", "ashr"):
        return "exact" in flags and left & (2 ** right - 1) != 0
    if op in ("udiv", "sdiv"):
        return "exact" in flags and found * right & low != left
    return op == "or" and "disjoint" in flags and left & right != 0


def decoded(number: int, bits: int) -> float:
    return struct.unpack(FORMATS[bits], number.to_bytes(bits // 8, "little"))[0]


def encoded(value: float, bits: int):
    """Floating point as a number; which of the values that are no number comes out is not defined."""
    if math.isnan(value):
        return UNDEFINED
    try:
        return int.from_bytes(struct.pack(FORMATS[bits], value), "little")
    except OverflowError:
        return int.from_bytes(struct.pack(FORMATS[bits], math.copysign(math.inf, value)), "little")


def floating(op: str, left: int, right: int, bits: int):
    """An operation of floating point. One of numbers of 16 or 32 bits is exact enough in 64 bits to be rounded once more."""
    a, b = decoded(left, bits), decoded(right, bits)
    try:
        if op in ("fadd", "fsub", "fmul"):
            return encoded(a + b if op == "fadd" else a - b if op == "fsub" else a * b, bits)
        return encoded(a / b if op == "fdiv" else math.fmod(a, b), bits)
    except (ZeroDivisionError, ValueError):
        if op == "frem" or a == 0 or math.isnan(a):
            return UNDEFINED
        return encoded(math.copysign(math.inf, a) * math.copysign(1, b), bits)


def relation(left: int, right: int, bits: int) -> str:
    """One of `< > = ?` for two numbers of floating point."""
    a, b = decoded(left, bits), decoded(right, bits)
    return "<" if a < b else ">" if a > b else "=" if a == b else "?"


def converted(op: str, flags: set, value: int, old: int, new: int):
    """A conversion of a number of some bits to others."""
    if op in ("trunc", "zext", "sext", "ptrtoint", "inttoptr", "bitcast"):
        found = (signed(value, old) if op == "sext" else value) % 2 ** new
        lost = op == "trunc" and ("nuw" in flags and found != value or "nsw" in flags and signed(found, new) != signed(value, old))
        return POISON if lost or "nneg" in flags and signed(value, old) < 0 else found
    if op in ("fptrunc", "fpext"):
        return encoded(decoded(value, old), new)
    if op in ("fptoui", "fptosi"):
        return rounded(decoded(value, old), op == "fptosi", new)
    if op in ("uitofp", "sitofp"):
        number = signed(value, old) if op == "sitofp" else value
        if "nneg" in flags and signed(value, old) < 0:
            return POISON
        return encoded(float(number), new) if abs(number) <= EXACT else UNDEFINED
    raise Unknown(op)


def rounded(value: float, with_sign: bool, bits: int):
    """Floating point as a number, rounded towards 0; poison where it does not fit."""
    if not math.isfinite(value):
        return POISON
    number, least = math.trunc(value), -2 ** (bits - 1) if with_sign else 0
    return number % 2 ** bits if least <= number < least + 2 ** bits else POISON


def scalar(ins: Ins, kinds: tuple, values: list, bits: tuple):
    """The result of an operation of numbers or floating point. `kinds` and `bits` are those of its first operand and of its
    result."""
    op, (old, new) = ins.op, bits
    mark = marked(values)
    if mark:
        return mark
    if "opaque" in kinds or "float" in kinds and not {old, new} <= {*FORMATS, 1} and op not in ("fptoui", "fptosi", "uitofp", "sitofp"):
        raise Unknown(f"{op} of floating point of another width")
    if op in ("icmp", "fcmp"):
        return comparison(ins, values, old)
    if op == "fneg":
        return values[0] ^ 1 << old - 1
    if ins.flags & FAST:
        return UNDEFINED
    if op[0] == "f" and op in ("fadd", "fsub", "fmul", "fdiv", "frem"):
        return floating(op, *values, old)
    return integer(op, ins.flags, *values, old) if len(values) == 2 else converted(op, ins.flags, *values, old, new)


def comparison(ins: Ins, values: list, bits: int):
    if ins.op == "fcmp":
        return UNDEFINED if ins.flags & FAST else int(relation(*values, bits) in RELATIONS[ins.word])
    if "samesign" in ins.flags and (values[0] ^ values[1]) >> bits - 1:
        return POISON
    return compared(ins.word, *values, bits)


def intrinsic(word: str, args: list, bits: int):
    """The result of an intrinsic on numbers of some bits, or None where its meaning is not here. `word` is its name without
    `llvm.` and the type."""
    a = [signed(arg, bits) for arg in args]
    if word in ("umin", "umax", "smin", "smax"):
        return (min if word[1:] == "min" else max)(a[:2] if word[0] == "s" else args[:2]) % 2 ** bits
    if word == "abs":
        return POISON if args[1] and args[0] == 1 << bits - 1 else abs(a[0]) % 2 ** bits
    if word in ("fshl", "fshr"):
        both, count = args[0] << bits | args[1], args[2] % bits
        return (both << count >> bits if word == "fshl" else both >> count) % 2 ** bits
    if word in ("uadd.sat", "usub.sat", "sadd.sat", "ssub.sat"):
        x, y = a if word[0] == "s" else args
        least = -2 ** (bits - 1) if word[0] == "s" else 0
        return max(least, min(least + 2 ** bits - 1, x + y if word[1:4] == "add" else x - y)) % 2 ** bits
    if word[1:] in ("add.with.overflow", "sub.with.overflow", "mul.with.overflow"):
        x, y = a if word[0] == "s" else args
        wide = {"add": x + y, "sub": x - y, "mul": x * y}[word[1:4]]
        low = wide % 2 ** bits
        return [low, int((signed(low, bits) if word[0] == "s" else low) != wide)]
    return counted(word, args, bits)


def counted(word: str, args: list, bits: int):
    """The intrinsics that look at the bits of a number."""
    if word in ("ctlz", "cttz") and args[0] == 0 and args[1]:
        return POISON
    if word == "bswap" and bits % 16 or word not in ("bswap", "bitreverse", "ctpop", "ctlz", "cttz"):
        return None
    return unary(word, args[0], bits)
