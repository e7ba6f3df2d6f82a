"""What operations on numbers compute, where LLVM defines it; a value that is poison or undefined behavior has no number."""


def signed(number: int, bits: int) -> int:
    return number - (number >> bits - 1 << bits)


def binary(op: str, left: int, right: int, bits: int):
    """The result of an operation on two numbers of some bits, or None."""
    if op in ("shl", "lshr", "ashr"):
        if right >= bits:
            return None
        return (left << right if op == "shl" else (signed(left, bits) if op == "ashr" else left) >> right) % 2 ** bits
    if op in ("udiv", "urem", "sdiv", "srem"):
        return divided(op, left, right, bits)
    return {"add": left + right, "sub": left - right, "mul": left * right, "and": left & right, "or": left | right,
            "xor": left ^ right}[op] % 2 ** bits


def divided(op: str, left: int, right: int, bits: int):
    """A division or its rest, rounded towards 0; None for one by 0 or one that overflows."""
    if right == 0 or op[0] == "s" and left == 2 ** (bits - 1) and right == 2 ** bits - 1:
        return None
    if op[0] == "u":
        return left // right if op == "udiv" else left % right
    a, b = signed(left, bits), signed(right, bits)
    quotient = abs(a) // abs(b) * (1 if (a < 0) == (b < 0) else -1)
    return (quotient if op == "sdiv" else a - quotient * b) % 2 ** bits


def unary(word: str, number: int, bits: int):
    """The result of an intrinsic of one number, or None."""
    if word == "bswap" and bits % 16 == 0:
        return int.from_bytes(number.to_bytes(bits // 8, "big"), "little")
    if word == "bitreverse":
        return int(format(number, f"0{bits}b")[::-1], 2)
    if word == "ctpop":
        return bin(number).count("1")
    if word == "ctlz":
        return bits - number.bit_length()
    if word == "cttz":
        return (number & -number).bit_length() - 1 if number else bits
    return None
