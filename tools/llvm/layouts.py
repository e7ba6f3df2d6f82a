"""Sizes and alignments of types by the data layout of a module (LLVM Language Reference, "Data Layout")."""

import re

from ir import Unread

OPAQUE = {"bfloat": 16, "x86_fp80": 80, "fp128": 128, "ppc_fp128": 128}
DEFAULT = "p:64:64:64-i1:8-i8:8-i16:16-i32:32-i64:32-f16:16-f32:32-f64:64-f128:128-v64:64-v128:128-a:0"


class Layout:
    """Alignments are in bytes. A pointer has for its address space the bits of its value and of its index."""

    def __init__(self, text: str = ""):
        self.pointers, self.aligns, self.aggregate = {}, {}, 1
        for part in f"{DEFAULT}-{text}".split("-"):
            found = re.fullmatch(r"(p|[ifva])(\d*):(\d+)(?::(\d+))?(?::\d+)?(?::(\d+))?", part)
            if not found:
                continue
            kind, number, first, second, last = found[1], int(found[2] or 0), int(found[3]), found[4], found[5]
            if kind == "p":
                self.pointers[number] = first, int(second or first) // 8, int(last or first)
            elif kind == "a":
                self.aggregate = max(first // 8, 1)
            else:
                self.aligns[kind, number] = max(first // 8, 1)

    def pointer(self, space: int) -> tuple:
        """The bits and the alignment of a pointer, and the bits of its index."""
        return self.pointers.get(space, self.pointers[0])

    def bits(self, type: tuple) -> int:
        """The bits of a value that is a number or opaque."""
        if type[0] in ("int", "float"):
            return type[1]
        if type[0] == "ptr":
            return self.pointer(type[1])[0]
        if type[0] == "opaque" and type[1] in OPAQUE:
            return OPAQUE[type[1]]
        if type[0] == "vector" and type[1].isdigit() and self.bits(type[2]) % 8 == 0:
            return int(type[1]) * self.bits(type[2])
        raise Unread(f"size of a type ({type[0]})")

    def align(self, type: tuple) -> int:
        """The alignment of a value that is a number or opaque."""
        if type[0] == "ptr":
            return self.pointer(type[1])[1]
        kind, bits = {"int": "i", "vector": "v"}.get(type[0], "f"), self.bits(type)
        if (kind, bits) in self.aligns:
            return self.aligns[kind, bits]
        if kind == "i":
            known = sorted(number for word, number in self.aligns if word == "i")
            return self.aligns["i", next((number for number in known if number > bits), known[-1])]
        return 1 << (-(-bits // 8) - 1).bit_length()

    def measure(self, type: tuple, named) -> tuple:
        """The bytes from one element of an array to the next, the alignment, and the offsets of the fields of a structure.
        `named` gives the type that a name has."""
        type, at, most, offsets = named(type), 0, 1, []
        if type[0] == "array":
            size, align, _ = self.measure(type[2], named)
            return size * type[1], align, []
        if type[0] != "struct":
            align = self.align(type)
            return -(-(-(-self.bits(type) // 8)) // align) * align, align, []
        for part in type[2]:
            size, align, _ = self.measure(part, named)
            align = 1 if type[1] else align
            offsets.append(-(-at // align) * align)
            at, most = offsets[-1] + size, max(most, align)
        return -(-at // most) * most, most if type[1] else max(most, self.aggregate), offsets

    def has_gaps(self, type: tuple, named) -> bool:
        """Whether a value of the type in memory has bytes, or bits of bytes, that belong to no part."""
        type = named(type)
        if type[0] == "array":
            return self.has_gaps(type[2], named)
        if type[0] != "struct":
            return self.measure(type, named)[0] * 8 != self.bits(type)
        size = sum(self.measure(part, named)[0] for part in type[2])
        return size != self.measure(type, named)[0] or any(self.has_gaps(part, named) for part in type[2])
