"""Instructions of LLVM IR that read no memory, as expressions and conditions of flow texts."""

import folding
from ir import BIT, CASTS, Ins, Unread
from terms import RELATIONS, choice, combine, convert, join, negate, relation
from values import Values, call_name

COMMUTATIVE = {"add", "mul", "and", "or", "xor", "fadd", "fmul"}
BITWISE = {"and", "or", "xor"}
# A comparison of floating point as one of fewer: the relation, whether its sides are exchanged, and whether it is denied.
ORDERED = {"ogt": ("olt", True, False), "oge": ("ole", True, False), "ult": ("ole", True, True), "ule": ("olt", True, True),
           "ugt": ("ole", False, True), "uge": ("olt", False, True), "une": ("oeq", False, True), "ueq": ("one", False, True),
           "uno": ("ord", False, True)}
SYMMETRIC = {"oeq", "one", "ord"}


def turned(word: str, args: list) -> tuple:
    """A comparison of vectors as one of `eq ne slt sle ult ule`, and its arguments."""
    if word in ("eq", "ne"):
        return word, sorted(args, key=str)
    return (word[0] + "l" + word[2], args[::-1]) if word[1] == "g" else (word, args)


class Operations(Values):
    """Numbers of a width that no sort has are masked. Sums, products and comparisons of such numbers need no mask inside, since
    they are the same modulo 2 to the width."""

    def pure(self, ins: Ins):
        """An expression for an instruction that reads no memory."""
        op, types = ins.op, [type for type, _ in ins.args]
        if op == "getelementptr":
            return self.address(*ins.args)
        if op == "call":
            return self.apply(f"{call_name(ins, self.layout)}_value", self.sort(ins.type), *map(self.argument, ins.args))
        if self.size(ins.type) and self.size(types[0]) and "float" not in (ins.type[0], types[0][0]):
            if op in ("trunc", "zext", "sext", "ptrtoint", "inttoptr"):
                return self.converted(op, self.number(ins.args[0]), self.size(types[0]), self.size(ins.type))
            if op not in CASTS:
                return self.arithmetic(op, *map(self.value, ins.args), self.size(ins.type))
        return self.opaque(ins)

    def opaque(self, ins: Ins) -> str:
        """An operation of which only its name is known."""
        op, args = ins.op, list(map(self.argument, ins.args))
        words = [self.word(ins.args[0][0])]
        if op in CASTS or op == "fneg":
            words.append(self.word(ins.type))
        elif op in ("icmp", "fcmp"):
            words.insert(0, ins.word)
        elif op in ("insertelement", "extractelement", "shufflevector", "select"):
            words = [self.word(type) for type, _ in ins.args]
        if op == "addrspacecast":
            words = [f"{ins.args[0][0][1]}_{ins.type[1]}"]
        if op == "icmp":
            words[0], args = turned(ins.word, args)
        if op in COMMUTATIVE:
            args.sort(key=str)
        return self.apply("_".join([op, *words]), self.sort(ins.type), *args)

    def masked(self, value, size: int):
        """A number modulo 2 to a width that its sort may not have."""
        width = self.width(("int", size))
        if isinstance(value, int) or size == width:
            return value if size == width else value % 2 ** size
        found = self.apply(f"and_{width}", f"u{width}", (f"u{width}", value), (f"u{width}", 2 ** size - 1))
        self.inner[found] = value
        return found

    def unmasked(self, value):
        """A number that is the same modulo 2 to the width of its type, without a mask."""
        return self.inner.get(value, value)

    def converted(self, op: str, value, old: int, new: int):
        """A number read without or with sign, at another width."""
        widths = self.width(("int", old)), self.width(("int", new))
        if op == "sext" and old not in widths and not isinstance(value, int):
            return self.apply(f"sext_{old}_{new}", f"u{widths[1]}", (f"u{widths[0]}", value))
        if isinstance(value, int):
            return convert("s" if op == "sext" else "u", value, old, new)
        found = convert("s" if op == "sext" else "u", value, *widths)
        return found if op != "sext" and new >= old else self.masked(found, new)

    def arithmetic(self, op: str, left, right, size: int):
        """Sums and products; what is one of them by a constant; a number of two numbers; else a function."""
        if op in BITWISE and (isinstance(left, int) or isinstance(right, str) and right < left):
            left, right = right, left
        width = self.width(("int", size))
        if isinstance(left, int) and isinstance(right, int):
            found = folding.binary(op, left, right, size)
            if found is not None:
                return found
        if op in ("udiv", "urem") and isinstance(right, int) and right > 0 and right & right - 1 == 0:
            op, right = ("lshr", right.bit_length() - 1) if op == "udiv" else ("and", right - 1)
        if op == "shl" and isinstance(right, int) and right < size:
            op, right = "mul", 2 ** right
        if op in ("add", "sub", "mul"):
            left, right = self.unmasked(left), self.unmasked(right)
            return self.masked(combine({"add": "+", "sub": "-", "mul": "*"}[op], left, right, width), size)
        if op == "and" and right in (2 ** 8 - 1, 2 ** 16 - 1, 2 ** 32 - 1) and right < 2 ** width - 1:
            return convert("u", convert("u", left, width, right.bit_length()), right.bit_length(), width)
        if op == "and" and right == 2 ** size - 1 or op in ("or", "xor", "lshr", "ashr") and right == 0:
            return left
        name = f"{op}_{size if op in ('shl', 'ashr', 'sdiv', 'srem') else width}"
        return self.apply(name, f"u{width}", (f"u{width}", left), (f"u{width}", right))

    def address(self, element: tuple, base: tuple, *indices: tuple):
        """An address as a sum: the offsets of fields, and indices times sizes."""
        bits, _, index = self.layout.pointer(base[0][1])
        if bits != index or not self.size(base[0]):
            raise Unread(f"an address whose pointer has {bits} bits and whose index has {index}")
        type, total = ("array", 0, element[0]), self.value(base)
        for pair in indices:
            type = self.module.named(type)
            if type[0] == "struct":
                at = 0 if pair[1][0] == "zero" else pair[1][1]
                if pair[1][0] not in ("int", "zero"):
                    raise Unread("a field of a structure that is no number")
                step, type = self.module.measure(type)[2][at], type[2][at]
            elif type[0] in ("array", "vector"):
                size = self.module.measure(type[2])[0] if type[0] == "array" else self.layout.bits(type[2]) // 8
                if pair[0] == BIT or type[0] == "vector" and self.layout.bits(type[2]) % 8:
                    raise Unread("an index of one bit, or into bits of a vector")
                old = self.size(pair[0])
                step = self.converted("sext" if old < bits else "trunc", self.value(pair), old, bits)
                step, type = combine("*", step, size, bits), type[2]
            else:
                raise Unread(f"an address in a value of type {type[0]}")
            total = combine("+", total, step, bits)
        return total

    def bit(self, ins: Ins) -> str:
        """A condition for an instruction that computes a bit and reads no memory."""
        op, args = ins.op, ins.args
        if op == "call":
            return f"{self.apply(call_name(ins, self.layout) + '_value', 'u8', *map(self.argument, args))} != 0"
        if op == "fcmp":
            return self.float_compare(ins)
        if op == "icmp":
            return self.compare(ins)
        if op == "trunc" and self.size(args[0][0]):
            return self.is_odd(self.value(args[0]), self.size(args[0][0]))
        if op in ("and", "or", "xor", "select", "add", "sub", "mul"):
            return self.logic(op, *map(self.value, args))
        if op in ("shl", "lshr", "ashr", "udiv", "sdiv", "urem", "srem"):
            raise Unread(f"{op} of bits")
        return f"{self.opaque(ins)} != 0"

    def is_odd(self, value, size: int) -> str:
        found = self.arithmetic("and", value, 1, size)
        return ("false", "true")[found] if isinstance(found, int) else relation("!=", found, 0, size)

    def logic(self, op: str, *terms: str) -> str:
        """An operation of bits; a sum or difference is `xor`, and a product `and`."""
        if op in ("and", "or", "mul"):
            return join("||" if op == "or" else "&&", *terms)
        return choice(*terms) if op == "select" else choice(terms[0], negate(terms[1]), terms[1])

    def float_compare(self, ins: Ins) -> str:
        """A comparison of floating point, as one of `oeq one olt ole ord`."""
        args, word = list(map(self.argument, ins.args)), ins.word
        if word in ("true", "false"):
            return word
        word, exchanged, denied = ORDERED.get(word, (word, False, False))
        if exchanged or word in SYMMETRIC and str(args[1]) < str(args[0]):
            args.reverse()
        found = f"{self.apply(f'fcmp_{word}_{self.word(ins.args[0][0])}', 'u8', *args)} != 0"
        return negate(found) if denied else found

    def compare(self, ins: Ins) -> str:
        word, (left, right), type = ins.word, map(self.value, ins.args), ins.args[0][0]
        if type == BIT:
            return self.compare_bits(word, left, right)
        size = self.size(type)
        if not size:
            return self.compare_opaque(word, left, right, type)
        if isinstance(left, int) and isinstance(right, int):
            sides = [folding.signed(side, size) if word[0] == "s" else side for side in (left, right)]
            return str({"eq": sides[0] == sides[1], "ne": sides[0] != sides[1], "lt": sides[0] < sides[1], "le": sides[0] <= sides[1],
                        "gt": sides[0] > sides[1], "ge": sides[0] >= sides[1]}[word[-2:]]).lower()
        width = self.width(type)
        if size != width:  # in the upper bits of the sort both orders are those of the type
            left, right = (combine("*", self.unmasked(side), 2 ** (width - size), width) for side in (left, right))
        keeps = word[0] == "s" and not all(map(self.is_positive, ins.args))
        return relation(word if keeps else RELATIONS[word[-2:]], left, right, width)

    def compare_bits(self, word: str, left: str, right: str) -> str:
        """A comparison of bits. With sign, 1 is less than 0."""
        if word in ("eq", "ne"):
            return choice(left, *((right, negate(right)) if word == "eq" else (negate(right), right)))
        if (word[1] == "g") != (word[0] == "s"):
            left, right = right, left
        return join("&&", negate(left), right) if word[2] == "t" else join("||", negate(left), right)

    def compare_opaque(self, word: str, left: str, right: str, type: tuple) -> str:
        """A comparison of numbers that no sort has: an equality, or one of `slt ult` or its opposite."""
        if word in ("eq", "ne"):
            return f"{left} {RELATIONS[word]} {right}"
        if word[1:] in ("gt", "le"):
            left, right = right, left
        found = f"{self.apply(f'icmp_{word[0]}lt_{self.word(type)}', 'u8', (self.sort(type), left), (self.sort(type), right))} != 0"
        return found if word[2] == "t" else negate(found)

    def is_positive(self, pair: tuple) -> bool:
        """Whether a value has no sign by how it is written: a signed comparison of such values is one without sign."""
        type, (kind, what) = pair
        extended = kind == "%" and what in self.defs and self.defs[what].op == "zext"
        return extended or kind == "int" and 0 <= what < 2 ** (type[1] - 1)
