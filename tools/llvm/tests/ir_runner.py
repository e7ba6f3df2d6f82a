"""The meaning of functions of LLVM IR that a flow text has: memory, calls and opaque operations are functions by chance.
Numbers have their meaning in LLVM; a value of another type is a number without meaning."""

import hashlib
import re
from collections import namedtuple

import effects
import homes
import slots
from folding import binary, signed, unary
from interpreter import RELATIONS, Interpreter, compared
from ir import BINARY, CASTS
from parts import scalar
from terms import exact
from values import call_name, type_word

Place = namedtuple("Place", "name at")


class Stuck(Exception):
    """The run is at a place that no run reaches."""


class Left(Exception):
    """The run ends at a call: the memory that it returns."""


class Meaning:
    """Operations on numbers as they are, comparisons of floating point that agree with one another, and of all other functions
    a random one for each seed. Calls rarely end a run."""

    def __init__(self, seed):
        self.seed = seed

    def __call__(self, name, args):
        found = re.fullmatch(r"(and|or|xor|shl|lshr|ashr|udiv|sdiv|urem|srem)_(\d+)", name)
        if found:
            return binary(found[1], *args, int(found[2])) or 0
        found = re.fullmatch(r"sext_(\d+)_(\d+)", name)
        if found and int(found[1]) < 64:
            return signed(args[0], int(found[1])) % 2 ** int(found[2])
        found = re.fullmatch(r"fcmp_(\w+?)_(\w+)", name)
        if found and found[1] in RELATIONS:
            return int(self.relation(*args) in RELATIONS[found[1]])
        found = re.fullmatch("llvm\u02cc(bswap|bitreverse|ctpop|ctlz|cttz)\u02cci(\\d+)(?:\u02c8[_\\d]+)?_value", name)
        if found:
            return unary(found[1], args[0], int(found[2]))
        if re.match(r"fadd_|fmul_|(and|or|xor|add|mul)_(v|128)|icmp_(eq|ne)_v", name):
            args = sorted(args)
        number = self.random(name, args)
        if re.search(r"_(leaves|ends|unwinds)$", name):
            return int(number % 7 == 0)
        number = (number >> 8) % 3 if number % 4 == 0 else 47 + (number >> 8) % 12 if number % 4 == 1 else number >> 3
        small = re.match(r"(?:load|extractelement)_(\d+)\b", name)
        return number % 2 if re.search(r"^load_1$|_1_value$", name) else number % 2 ** int(small[1]) if small and int(small[1]) < 64 else number

    def random(self, *what):
        return int.from_bytes(hashlib.blake2b(repr((self.seed, *what)).encode(), digest_size=8).digest(), "big")

    def relation(self, left, right):
        """One of `< > = ?` for two numbers of floating point."""
        if left == right:
            return "=?"[self.random("nan", left) % 3 == 0]
        least, most = sorted((left, right))
        found = "<>=?"[self.random("relation", least, most) % 4]
        return found if left < right else {"<": ">", ">": "<"}.get(found, found)


class Run(Interpreter):
    def __init__(self, module, function, args, memory, meaning, options):
        super().__init__(module, function, args)
        self.meaning, self.memory, self.options = meaning, memory, options
        whole = scalar(module, function)
        self.private = {local.ins.name: {} for local in slots.found(module, whole)}
        self.homes = {home.ins.name: home.word for home in homes.found(module, slots.slotted(module, whole))}
        self.memories = {}

    def own(self, type, address, value=None):
        """Reads or writes the bytes of local memory that nobody else sees; a byte that nothing has written has no value."""
        bytes, at = self.private[address.name], address.at
        if self.fields(type) is not None:
            parts = zip(self.fields(type), self.places(type), value or [None] * len(self.fields(type)))
            return [self.own(field, Place(address.name, at + more), one) for field, more, one in parts]
        size = -(-self.module.layout.bits(type) // 8)
        if value is not None:
            halves = list(value.to_bytes(8, "little")[:size]) if self.is_number(type) else [value] * size
            bytes.update(zip(range(at, at + size), halves))
            return None
        halves = [bytes[one] for one in range(at, at + size)]
        return int.from_bytes(halves, "little") if self.is_number(type) else halves[0]

    def bits(self, type):
        """The bits of a number; a value that is none has 64."""
        if type[0] in ("vector", "opaque", "void", "struct", "array", "named"):
            return 64
        return min(self.module.layout.bits(type), 64)

    def word(self, type):
        return type_word(type, self.module.layout)

    def constant(self, type, kind, what):
        if kind == "undef":
            raise LookupError("undefined value")
        if kind == "zero":
            kind, what = ("float", "0.000000e+00") if type[0] == "float" else ("int", 0) if type[0] in ("int", "ptr") else ("text", "zeroinitializer")
        if kind == "int" and not self.is_number(type):
            return self.meaning(f"\u02c8int_{self.word(type)}_{what % 2 ** self.module.layout.bits(type)}", []) % 2 ** 64
        if kind == "int":
            return what % 2 ** self.bits(type)
        if kind in ("float", "text"):
            return self.meaning(f"{exact(what)}\u02c8{self.word(type)}", []) % 2 ** self.bits(type)
        return self.meaning(f"{exact(what)}_address", []) % 2 ** self.bits(type)

    def operation(self, ins, values):
        op, old, new = ins.op, ins.args[0][0], ins.type
        if op == "freeze" or isinstance(values[0], Place) or op == "bitcast" and self.is_number(old) and self.is_number(new):
            return values[0]
        if op == "select" and old == ("int", 1):
            return values[1] if values[0] else values[2]
        if op == "icmp" and self.is_number(old):
            return compared(ins.word, *values, self.bits(old))
        if op == "fcmp" and new == ("int", 1):
            return int(self.meaning.relation(*values) in RELATIONS[ins.word])
        if op in ("trunc", "zext", "sext", "ptrtoint", "inttoptr") and self.is_number(old) and self.is_number(new):
            return (signed(values[0], self.bits(old)) if op == "sext" else values[0]) % 2 ** self.bits(new)
        if op in BINARY and op[0] != "f" and self.is_number(new):
            found = binary(op, *values, self.bits(new))
            return 0 if found is None else found
        return self.opaque(ins, values)

    def opaque(self, ins, values):
        op, words = ins.op, [self.word(type) for type, _ in ins.args]
        if op == "addrspacecast":
            words = [str(ins.args[0][0][1]), str(ins.type[1])]
        elif op in CASTS or op == "fneg":
            words = [words[0], self.word(ins.type)]
        elif op in ("icmp", "fcmp"):
            if op == "icmp" and ins.type == ("int", 1):
                return self.wide_compare(ins.word, values, words[0])
            words = [ins.word, words[0]]
            if op == "icmp" and ins.word[1] == "g":
                words, values = [f"{ins.word[0]}l{ins.word[2]}", words[1]], values[::-1]
        elif op in BINARY:
            words = words[:1]
        found = self.meaning("_".join([op, *words]), values) % 2 ** self.bits(ins.type)
        return found if ins.type != ("int", 1) else int(self.meaning("_".join([op, *words]), values) % 256 != 0)

    def wide_compare(self, word, values, name):
        if word in ("eq", "ne"):
            return int((values[0] == values[1]) == (word == "eq"))
        if word[1:] in ("gt", "le"):
            values = values[::-1]
        less = self.meaning(f"icmp_{word[0]}lt_{name}", values) % 256 != 0
        return int(less == (word[2] == "t"))

    def load(self, ins, address):
        return self.loaded(ins.type, address, ins.args[0][0][1])

    def loaded(self, type, address, space):
        if isinstance(address, Place) and address.name in self.private:
            return self.own(type, address)
        if self.fields(type) is not None:
            return [self.loaded(field, self.plus(address, at), space) for field, at in zip(self.fields(type), self.places(type))]
        memory, address = (self.memories[address.name], address.at % 2 ** 64) if isinstance(address, Place) else (self.memory, address)
        return self.meaning(f"load_{self.word(type)}" + f"\u02c8{space}" * (space != 0), [memory, address]) % 2 ** self.bits(type)

    def plus(self, address, at):
        return Place(address.name, address.at + at) if isinstance(address, Place) else address + at

    def store(self, ins, value, address):
        self.stored(ins.args[0][0], value, address, ins.args[1][0][1])

    def stored(self, type, value, address, space):
        if isinstance(address, Place) and address.name in self.private:
            self.own(type, address, value)
            return
        if self.fields(type) is not None:
            for field, at, one in zip(self.fields(type), self.places(type), value):
                self.stored(field, one, self.plus(address, at), space)
        elif isinstance(address, Place):
            self.memories[address.name] = self.meaning(f"store_{self.word(type)}", [self.memories[address.name], address.at % 2 ** 64, value]) % 2 ** 64
        else:
            name = f"store_{self.word(type)}" + f"\u02c8{space}" * (space != 0)
            self.memory = self.meaning(name, [self.memory, address, value]) % 2 ** 64

    def moved(self, ins, base, offset):
        return Place(base.name, base.at + offset) if isinstance(base, Place) else (base + offset) % 2 ** self.bits(ins.args[1][0])

    def alloca(self, ins):
        if ins.name in self.private:
            self.private[ins.name].clear()
            return Place(ins.name, 0)
        if ins.name in self.homes:
            self.forget(ins.name, "")
            return Place(ins.name, 0)
        values = [self.value(pair) for pair in ins.args[1:]]
        args = [self.module.measure(ins.args[0][0])[0], *values, self.memory]
        name = f"alloca\u02c8{len(ins.args)}" + f"\u02c8{ins.type[1]}" * (ins.type[1] != 0)
        self.memory = self.meaning(f"{name}_memory", args) % 2 ** 64
        return self.meaning(f"{name}_value", args) % 2 ** self.bits(ins.type)

    def forget(self, name, at):
        self.memories[name] = self.meaning(f"\u02c8local_{self.homes[name]}{at}", []) % 2 ** 64

    def result(self, name, type, args):
        """The result of a call or access: a structure has a function for each part."""
        if self.fields(type) is None:
            return self.meaning(name, args) % 2 ** self.bits(type) if type != ("int", 1) else int(self.meaning(name, args) % 256 != 0)
        return self.shaped(type, (self.result(f"{name}_{at}", leaf, args) for at, leaf in enumerate(self.leaves(type))))

    def named_call(self, ins):
        """The name of a call's function, as the reader has it after structures have become parts."""
        parts = [self.leaves(type) for type, _ in ins.args]
        shape = ins.shape + " parts " + " ".join(str(len(part)) for part in parts) if any(len(part) != 1 for part in parts) else ins.shape
        results = [("", leaf) for leaf in self.leaves(ins.type)] if self.fields(ins.type) is not None else []
        made = type(ins)(**{**vars(ins), "args": [(leaf, None) for part in parts for leaf in part], "results": results, "shape": shape})
        return call_name(made, self.module.layout)

    def call(self, ins):
        if ins.word == "llvm.assume":
            return None if self.value(ins.args[0]) else self.unreachable(ins)
        args = [self.value(pair) for pair in ins.args]
        if ins.word.startswith("llvm.lifetime.") and isinstance(args[-1], Place):
            name = args[-1].name
            return self.private[name].clear() if name in self.private else self.forget(name, "_start" if "start" in ins.word else "_end")
        if ins.op == "call" and ins.word.startswith("llvm.") and not ins.shape:
            found = known(ins, args, self.bits(ins.args[0][0]) if ins.args else 0)
            if found is not None:
                return found
        name, effect = self.named_call(ins), "writes"
        if ins.op in ("call", "invoke"):
            effect = self.module.effect(ins.word, ins.site)
        args = [part for arg in args for part in self.flat(arg)] + ([] if effect == "none" else [self.memory])
        words = self.module.attributes.get(ins.word, "")
        if effect == "writes" and ins.op != "invoke" and not self.options.returns_only and not effects.returns(ins, words):
            if "noreturn" in words.split() or "noreturn" in ins.site or self.meaning(f"{name}_leaves", args) % 256:
                raise Left(self.meaning(f"{name}_left", args) % 2 ** 64)
        result = self.result(f"{name}_value", ins.type, args) if ins.type != ("void",) else None
        if effect == "writes":
            self.memory = self.meaning(f"{name}_memory", args) % 2 ** 64
        return result

    def invoke(self, ins):
        """The label at which the run goes on."""
        words = self.module.attributes.get(ins.word, "").split()
        if "nounwind" in words:
            self.env[ins.name] = self.call(ins)
            return ins.labels[0]
        name, args = self.named_call(ins), [part for pair in ins.args for part in self.flat(self.value(pair))] + [self.memory]
        if not self.options.returns_only and "willreturn" not in words and self.meaning(f"{name}_ends", args) % 256:
            raise Left(self.meaning(f"{name}_ended", args) % 2 ** 64)
        if self.meaning(f"{name}_unwinds", args) % 256:
            self.memory = self.meaning(f"{name}_unwound", args) % 2 ** 64
            return ins.labels[1]
        self.env[ins.name] = self.result(f"{name}_value", ins.type, args) if ins.type != ("void",) else None
        self.memory = self.meaning(f"{name}_memory", args) % 2 ** 64
        return ins.labels[0]

    def run(self, turns):
        """The results and the memory, None where the run is stuck, or `more` where it has not ended after so many blocks."""
        try:
            return self.blocks(turns)
        except Stuck:
            return None
        except Left as end:
            leaves = [] if self.function.type == ("void",) else self.leaves(self.function.type)
            return [0 if self.is_number(leaf) else self.meaning(f"\u02c8nothing_{self.word(leaf)}", []) % 2 ** 64 for leaf in leaves], end.args[0]

    def returned(self, values):
        return self.flat(values), self.memory

    def unreachable(self, ins):
        raise Stuck

    def resume(self, ins):
        args = self.flat(self.value(ins.args[0]))
        if self.options.returns_only:
            raise LookupError("the run does not return")
        words = "".join(f"_{self.word(leaf)}" for leaf in self.leaves(ins.args[0][0]))
        raise Left(self.meaning(f"\u02c8resume{words}_left", [*args, self.memory]) % 2 ** 64)

    def landingpad(self, ins):
        return self.result(self.named_call(ins), ins.type, [self.memory])


def known(ins, args, bits):
    """The result of an intrinsic that has a meaning, else None."""
    if re.match(r"llvm\.(expect|ssa\.copy|launder\.invariant\.group|strip\.invariant\.group)\.", ins.word):
        return args[0]
    found = re.fullmatch(r"llvm\.([\w.]+)\.i\d+", ins.word)
    word = found[1] if found else ""
    if word in ("umin", "umax", "smin", "smax"):
        keys = [signed(arg, bits) if word[0] == "s" else arg for arg in args]
        return (min if word[1:] == "min" else max)(keys) % 2 ** bits
    if word == "abs":
        return abs(signed(args[0], bits)) % 2 ** bits
    if word in ("fshl", "fshr") and ins.args[2][1][0] == "int":
        both, count = args[0] << bits | args[1], args[2] % bits
        return (both << count >> bits if word == "fshl" else both >> count) % 2 ** bits
    if word in ("uadd.sat", "usub.sat"):
        return max(0, min(2 ** bits - 1, args[0] + args[1] if word[1:4] == "add" else args[0] - args[1]))
    found = re.fullmatch(r"([us])(add|sub|mul)\.with\.overflow", word)
    if found and (found[2] != "mul" or bits <= 32):
        a, b = [signed(arg, bits) if found[1] == "s" else arg for arg in args]
        exact_result = {"add": a + b, "sub": a - b, "mul": a * b}[found[2]]
        low = exact_result % 2 ** bits
        return [low, int((signed(low, bits) if found[1] == "s" else low) != exact_result)]
    if word in ("bswap", "bitreverse", "ctpop", "ctlz", "cttz") and unary(word, args[0], bits) is not None:
        return unary(word, args[0], bits)
    return None
