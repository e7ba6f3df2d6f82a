"""Local memory that nobody else sees: an `alloca` of the first block whose address is only used by loads and stores at known
offsets inside it becomes variables, its slots.

No call, no other access and no later code can reach such memory, since its address is never a value that goes anywhere: it is
not stored, passed, returned, compared or chosen. So what memory is to all others does not change if it is left out, and each
load gives what the last store to the same bytes wrote, or an unknown value."""

from dataclasses import replace

from ir import Function, Ins
from module import Module


class Local:
    """An `alloca` with the offsets of the addresses that come from it, and its slots: for an offset the type of a value."""

    def __init__(self, module: Module, ins: Ins):
        self.module, self.ins, self.offsets, self.slots = module, ins, {ins.name: 0}, {}
        self.size = module.measure(ins.args[0][0])[0]

    def follows(self, ins: Ins) -> bool:
        """Whether an instruction uses no address of this memory, or only as it may."""
        used = [pair for pair in ins.args if self.at(pair) is not None]
        if not used:
            return True
        at = self.at(used[0])
        if len(used) == 1 and ins.op in ("bitcast", "freeze") and ins.type[0] == "ptr":
            self.offsets[ins.name] = at
            return True
        if len(used) == 1 and ins.op == "getelementptr" and ins.args[1] == used[0]:
            return self.moves(ins, at)
        if len(used) == 1 and ins.op in ("load", "store") and not ins.mode and ins.args[-1] == used[0]:
            return self.touches(at, ins.type if ins.op == "load" else ins.args[0][0])
        return is_marker(ins) and at == 0 and len(used) == 1

    def at(self, pair: tuple):
        """The offset of an address that comes from this memory, else None. Parts of structures are at offsets of bytes."""
        kind, what = pair[1]
        if kind == "ins" and what.op == "getelementptr" and len(what.args) == 3 and what.args[0][0] == ("int", 8):
            base = self.at(what.args[1])
            return None if base is None else base + what.args[2][1][1]
        return self.offsets.get(what) if kind == "%" else None

    def moves(self, ins: Ins, at: int) -> bool:
        """Whether an address is at a known offset."""
        type = "array", 0, ins.args[0][0]
        for pair in ins.args[2:]:
            type = self.module.named(type)
            if pair[1][0] != "int" or type[0] not in ("struct", "array"):
                return False
            index = pair[1][1]
            if type[0] == "struct" and not 0 <= index < len(type[2]):
                return False
            at += self.module.measure(type)[2][index] if type[0] == "struct" else self.module.measure(type[2])[0] * index
            type = type[2][index] if type[0] == "struct" else type[2]
        self.offsets[ins.name] = at
        return True

    def touches(self, at: int, type: tuple) -> bool:
        """Whether an access is inside and is one whole slot: the same bytes as those of one value, or none of them."""
        if type[0] == "int" and type[1] not in (1, 8, 16, 32, 64) or type[0] == "vector" and self.is_bits(type[2]):
            return False
        size = -(-self.module.layout.bits(type) // 8)
        known = self.slots.setdefault(at, type)
        is_same = known == type or self.is_number(known) and self.is_number(type) and self.bits(known) == self.bits(type)
        others = [start for start, other in self.slots.items() if start != at and start < at + size and
                  at < start - (-self.bits(other) // 8)]
        return is_same and not others and 0 <= at and at + size <= self.size

    def is_bits(self, type: tuple) -> bool:
        return type[0] == "int" and type[1] % 8 != 0

    def bits(self, type: tuple) -> int:
        return self.module.layout.bits(type)

    def is_number(self, type: tuple) -> bool:
        return type[0] in ("int", "float", "ptr") and self.bits(type) in (8, 16, 32, 64)

    def name(self, at: int) -> str:
        return f'{self.ins.name}"{at}'

    def each(self, ins: Ins) -> list:
        """The instructions for one: none for an address, and statements of variables for accesses."""
        at = next((self.at(pair) for pair in ins.args if self.at(pair) is not None), None)
        if ins is self.ins or at is not None and is_marker(ins):
            return [Ins(self.name(at), "slot", f'{ins.text}"{at}', type, [(type, ("undef", "undef"))], line=ins.line)
                    for at, type in self.slots.items()]
        if at is None:
            return [ins]
        if ins.op == "load":
            return [replace(ins, op="slot", args=[(self.slots[at], ("%", self.name(at)))])]
        if ins.op == "store":
            return [Ins(self.name(at), "slot", ins.text, self.slots[at], [ins.args[0]], line=ins.line)]
        return []


def is_marker(ins: Ins) -> bool:
    """Whether a call begins or ends the lifetime of local memory, which then holds nothing."""
    return ins.op == "call" and ins.word.startswith(("llvm.lifetime.start", "llvm.lifetime.end"))


def found(module: Module, function: Function) -> list:
    """The local memories of a function that nobody else sees."""
    first = next(iter(function.blocks))
    every = [ins for block in function.blocks.values() for ins in block]
    if any(label == first for ins in every if ins.op != "phi" for label in ins.labels):
        return []
    locals = [Local(module, ins) for ins in function.blocks[first] if ins.op == "alloca" and len(ins.args) == 1]
    return [local for local in locals if settles(local, every)]


def settles(local: Local, every: list) -> bool:
    """Whether all uses of the memory are as they may be. Addresses may be used before the text has them, so it is asked again
    while new ones are found."""
    known = 0
    while known < len(local.offsets):
        known = len(local.offsets)
        if not all(map(local.follows, every)):
            return False
    return True


def slotted(module: Module, function: Function) -> Function:
    """The function with variables in place of such memory. Its structures are parts already."""
    blocks = function.blocks
    for local in found(module, function):
        blocks = {label: [new for ins in block for new in local.each(ins)] for label, block in blocks.items()}
    return Function(function.type, function.params, blocks, function.file)
