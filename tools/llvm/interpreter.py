"""Runs functions of LLVM IR. What constants, operations, memory and calls mean is said by a class that is derived from
`Interpreter`: `truth.py` has their meaning in LLVM, and the tests have functions without meaning, as a flow text has them.

Numbers, pointers and floating point are numbers below 2 to their width; structures and arrays are lists."""

from folding import signed
from ir import Function, Ins
from module import Module

CALLS = {"call", "cmpxchg", "atomicrmw", "fence", "va_arg"}
# What a comparison of floating point says of two values that are `<`, `>`, `=`, or of which one is no number: `?`.
RELATIONS = {"oeq": "=", "ogt": ">", "oge": ">=", "olt": "<", "ole": "<=", "one": "<>", "ord": "<=>", "uno": "?", "ueq": "=?",
             "ugt": ">?", "uge": ">=?", "ult": "<?", "ule": "<=?", "une": "<>?", "true": "<=>?", "false": ""}


def compared(word: str, left: int, right: int, bits: int) -> int:
    """A comparison of two numbers, with sign where the word begins with `s`."""
    a, b = (signed(left, bits), signed(right, bits)) if word[0] == "s" else (left, right)
    return int({"eq": a == b, "ne": a != b, "lt": a < b, "le": a <= b, "gt": a > b, "ge": a >= b}[word[-2:]])


class Interpreter:
    """A run of a function. `env` has the values of the instructions so far."""

    def __init__(self, module: Module, function: Function, args: list):
        self.module, self.function, self.layout = module, function, module.layout
        self.env = {name: arg for (name, _), arg in zip(function.params, args)}

    def is_number(self, type: tuple) -> bool:
        return type[0] in ("int", "float", "ptr") and self.layout.bits(type) <= 64

    def fields(self, type: tuple):
        """The types of the fields of a structure or array, None for another type."""
        type = self.module.named(type)
        return [type[2]] * type[1] if type[0] == "array" else type[2] if type[0] == "struct" else None

    def flat(self, value) -> list:
        return [part for one in value for part in self.flat(one)] if isinstance(value, list) else [value]

    def leaves(self, type: tuple) -> list:
        """The types of the parts."""
        fields = self.fields(type)
        return [type] if fields is None else [leaf for field in fields for leaf in self.leaves(field)]

    def shaped(self, type: tuple, values):
        """A value of the type, made of the values of its parts."""
        fields = self.fields(type)
        return next(values) if fields is None else [self.shaped(field, values) for field in fields]

    def places(self, type: tuple) -> list:
        """The offsets of the fields in memory."""
        inner = self.module.named(type)
        if inner[0] == "struct":
            return self.module.measure(type)[2]
        return [self.module.measure(inner[2])[0] * at for at in range(inner[1])]

    def value(self, pair: tuple):
        type, (kind, what) = pair
        if kind == "%":
            return self.env[what]
        if kind == "ins":
            return self.compute(what)
        if kind == "list":
            return [self.value(one) for one in what]
        if kind in ("zero", "undef") and self.fields(type) is not None:
            return [self.value((field, (kind, what))) for field in self.fields(type)]
        return self.constant(type, kind, what)

    def compute(self, ins: Ins):
        """The value of an instruction that is no call and does not write memory."""
        if ins.op == "getelementptr":
            return self.address(ins)
        if ins.op == "load":
            return self.load(ins, self.value(ins.args[0]))
        if ins.op in ("extractvalue", "insertvalue"):
            return self.part(ins)
        return self.operation(ins, [self.value(pair) for pair in ins.args])

    def part(self, ins: Ins):
        path = [what for _, (_, what) in ins.args[1 if ins.op == "extractvalue" else 2:]]
        whole = self.value(ins.args[0])
        if ins.op == "insertvalue":
            return self.put(whole, path, self.value(ins.args[1]))
        for at in path:
            whole = whole[at]
        return whole

    def put(self, whole: list, path: list, value):
        return [self.put(one, path[1:], value) if at == path[0] else one for at, one in enumerate(whole)] if path else value

    def address(self, ins: Ins):
        """An address as its base with an offset: those of fields, and indices times sizes."""
        type, base, total = ("array", 0, ins.args[0][0]), self.value(ins.args[1]), 0
        for pair in ins.args[2:]:
            type = self.module.named(type)
            if type[0] == "struct":
                at = 0 if pair[1][0] == "zero" else pair[1][1]
                total, type = total + self.module.measure(type)[2][at], type[2][at]
            else:
                size = self.module.measure(type[2])[0] if type[0] == "array" else self.layout.bits(type[2]) // 8
                index = self.value(pair)
                if not isinstance(index, int):
                    return index
                total, type = total + signed(index, self.layout.bits(pair[0])) * size, type[2]
        return self.moved(ins, base, total)

    def blocks(self, turns: int):
        """Runs the function for so many blocks: what `returned` says at its end, or `more`."""
        label, before = next(iter(self.function.blocks)), None
        for _ in range(turns):
            block = self.function.blocks[label]
            phis = [ins for ins in block if ins.op == "phi"]
            self.env.update(zip([ins.name for ins in phis],
                                [self.value(ins.args[ins.labels.index(before)]) for ins in phis]))
            for ins in block[len(phis):]:
                if ins.op == "ret":
                    return self.returned([self.value(pair) for pair in ins.args])
                taken = self.step(ins)
            label, before = taken, label
        return "more"

    def step(self, ins: Ins):
        """Runs an instruction; the label at which the run goes on, where it ends its block."""
        if ins.op == "br":
            return ins.labels[0 if not ins.args or self.decided(self.value(ins.args[0])) else 1]
        if ins.op == "switch":
            value, *cases = (self.value(pair) for pair in ins.args)
            self.decided(value)
            return ins.labels[cases.index(value) + 1 if value in cases else 0]
        if ins.op in ("invoke", "resume", "unreachable"):
            return getattr(self, ins.op)(ins)
        if ins.op == "store" and not ins.mode:
            self.store(ins, *map(self.value, ins.args))
        elif ins.op in ("alloca", "landingpad"):
            self.env[ins.name] = getattr(self, ins.op)(ins)
        elif ins.op in CALLS or ins.mode:
            self.env[ins.name] = self.call(ins)
        elif ins.name:
            self.env[ins.name] = self.compute(ins)
        return None

    def decided(self, value) -> bool:
        """Whether a condition holds."""
        return bool(value)
