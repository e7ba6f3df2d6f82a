"""Structures and arrays as values: each becomes its parts, which are numbers or opaque."""

from dataclasses import replace

from ir import Function, Ins, Unread, located
from module import Module

MOST = 64
SCALAR_ZERO = {"int": ("int", 0), "ptr": ("int", 0), "float": ("float", "0.000000e+00")}


class Parts:
    """The parts of the values of a function. A part that an instruction sets has the name of the value, a quotation mark and
    its number, which no value of IR has."""

    def __init__(self, module: Module, function: Function):
        self.module = module
        self.defs = {ins.name: ins for block in function.blocks.values() for ins in block if ins.name}

    def is_whole(self, type: tuple) -> bool:
        return type[0] in ("struct", "array", "named") and self.module.named(type)[0] in ("struct", "array")

    def fields(self, type: tuple) -> list:
        type = self.module.named(type)
        return [type[2]] * type[1] if type[0] == "array" else list(type[2])

    def leaves(self, type: tuple) -> list:
        """The types of the parts."""
        if not self.is_whole(type):
            return [type]
        if self.module.named(type)[0] == "array" and self.module.named(type)[1] > MOST:
            raise Unread(f"a value of more than {MOST} parts")
        found = [leaf for field in self.fields(type) for leaf in self.leaves(field)]
        if len(found) > MOST:
            raise Unread(f"a value of more than {MOST} parts")
        return found

    def offsets(self, type: tuple) -> list:
        """The bytes at which the parts are in memory."""
        if not self.is_whole(type):
            return [0]
        size, inner = self.module.measure(self.fields(type)[0])[0] if self.fields(type) else 0, self.module.named(type)
        starts = self.module.measure(type)[2] if inner[0] == "struct" else [size * at for at in range(inner[1])]
        return [start + more for start, field in zip(starts, self.fields(type)) for more in self.offsets(field)]

    def span(self, type: tuple, path: list) -> tuple:
        """The number of the first part that a path of field numbers leads to, and its type."""
        start = 0
        for at in path:
            fields = self.fields(type)
            start += sum(len(self.leaves(field)) for field in fields[:at])
            type = fields[at]
        return start, type

    def of(self, pair: tuple) -> list:
        """The parts of an operand."""
        type, (kind, what) = pair
        if not self.is_whole(type):
            return [(type, SCALAR_ZERO.get(type[0], ("text", "zeroinitializer")))] if kind == "zero" else [pair]
        leaves = self.leaves(type)
        if kind == "zero":
            return [part for leaf in leaves for part in self.of((leaf, ("zero", "")))]
        if kind == "undef":
            return [(leaf, (kind, what)) for leaf in leaves]
        if kind == "list":
            return [part for one in what for part in self.of(one)]
        if kind != "%":
            raise Unread("a computed constant that is a structure")
        ins = self.defs.get(what)
        if ins is not None and ins.op == "insertvalue":
            parts, path = self.of(ins.args[0]), [value for _, (_, value) in ins.args[2:]]
            start, field = self.span(ins.args[0][0], path)
            return parts[:start] + self.of((field, ins.args[1][1])) + parts[start + len(self.leaves(field)):]
        if ins is not None and ins.op == "extractvalue":
            start, field = self.span(ins.args[0][0], [value for _, (_, value) in ins.args[1:]])
            return self.of(ins.args[0])[start:start + len(self.leaves(field))]
        return [(leaf, ("%", f'{what}"{at}')) for at, leaf in enumerate(leaves)]

    def each(self, ins: Ins) -> list:
        """The instructions for one."""
        if ins.op in ("insertvalue", "extractvalue"):
            start, type = self.span(ins.args[0][0], [what for _, (_, what) in ins.args[1:]] if ins.op == "extractvalue" else [])
            return [] if self.is_whole(type) else [replace(ins, op="freeze", type=type, args=self.of(ins.args[0])[start:start + 1])]
        args = [self.of(pair) if pair[1][0] != "none" else [pair] for pair in ins.args]
        whole = self.is_whole(ins.type)
        names = [(f'{ins.name}"{at}', leaf) for at, leaf in enumerate(self.leaves(ins.type))] if whole else []
        if ins.op in ("phi", "select", "freeze") and whole:
            kept = [pairs if len(pairs) == len(names) else pairs * len(names) for pairs in args]
            return [replace(ins, name=name, type=leaf, args=[pairs[at] for pairs in kept]) for at, (name, leaf) in enumerate(names)]
        if ins.op in ("load", "store") and not ins.mode and self.is_whole(ins.type if whole else ins.args[0][0]):
            return self.access(ins, names, args)
        if ins.op in ("call", "invoke") and any(len(pairs) != 1 for pairs in args):
            ins = replace(ins, shape=ins.shape + " parts " + " ".join(str(len(pairs)) for pairs in args))
        return [replace(ins, args=[pair for pairs in args for pair in pairs], results=names)]

    def access(self, ins: Ins, names: list, args: list) -> list:
        """A load or a store of a structure without gaps, part by part."""
        type = ins.type if names else ins.args[0][0]
        if self.module.layout.has_gaps(type, self.module.named):
            raise Unread(f"a {ins.op} of a structure with gaps")
        places = [self.place(args[-1][0], at) for at in self.offsets(type)]
        if names:
            return [replace(ins, name=name, type=leaf, args=[place]) for (name, leaf), place in zip(names, places)]
        return [replace(ins, args=[part, place]) for part, place in zip(args[0], places)]

    def place(self, base: tuple, offset: int) -> tuple:
        """An address with an offset of bytes."""
        index = "int", self.module.layout.pointer(base[0][1])[2]
        element = Ins(None, "getelementptr", "", base[0], [(("int", 8), ("none", "")), base, (index, ("int", offset))])
        return base[0], ("ins", element)


def scalar(module: Module, function: Function) -> Function:
    """The function with parts in place of structures and arrays. Its type is the list of the types of its results."""
    parts, blocks = Parts(module, function), {}
    params = [pair for name, type in function.params for pair in
              ([(f'{name}"{at}', leaf) for at, leaf in enumerate(parts.leaves(type))] if parts.is_whole(type) else [(name, type)])]
    for label, block in function.blocks.items():
        blocks[label] = []
        for ins in block:
            with located(ins.text, ins.line, function.file):
                blocks[label] += parts.each(ins)
    results = [] if function.type == ("void",) else parts.leaves(function.type)
    return Function(tuple(results), params, blocks, function.file)
