"""Local memory that nobody else sees and that is used at unknown offsets: an `alloca` of the first block has a memory of its own.

Each use of its address is a load or store that is not volatile or atomic, a `getelementptr`, `bitcast`, `freeze`, `phi` or
`select` whose results are used in the same way, or a mark of its lifetime. So the address is never stored, passed, returned or
compared: what it is does not matter, it is taken for 0, and no other access reaches this memory."""

from dataclasses import replace

from ir import BIT, Function, Ins
from module import Module
from slots import is_marker


class Home:
    """An `alloca`, the names of the addresses that come from it, and the word of its memory: its size and its number."""

    def __init__(self, ins: Ins, word: str):
        self.ins, self.word, self.names = ins, word, {ins.name}

    def comes(self, pair: tuple) -> bool:
        """Whether an operand is an address that comes from this memory."""
        kind, what = pair[1]
        return kind == "%" and what in self.names or kind == "ins" and what.op == "getelementptr" and self.comes(what.args[1])

    def follows(self, ins: Ins) -> bool:
        """Whether an instruction uses addresses of this memory only as it may."""
        used = [at for at, pair in enumerate(ins.args) if self.comes(pair)]
        if not used:
            return True
        if ins.op in ("load", "store"):
            return not ins.mode and used == [len(ins.args) - 1]
        if ins.op == "getelementptr" and used == [1] or ins.op in ("bitcast", "freeze") and ins.type[0] == "ptr" or \
                ins.op == "phi" or ins.op == "select" and ins.args[0][0] == BIT:
            self.names.add(ins.name)
            return ins.op not in ("phi", "select") or len(used) == len(ins.args) - (ins.op == "select")
        return is_marker(ins)

    def fresh(self, ins: Ins, at: str) -> Ins:
        """The statement that nothing is known of the memory."""
        return Ins(None, "home", ins.text, args=[], word=f"{self.word}{at}", line=ins.line, mode=self.word)

    def each(self, ins: Ins) -> list:
        """The instructions for one."""
        if ins is self.ins:
            return [self.fresh(ins, ""), replace(ins, op="freeze", args=[(ins.type, ("int", 0))])]
        if not any(map(self.comes, ins.args)):
            return [ins]
        if is_marker(ins):
            return [self.fresh(ins, "_start" if "start" in ins.word else "_end")]
        return [replace(ins, word=self.word) if ins.op in ("load", "store") else ins]


def settles(home: Home, every: list) -> bool:
    """Whether all uses are as they may be; addresses may be used before the text has them."""
    known = 0
    while known < len(home.names):
        known = len(home.names)
        is_right = all([home.follows(ins) for ins in every])
    return is_right


def found(module: Module, function: Function) -> list:
    """The local memories of their own. Those of one size are numbered in their order."""
    first = next(iter(function.blocks))
    every = [ins for block in function.blocks.values() for ins in block]
    if any(label == first for ins in every if ins.op != "phi" for label in ins.labels):
        return []
    homes, counts = [], {}
    for ins in function.blocks[first]:
        if ins.op != "alloca" or len(ins.args) != 1 or ins.type[1]:
            continue
        size = module.measure(ins.args[0][0])[0]
        home = Home(ins, f"{size}_{counts.get(size, 0)}")
        if settles(home, every):
            counts[size] = counts.get(size, 0) + 1
            homes.append(home)
    return homes


def housed(module: Module, function: Function) -> Function:
    """The function with the memories in its accesses. Its structures are parts, and what can be variables is."""
    blocks = function.blocks
    for home in found(module, function):
        blocks = {label: [new for ins in block for new in home.each(ins)] for label, block in blocks.items()}
    return Function(function.type, function.params, blocks, function.file)
