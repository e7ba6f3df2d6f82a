"""Translates a function of LLVM IR into a flow graph: its blocks by name, the entry first."""

from dataclasses import dataclass, field

from calls import MEMORY, Calls
from ir import Ins, Unread, located
from names import live
from terms import fresh, plain, relation
from values import type_word

CALLS = {"call", "cmpxchg", "atomicrmw", "fence", "va_arg"}


@dataclass
class Block:
    """A statement has the terms of the names that it sets together; the empty name asserts its term. A jump is its word, its
    terms and its targets; the last term of a return is memory."""
    stmts: list = field(default_factory=list)
    jump: tuple = ("abort", [], [])
    cut: bool = False


class Builder(Calls):
    def build(self) -> dict:
        self.blocks = {}
        self.labels = {label: self.add(plain(label)) for label in self.code}
        for label, name in self.labels.items():
            self.label, self.block = label, self.blocks[name]
            for ins in self.code[label]:
                self.text, self.line = ins.text, ins.line
                with located(ins.text, ins.line, self.function.file):
                    self.emit(ins)
        starts = {own for name, own in self.names.items() if name.startswith('undef"')}.union(self.params, ["m"])
        for name in live(self.blocks)[next(iter(self.blocks))][1] - starts:
            raise Unread(f"{name} is read before it is set", file=self.function.file)
        return self.blocks

    def add(self, name: str, *parts) -> str:
        name = fresh(name, self.blocks)
        self.blocks[name] = Block(*parts)
        return name

    def pick(self, name: str, cond: str, left, right) -> None:
        """Sets a variable to one of two values."""
        self.picks += 1
        after = self.add(f"{name}_set")
        sides = [self.add(f"{name}_{word}", [{name: term}], ("goto", [], [after])) for word, term in (("t", left), ("f", right))]
        self.block.jump, self.block = ("if", [cond], sides), self.blocks[after]

    def emit(self, ins: Ins) -> None:
        op, args, kind = ins.op, ins.args, self.kind(ins)
        if op in ("br", "switch", "ret"):
            self.jump(ins)
        elif ins.word == "llvm.assume":
            cond = self.value(args[0])  # which may begin a block
            self.block.stmts.append({"": cond})
        elif op in ("invoke", "landingpad", "resume"):
            getattr(self, op)(ins)
        elif op == "home":
            self.forget(ins)
        elif ins.mode or op in CALLS:
            if kind != "pure":
                self.call(ins)
        elif op in ("load", "store", "alloca", "slot"):
            getattr(self, op)(ins)
        elif op != "phi" and kind == "fixed":
            sides = args[1:] or [(ins.type, ("int", 1 if op == "zext" else -1)), (ins.type, ("int", 0))]
            cond, left, right = self.value(args[0]), *map(self.value, sides)
            self.pick(self.var(ins.name, ins.type), cond, left, right)
        elif self.options.strict:
            self.divide(ins)
            self.promise(ins)

    def store(self, ins: Ins) -> None:
        value, address = ins.args
        name = f"store_{self.place(value[0], address[0])}"
        home = self.home(ins.word)
        self.assign(ins, "", [("mem", home), self.argument(address), self.argument(value)], name, home)

    def load(self, ins: Ins) -> None:
        place, address = self.place(ins.type, ins.args[0][0]), self.argument(ins.args[0])
        if self.options.loads and not ins.word:
            self.block.stmts.append({"": f"{self.apply(f'valid_{place}', 'u8', MEMORY, address)} != 0"})
        self.assign(ins, f"load_{place}", [("mem", self.home(ins.word)), address])

    def forget(self, ins: Ins) -> None:
        """Local memory with a memory of its own holds nothing that is known."""
        self.block.stmts.append({self.home(ins.mode): self.apply(f"\u02c8local_{ins.word}", "mem")})

    def slot(self, ins: Ins) -> None:
        """A statement of a variable for local memory: its value is kept, or set."""
        term = self.number(ins.args[0])  # which may begin a block
        self.block.stmts.append({self.var(ins.name, ins.type): term})

    def alloca(self, ins: Ins) -> None:
        name = f"alloca\u02c8{len(ins.args)}" + f"\u02c8{ins.type[1]}" * (ins.type[1] != 0)
        terms = [("u64", self.module.measure(ins.args[0][0])[0]), *map(self.argument, ins.args[1:]), MEMORY]
        self.assign(ins, f"{name}_value", terms, f"{name}_memory")

    def place(self, type: tuple, address: tuple) -> str:
        """The word of an access: the bits or the type of the value, and the address space."""
        return type_word(type, self.layout) + f"\u02c8{address[1]}" * (address[1] != 0)

    def divide(self, ins: Ins) -> None:
        """Asserts that a division is defined: its divisor is not 0 and, with sign, it does not overflow."""
        if ins.op not in ("udiv", "urem", "sdiv", "srem"):
            return
        (_, left), (sort, right) = map(self.argument, ins.args)
        size = self.size(ins.type)
        if not size:
            self.block.stmts.append({"": f"{self.apply(f'{ins.op}_fits_{self.word(ins.type)}', 'u8', (sort, left), (sort, right))} != 0"})
            return
        if not isinstance(right, int) or right == 0:
            self.block.stmts.append({"": relation("!=", right, 0, size)})
        if ins.op[0] == "s" and (not isinstance(right, int) or right == 2 ** size - 1):
            self.block.stmts.append({"": f"{self.apply(f'{ins.op}_fits_{size}', 'u8', (sort, left), (sort, right))} != 0"})

    def promise(self, ins: Ins) -> None:
        """Asserts what the flags of an instruction promise, as a function of its operands and its result."""
        for flag in sorted(ins.flags & {"nuw", "nsw", "exact", "inbounds"}):
            args = ins.args[1:2] if ins.op == "getelementptr" else ins.args
            terms = [*map(self.argument, args), (self.sort(ins.type), self.number((ins.type, ("%", ins.name))))]
            self.block.stmts.append({"": f"{self.apply(f'{ins.op}_{flag}_{self.word(ins.type)}', 'u8', *terms)} != 0"})

    def jump(self, ins: Ins) -> None:
        """Ends the block; a switch is a chain of choices."""
        if ins.op == "ret":
            terms = [self.number(pair) for pair in ins.args]
            self.block.jump = "return", terms + ["m"], []
            return
        conds, labels = [self.value(pair) for pair in ins.args], ins.labels[::-1]
        if ins.op == "switch":
            value, *cases = map(self.number, ins.args)
            conds = [f"{value} == {case}" for case in cases]
            labels = ins.labels
        for cond, label in zip(conds, labels[1:]):
            edge, rest = self.add(f"{self.labels[self.label]}_{self.labels[label]}"), self.add(f"{self.labels[self.label]}_else")
            self.block.jump, self.block = ("if", [cond], [edge, rest]), self.blocks[edge]
            self.leave(label)
            self.block = self.blocks[rest]
        self.leave(labels[0])

    def leave(self, label: str) -> None:
        """Ends the block with an edge: the phis of the target are set together."""
        stmt = {}
        for phi in (ins for ins in self.code[label] if ins.op == "phi" and self.kind(ins) == "fixed"):
            self.text = phi.text
            stmt[self.var(phi.name, phi.type)] = self.number(phi.args[phi.labels.index(self.label)])
        self.block.stmts.append(stmt)
        self.block.jump = "goto", [], [self.labels[label]]
