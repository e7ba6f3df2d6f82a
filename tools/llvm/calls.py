"""Calls of a function of LLVM IR, and accesses that are like calls, as statements and branches of flow graphs."""

import effects
from ir import BIT, Ins
from operations import Operations
from values import call_name

MEMORY = "mem", "m"


class Calls(Operations):
    """What a call returns and what it does to memory are functions of its arguments and of memory. One that may not return is a
    place at which the run may end: it returns the arguments and the memory before the call, as a memory that nothing else is."""

    def assign(self, ins: Ins, name: str, args: list, memory: str = "", home: str = "m") -> None:
        """Sets the results of an instruction and memory, where it has or writes them, to functions of arguments."""
        stmt = {}
        for at, (part, type) in enumerate(ins.results):
            stmt[self.var(part, type)] = self.apply(f"{name}_{at}", self.sort(type), *args)
        if ins.name and not ins.results and ins.type[0] not in ("struct", "array", "named"):
            stmt[self.var(ins.name, ins.type)] = self.apply(name, self.sort(ins.type), *args)
        if memory:
            stmt[home] = self.apply(memory, "mem", *args)
        self.block.stmts.append(stmt)

    def call(self, ins: Ins) -> None:
        """A call, or an access that is volatile or atomic."""
        words = self.module.attributes.get(ins.word, "")
        effects.check(ins, words)
        name, effect = call_name(ins, self.layout), "writes"
        if ins.op in ("call", "invoke"):
            effect = self.module.effect(ins.word, ins.site)
        args = list(map(self.argument, ins.args)) + [MEMORY] * (effect != "none")
        if effect == "writes" and not self.options.returns_only and not effects.returns(ins, words):
            never = ins.op == "call" and ("noreturn" in words.split() or "noreturn" in ins.site)
            self.leave_run(name, args, never)
        self.assign(ins, f"{name}_value", args, f"{name}_memory" if effect == "writes" else "")

    def leave_run(self, name: str, args: list, never: bool = False, words: tuple = ("leaves", "left")) -> None:
        """A branch to the end of the run, or, for a call that never returns, this end."""
        end, after = self.add(f"{self.own_label()}_end"), self.add(f"{self.own_label()}_on")
        self.blocks[end].jump = "return", [*map(self.nothing, self.function.type), self.apply(f"{name}_{words[1]}", "mem", *args)], []
        if never:
            self.block.jump = "goto", [], [end]
        else:
            self.block.jump = "if", [f"{self.apply(f'{name}_{words[0]}', 'u8', *args)} != 0"], [end, after]
        self.block = self.blocks[after]

    def nothing(self, type: tuple):
        """A result of a run that does not return: 0, or a value of an opaque sort."""
        return 0 if self.size(type) else self.apply(f"\u02c8nothing_{self.word(type)}", self.sort(type))

    def invoke(self, ins: Ins) -> None:
        """A call that may unwind: a function of its arguments and of memory says whether it does."""
        words = self.module.attributes.get(ins.word, "")
        if "nounwind" in words.split():
            self.call(ins)
        else:
            effects.check(ins, words)
            name, args = call_name(ins, self.layout), [*map(self.argument, ins.args), MEMORY]
            if not self.options.returns_only and "willreturn" not in words.split():
                self.leave_run(name, args, words=("ends", "ended"))
            unwound, returned = (self.add(f"{self.own_label()}_{word}") for word in ("unwound", "returned"))
            self.block.jump = "if", [f"{self.apply(f'{name}_unwinds', 'u8', *args)} != 0"], [unwound, returned]
            self.block = self.blocks[unwound]
            self.block.stmts.append({"m": self.apply(f"{name}_unwound", "mem", *args)})
            self.leave(ins.labels[1])
            self.block = self.blocks[returned]
            self.assign(ins, f"{name}_value", args, f"{name}_memory")
        self.leave(ins.labels[0])

    def landingpad(self, ins: Ins) -> None:
        """The parts of what is caught are functions of memory, which holds it, with the clauses in their names."""
        self.assign(ins, call_name(ins, self.layout), [MEMORY])

    def resume(self, ins: Ins) -> None:
        """The run ends by unwinding."""
        args = [*map(self.argument, ins.args), MEMORY]
        if self.options.returns_only:
            self.block.jump = "abort", [], []
        else:
            self.leave_run("\u02c8resume" + "".join(f"_{self.word(type)}" for type, _ in ins.args), args, True)

    def own_label(self) -> str:
        return self.labels[self.label]
