"""Values of a function of LLVM IR as expressions and conditions of flow texts."""

from dataclasses import dataclass, field
from typing import NamedTuple

from homes import housed
from intrinsics import expanded
from ir import BIT, Function, Ins, Unread
from layouts import Layout
from module import Module
from parts import scalar
from slots import slotted
from terms import exact, plain

WIDTHS = 8, 16, 32, 64


class Options(NamedTuple):
    """What is asserted and compared: the promises of flags, that addresses of loads are valid (`strict` or None), whether only
    runs that return are compared, and whether the second function may do anything where the first does not return."""
    strict: bool = False
    loads: str = None
    returns_only: bool = False
    refine: bool = False


@dataclass
class Scope:
    """What both sides share: the sorts of variables, and for functions the sorts of results and arguments."""
    sorts: dict = field(default_factory=lambda: {"m": "mem"})
    functions: dict = field(default_factory=dict)


def type_word(type: tuple, layout: Layout) -> str:
    """A type in the name of a function: the bits of a number, else a word."""
    if type[0] in ("int", "float") or type[0] == "ptr" and layout.bits(type) in WIDTHS:
        return str(layout.bits(type))
    if type[0] == "vector":
        letter = {"int": "i", "float": "f", "ptr": f"p{type[2][1]}_"}.get(type[2][0], "")
        return f"v{type[1]}{letter}{type_word(type[2], layout)}"
    if type[0] in ("opaque", "ptr"):
        return type[1] if type[0] == "opaque" else f"p{type[1]}"
    raise Unread(f"a value of type {type[0]}")


def is_marked(type: tuple) -> bool:
    return type[0] != "ptr" and (type[0] != "int" or type[1] not in WIDTHS)


def call_name(ins: Ins, layout: Layout) -> str:
    """The name of the function that stands for a call. One with arguments of its own sorts has them in its name; so has one
    with floating point, which is passed in other registers than numbers of its width, or with a bit, which is no number of 8
    bits. One of a function with variable arguments, which is called in another way, has a mark. An access has its words."""
    types = [type for type, _ in ins.args] + ([ins.type] if ins.type[0] not in ("void", "struct", "array", "named") and
                                              (is_marked(ins.type) or ins.op not in ("call", "invoke")) else [])
    types += [type for _, type in ins.results]
    widths = "\u02c8" + "v" * ins.signature + "".join(f"_{'f' * (type[0] == 'float')}{type_word(type, layout)}" for type in types)
    if ins.op not in ("call", "invoke"):
        spaces = [f"\u02c8{type[1]}" for type, _ in ins.args if type[0] == "ptr" and type[1]]
        return exact(f"{ins.op} {ins.mode} {ins.word}") + widths + "".join(spaces)
    typed = ins.signature or not ins.word or ins.shape or ins.results or any(map(is_marked, types))
    return (exact(ins.word) if ins.word else "\u02c8call") + widths * bool(typed) + exact(f" {ins.shape}") * bool(ins.shape)


class Values:
    """The values of a function. That of a bit is a condition; a variable for one has 8 bits. A number of a width that no sort
    has is one of the next sort, below 2 to its width."""

    def __init__(self, module: Module, function: Function, scope: Scope, params: list = (), options: Options = Options()):
        """`params` are names of parameters; where there are none they get their own."""
        self.module, self.scope, self.options = module, scope, options
        self.layout, self.text, self.line = module.layout, "", 0
        self.function = function = expanded(housed(module, slotted(module, scalar(module, function))))
        self.names = {name: own for (name, _), own in zip(function.params, params)}
        self.own = set(self.names.values())
        self.bits = {own for (_, type), own in zip(function.params, params) if type == BIT}
        every = [ins for block in function.blocks.values() for ins in block]
        self.code, self.defs = function.blocks, {ins.name: ins for ins in every if ins.name}
        self.defs |= {name: ins for ins in every for name, _ in ins.results}
        self.known, self.inner, self.picks = {}, {}, 0
        self.params = [self.var(name, type) for name, type in function.params]

    def size(self, type: tuple) -> int:
        """The bits of a number, 0 if its type is opaque."""
        found = self.layout.bits(type) if type[0] in ("int", "float", "ptr") else 0
        return found if found <= 64 and (type[0] != "ptr" or found in WIDTHS) else 0

    def width(self, type: tuple) -> int:
        """The bits of the sort of a number, 0 if its type is opaque."""
        size = self.size(type)
        return next(width for width in WIDTHS if width >= size) if size else 0

    def word(self, type: tuple) -> str:
        return type_word(type, self.layout)

    def sort(self, type: tuple) -> str:
        width = self.width(type)
        return f"u{width}" if width else f"\u02c8sort_{'i' * (type[0] == 'int')}{self.word(type)}"

    def kind(self, ins: Ins) -> str:
        """Whether a value is kept from where it is set (fixed), read from memory (load), or computed where it is used (pure)."""
        if ins.op == "call":
            found = self.module.effect(ins.word, ins.site)
            return {"none": "fixed" if ins.results else "pure", "reads": "load", "writes": "fixed"}[found]
        if ins.op == "load" or ins.mode:
            return "fixed" if ins.mode else "load"
        chosen = ins.op == "select" and ins.type != BIT and ins.args[0][0] == BIT
        chosen = chosen or ins.op in ("zext", "sext") and ins.args[0][0] == BIT
        fixed = chosen or ins.op in ("alloca", "slot", "cmpxchg", "atomicrmw", "va_arg", "invoke", "landingpad")
        return "fixed" if fixed or ins.op == "phi" and not self.copied(ins) else "pure"

    def copied(self, ins: Ins):
        """The value that an instruction only copies, if it does."""
        same = ins.op == "phi" and ins.args.count(ins.args[0]) == len(ins.args) and ins.args[0][1][0] != "undef"
        number = ins.op == "bitcast" and self.size(ins.type) and self.size(ins.args[0][0]) and BIT not in (ins.type, ins.args[0][0])
        return ins.args[0] if same or ins.op == "freeze" or number or ins.op == "bitcast" and ins.type == ins.args[0][0] else None

    def var(self, name: str, type: tuple) -> str:
        """The variable for a value, or for a name with a quotation mark, which no value has."""
        if name not in self.names:
            own, sort = plain(name), self.sort(type)
            while own in self.own or self.scope.sorts.get(own, sort) != sort:
                own += "_"
            self.names[name] = own
            self.own.add(own)
            self.scope.sorts[own] = sort
            self.bits |= {own} if type == BIT else set()
        return self.names[name]

    def home(self, word: str) -> str:
        """The variable for the memory that an access uses: that of all, or one of its own."""
        if not word:
            return "m"
        if (own := self.names.get(f'memory"{word}')) is None:
            own = "local"
            while own in self.own or self.scope.sorts.get(own, "mem") != "mem":
                own += "_"
            self.names[f'memory"{word}'] = own
            self.own.add(own)
            self.scope.sorts[own] = "mem"
        return own

    def apply(self, name: str, sort: str, *args: tuple) -> str:
        """An application to pairs (sort, expression)."""
        signature = sort, [pair[0] for pair in args]
        if len(args) > 16:
            raise Unread("more than 16 arguments, memory included")
        if self.scope.functions.setdefault(name, signature) != signature:
            raise Unread(f"{name} with other arguments than elsewhere")
        return f"{name}({', '.join(str(pair[1]) for pair in args)})"

    def argument(self, pair: tuple) -> tuple:
        return self.sort(pair[0]), self.number(pair)

    def number(self, pair: tuple):
        """A value as an expression; a condition becomes 0 or 1 in a variable of its own."""
        found = self.value(pair)
        if pair[0] != BIT or found in ("true", "false"):
            return found if pair[0] != BIT else int(found == "true")
        own = found.removesuffix(" != 0")
        if own not in self.bits:
            own = self.var(f'{pair[1][1]}"bit' if pair[1][0] == "%" else f'bit"{self.text}"{found}', BIT)
            self.pick(own, found, 1, 0)
        return own

    def value(self, pair: tuple):
        """A value as an expression, or as a condition if it is a bit."""
        type, (kind, what) = pair
        ins = what if kind == "ins" else self.defs.get(what) if kind == "%" else None
        if ins and self.kind(ins) == "pure":
            return self.computed(ins, kind)
        if kind == "ins":
            return self.constant_choice(what)
        if kind == "%":
            if ins is None and what not in self.names:
                raise Unread(f"unknown value {what}")
            own = self.var(what, type)
        elif kind == "undef":
            own = self.var(f'undef"{self.word(type)}"{self.text}', type)
        else:
            return self.constant(type, kind, what)
        return f"{own} != 0" if type == BIT else own

    def computed(self, ins: Ins, kind: str):
        """The value of an instruction, or of a computed constant of the instruction that is read. One that makes no branch is
        known where it is used again."""
        if kind == "%" and ins.name in self.known:
            return self.known[ins.name]
        text, picks = self.text, self.picks
        self.text = ins.text if kind == "%" else text
        try:
            found = self.value(self.copied(ins)) if self.copied(ins) else self.bit(ins) if ins.type == BIT else self.pure(ins)
        except Unread as why:
            raise Unread(why.reason, why.text or self.text, why.line or ins.line, why.file or self.function.file) from why
        self.text = text
        if len(str(found)) > 2000:
            raise Unread("a value whose text has more than 2,000 letters", ins.text, ins.line, self.function.file)
        if kind == "%" and picks == self.picks:
            self.known[ins.name] = found
        return found

    def constant_choice(self, ins: Ins):
        """A computed constant that is one of two by a bit which is known."""
        cond = self.value(ins.args[0]) if ins.op == "select" else ""
        if cond not in ("true", "false"):
            raise Unread(f"constant {ins.op} of a bit")
        return self.value(ins.args[1 if cond == "true" else 2])

    def constant(self, type: tuple, kind: str, what):
        if kind == "int" and self.size(type):
            return ("false", "true")[what % 2] if type == BIT else what % 2 ** self.size(type)
        if kind == "@":
            return self.apply(f"{exact(what)}_address", self.sort(type))
        if kind == "int":
            return self.apply(f"\u02c8int_{self.word(type)}_{what % 2 ** self.layout.bits(type)}", self.sort(type))
        if kind in ("float", "text"):
            return self.apply(f"{exact(what)}\u02c8{self.word(type)}", self.sort(type))
        raise Unread(f"a value of type {type[0]}")
