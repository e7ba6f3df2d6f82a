"""The true meaning of a function of LLVM IR: operations as the LLVM Language Reference says, memory of bytes, and calls of other
functions by chance, whose results depend on what they are given and on memory.

What a run does that others see is a list of events: its calls that may write memory, and its accesses that are volatile. Where
the meaning is not here, or is more than one, the run stops as unknown."""

import re
from dataclasses import dataclass, field, replace
from typing import NamedTuple, Optional

import promises
from interpreter import Interpreter
from ir import BIT, Function, Ins, Unread
from lines import Line, NAME, unquoted
from memory import ARENA, LOCAL, Memory, Place
from module import Module
from scalars import POISON, UNDEFINED, Undefined, Unknown, decoded, encoded, marked, scalar

GLOBAL = 1 << 13  # the first arena of globals


class Ended(Exception):
    """The run ends at a call that never returns."""


class Event(NamedTuple):
    """What others see of a run: a call or access with its arguments, the changed bytes of memory before it, the local memory
    that it is given, and whether it may not return."""
    name: str
    args: tuple
    memory: tuple
    local: tuple
    may_leave: bool


@dataclass
class Outcome:
    """How a run ended: `returned`, `ended`, `undefined`, `unknown` or `more`, with the values, events and bytes."""
    kind: str
    events: list
    values: list = field(default_factory=list)
    memory: dict = field(default_factory=dict)
    why: str = ""


class Names:
    """The addresses of globals and functions, the same ones on both sides, and the functions that have code in some module."""

    def __init__(self, defined: frozenset = frozenset()):
        self.numbers, self.defined, self.known = {}, defined, {}

    def address(self, name: str) -> int:
        return (GLOBAL + self.numbers.setdefault(name, len(self.numbers))) * ARENA

    def name(self, address: int) -> Optional[str]:
        at, offset = divmod(address, ARENA)
        return next((name for name, number in self.numbers.items() if number == at - GLOBAL), None) if not offset else None


class Truth(Interpreter):
    """A run of a function. In a run of the first side what breaks a promise of the text is unknown."""

    def __init__(self, module: Module, function: Function, head: str, args: list, memory: Memory, names: Names, steps: int):
        super().__init__(module, function, args)
        self.memory, self.names, self.left, self.head = memory, names, steps, head
        self.escaped = []
        self.events, self.locals, self.given, self.tags, self.order = [], 0, {}, {}, "big" if module.datalayout[:1] == "E" else "little"

    def run(self, turns: int) -> Outcome:
        try:
            values = self.blocks(turns)
            if values == "more":
                return Outcome("more", self.events)
            return Outcome("returned", self.events, values, self.memory.changed())
        except Ended:
            return Outcome("ended", self.events)
        except Undefined as why:
            return Outcome("undefined", self.events, why=str(why))
        except (Unknown, Unread, RecursionError, ArithmeticError, LookupError, TypeError, ValueError) as why:  # as of parts of poison
            return Outcome("unknown", self.events, why=str(why))

    def returned(self, values: list) -> list:
        text = promises.parts(self.head)[0]
        values = self.flat(values)
        return [UNDEFINED if self.is_local(value) else value if promises.value_holds(text, value, 64) else POISON for value in values]

    def is_local(self, value) -> bool:
        return isinstance(value, int) and LOCAL <= value < LOCAL * 2

    def raw(self, ins: Ins) -> str:
        """The line of an instruction with what the reader drops."""
        line = self.module.raw[ins.line - 1] if 0 < ins.line <= len(self.module.raw) else ""
        return line if ins.op in line else ""

    def step(self, ins: Ins):
        self.left -= 1
        if self.left < 0:
            raise Unknown("too many steps")
        return super().step(ins)

    def decided(self, value) -> bool:
        if value is POISON:
            raise Undefined("a branch on poison")
        if value is UNDEFINED:
            raise Unknown("a branch on an undefined value")
        return bool(value)

    def unreachable(self, ins: Ins) -> None:
        raise Undefined("unreachable")

    def resume(self, ins: Ins) -> None:
        raise Unknown("an exception")

    landingpad = resume

    # Constants

    def constant(self, type: tuple, kind: str, what):
        if type[0] == "vector":
            return self.vector(type, kind, what)
        if kind == "undef":
            return POISON if what == "poison" else UNDEFINED
        if type[0] == "opaque":
            raise Unknown("a number of another floating point")
        if kind == "float":
            return encoded(float(what), type[1]) if what[:2] != "0x" else self.hexadecimal(what, type[1])
        if kind in ("int", "zero"):
            return (what if kind == "int" else 0) % 2 ** self.layout.bits(type)
        if kind == "@":
            return self.symbol(what)
        raise Unknown(f"constant {what}")

    def hexadecimal(self, text: str, bits: int):
        """A constant of 16 bits has its own digits; one of 32 bits is written with those of 64."""
        if text[:3] in ("0xH", "0xR"):
            return int(text[3:], 16)
        number = int(text, 16)
        return number if bits == 64 else encoded(decoded(number, 64), bits)

    def vector(self, type: tuple, kind: str, what) -> list:
        if not type[1].isdigit():
            raise Unknown("a scalable vector")
        if kind == "text" and what[:1] == "<":
            line, found = Line(what), []
            while line.pop() in "<," and len(found) < int(type[1]):
                found.append(self.value(line.typed()))
            return found
        if kind == "text" and what != "zeroinitializer":
            raise Unknown(f"constant {what}")
        return [self.constant(type[2], "undef" if kind == "undef" else "int" if type[2][0] != "float" else "float",
                              what if kind == "undef" else 0 if type[2][0] != "float" else "0.0")] * int(type[1])

    def symbol(self, name: str) -> int:
        """The address of a global, whose object is made where it is met first."""
        address = self.names.address(name)
        if address // ARENA not in self.memory.places:
            key = id(self.module), name
            if key not in self.names.known:
                place = self.names.known[key] = self.memory.places[address // ARENA] = Place(origin=address // ARENA)
                self.define(name, place)
            self.memory.places[address // ARENA] = replace(self.names.known[key], bytes={})
        return address

    def define(self, name: str, place: Place) -> None:
        """Reads the definition of a global: its size, and its content where the module alone decides it."""
        lines = [line for line in self.module.raw if line.startswith("@") and unquoted(line[1:].split(" = ")[0]) == name]
        found = re.match(rf"@{NAME} = ((?:[\w()\"]+ )*?)(global|constant) (.*)", lines[0]) if lines else None
        if not found:
            place.size = 1 if name in self.module.heads else place.size
            return
        line = Line(found[3])
        type = line.type()
        place.size = self.module.measure(type)[0] or place.size
        is_here = not re.search(r"\b(external|extern_weak|available_externally)\b", found[1])
        place.is_constant = found[2] == "constant"
        if is_here and (place.is_constant or re.search(r"\b(internal|private)\b", found[1])):
            place.is_shared, place.start = False, {}
            value = self.value((type, line.value(type)))
            place.start.update(enumerate(self.encoded(type, value)))

    # Memory

    def encoded(self, type: tuple, value) -> list:
        """The bytes of a value."""
        fields = self.fields(type)
        if fields is not None:
            found = [UNDEFINED] * self.module.measure(type)[0]
            for at, field_type, one in zip(self.places(type), fields, value):
                part = self.encoded(field_type, one)
                found[at:at + len(part)] = part
            return found
        bits = self.layout.bits(type)
        if type[0] == "vector":
            if self.layout.bits(type[2]) % 8:
                raise Unknown("bits of a vector in memory")
            return [byte for one in value for byte in self.encoded(type[2], one)]
        size = -(-bits // 8)
        return list(value.to_bytes(size, self.order)) if isinstance(value, int) else [value] * size

    def decoded(self, type: tuple, address: int):
        fields = self.fields(type)
        if fields is not None:
            return [self.decoded(field_type, address + at) for field_type, at in zip(fields, self.places(type))]
        bits = self.layout.bits(type)
        if type[0] == "vector":
            step = self.layout.bits(type[2]) // 8
            if self.layout.bits(type[2]) % 8:
                raise Unknown("bits of a vector in memory")
            return [self.decoded(type[2], address + step * at) for at in range(int(type[1]))]
        if type[0] == "opaque":
            raise Unknown("memory of another floating point")
        found = self.memory.load(address, -(-bits // 8))
        mark = marked(found)
        value = mark or int.from_bytes(found, self.order)
        return UNDEFINED if not mark and value >> bits else value

    def accessed(self, ins: Ins, type: tuple, place: tuple, address) -> None:
        """Checks an access: its address, its alignment and what its metadata says of others."""
        if address is POISON:
            raise Undefined("an access at poison")
        line, said = self.raw(ins), promises.metadata(self.raw(ins))
        if address is UNDEFINED or place[1] or said.keys() - promises.HARMLESS:
            raise Unknown("an access in another address space, at an undefined address or with metadata")
        align = promises.ALIGN.search(line)
        if address % (int(align[1]) if align else self.module.measure(type)[1]):
            raise Undefined(f"an access at {address:#x}, which is not aligned")
        self.memory.place(address, self.module.measure(type)[0] if self.fields(type) else -(-self.layout.bits(type) // 8))
        tag = said.get("tbaa")
        for byte in range(address, address + self.module.measure(type)[0] if tag else address):
            if self.tags.setdefault(byte, tag) != tag:
                raise Unknown("accesses of one byte with two types")

    def load(self, ins: Ins, address):
        self.accessed(ins, ins.type, ins.args[0][0], address)
        found = self.decoded(ins.type, address)
        if isinstance(found, list):
            return found
        holds = promises.access_holds(self.raw(ins), self.module.nodes, found, self.layout.bits(ins.type))
        return found if holds else POISON

    def store(self, ins: Ins, value, address) -> None:
        self.accessed(ins, ins.args[0][0], ins.args[1][0], address)
        if any(self.keeps(one) for one in self.flat(value)):
            raise Unknown("the address of local memory in memory")
        self.memory.store(address, self.encoded(ins.args[0][0], value))

    def keeps(self, value) -> bool:
        """Whether a value is an address of memory that others may not know."""
        place = self.memory.places.get(value // ARENA) if isinstance(value, int) and value >= ARENA else None
        return self.is_local(value) or place is not None and place.is_compared and not place.is_shared

    def alloca(self, ins: Ins) -> int:
        count = [self.value(pair) for pair in ins.args[1:]] or [1]
        size = self.module.measure(ins.args[0][0])[0]
        if not isinstance(count[0], int) or count[0] * size > 1 << 16 or ins.type[1]:
            raise Unknown("local memory of a size that is not known, or is large")
        self.locals += 1
        self.memory.places[LOCAL // ARENA + self.locals] = Place(size * count[0], False, start={})
        return LOCAL + self.locals * ARENA

    def moved(self, ins: Ins, base, offset: int):
        if not isinstance(base, int):
            return base
        found = (base + offset) % 2 ** self.layout.bits(ins.args[1][0])
        return UNDEFINED if "inbounds" in ins.flags and found // ARENA != base // ARENA else found

    # Operations

    def operation(self, ins: Ins, values: list):
        op, old = ins.op, ins.args[0][0]
        if op == "freeze":
            if marked(self.flat(values)):
                raise Unknown("a frozen value")
            return values[0]
        if op == "select" and old == BIT:
            return values[0] if not isinstance(values[0], int) else values[1 if values[0] else 2]
        if op in ("insertelement", "extractelement", "shufflevector"):
            return self.elements(op, values)
        if op == "bitcast" and "vector" in (old[0], ins.type[0]):
            return self.recast(old, ins.type, values[0])
        if old[0] == "vector" and all(isinstance(value, list) for value in values):
            return [self.single(ins, old[2], ins.type[2], list(one)) for one in zip(*values)]
        return self.single(ins, old, ins.type, values)

    def single(self, ins: Ins, old: tuple, new: tuple, values: list):
        """An operation of numbers."""
        if ins.op == "select":
            return values[0] if not isinstance(values[0], int) else values[1 if values[0] else 2]
        local = [value for value in values if self.is_local(value)] if "ptr" in (old[0], new[0]) else []
        if local and (ins.op in ("ptrtoint", "addrspacecast") or ins.op == "icmp" and ins.word not in ("eq", "ne") and
                      marked(values) is None and values[0] // ARENA != values[1] // ARENA) or ins.op == "addrspacecast":
            raise Unknown("what the address of local memory is")
        bits = tuple(self.layout.bits(type) for type in (old, new))
        return scalar(ins, (old[0], new[0]), values, bits)

    def elements(self, op: str, values: list):
        """Parts of vectors; a part that no vector has is poison."""
        if op == "shufflevector":
            both = values[0] + values[1]
            return [both[at] if isinstance(at, int) else POISON for at in values[2]]
        at = values[-1]
        if not isinstance(at, int) or at >= len(values[0]):
            return POISON if op == "extractelement" else [POISON] * len(values[0])
        return values[0][at] if op == "extractelement" else values[0][:at] + [values[1]] + values[0][at + 1:]

    def recast(self, old: tuple, new: tuple, value):
        """The same bits as another type, by way of memory."""
        found = self.encoded(old, value)
        if marked(found):
            return marked(found) if new[0] != "vector" else [marked(found)] * int(new[1])
        width = self.layout.bits(new[2] if new[0] == "vector" else new) // 8
        parts = [int.from_bytes(found[at:at + width], self.order) for at in range(0, len(found), width)]
        return parts if new[0] == "vector" else parts[0]
