"""Calls of other functions and intrinsics in a run with the true meaning. What another function returns and leaves in memory is
drawn by chance from its arguments and the memory that it can see, as far as its attributes let it."""

import math
import re

import library
import promises
from ir import BIT, Ins
from memory import ARENA, LOCAL, MIDDLE, Place, drawn, pointer
from scalars import FORMATS, POISON, UNDEFINED, Undefined, Unknown, decoded, encoded, intrinsic, marked
from truth import Ended, Event, Truth

FRESH = 1 << 22  # the first arena of what calls give to their caller alone
FLOATS = 0.0, 1.0, -1.5, 2.0, 0.5, 100.0, -0.0, 3.25
RESTRICTED = re.compile(r"\b(?:argmemonly|inaccessiblememonly|inaccessiblemem_or_argmemonly|writeonly|memory\((?!none\)|read\)))")
COPIES = re.compile(r"llvm\.(expect|ssa\.copy|launder\.invariant\.group|strip\.invariant\.group|annotation)\b")
NOTHING = re.compile(r"llvm\.(prefetch|donothing|sideeffect|var\.annotation|stackrestore|stacksave)\b")
ROUNDED = {"floor": math.floor, "ceil": math.ceil, "trunc": math.trunc}
MOST = 4096  # the bytes that a call may copy


class Outside(Truth):
    def invoke(self, ins: Ins) -> str:
        """A call that does not unwind, which it may."""
        self.env[ins.name] = self.call(ins)
        return ins.labels[0]

    def call(self, ins: Ins):
        if ins.op not in ("call", "invoke"):
            return self.special(ins, [self.value(pair) for pair in ins.args])
        args = [self.value(pair) for pair in ins.args]
        if ins.word.startswith("llvm."):
            return self.intrinsic(ins, args)
        if "metadata" in ins.shape:
            raise Unknown("a call with metadata")
        return self.other(ins, args)

    # Accesses that are volatile or atomic: nobody else writes the memory in this run.

    def special(self, ins: Ins, args: list):
        if "volatile" in ins.mode:
            self.observe(f"{ins.op} {ins.mode} {ins.word}", args)
        if ins.op == "fence":
            return None
        if ins.op == "load":
            return self.load(ins, args[0])
        if ins.op == "store":
            return self.store(ins, *args)
        if ins.op not in ("atomicrmw", "cmpxchg"):
            raise Unknown(ins.op)
        type = ins.args[1][0]
        self.accessed(ins, type, ins.args[0][0], args[0])
        old = self.decoded(type, args[0])
        if marked([old, *args]) or any(map(self.keeps, args[1:])):
            raise Unknown("an atomic operation on what is not defined")
        if ins.op == "cmpxchg":
            self.memory.store(args[0], self.encoded(type, args[2] if old == args[1] else old))
            return [old, int(old == args[1])]
        self.memory.store(args[0], self.encoded(type, self.exchanged(ins.word, old, args[1], self.layout.bits(type))))
        return old

    def exchanged(self, word: str, old: int, value: int, bits: int) -> int:
        """What an atomic operation writes."""
        found = {"xchg": value, "add": old + value, "sub": old - value, "and": old & value, "or": old | value, "xor": old ^ value,
                 "nand": ~(old & value)}.get(word)
        if found is None:
            word = {"max": "smax", "min": "smin"}.get(word, word)
            found = intrinsic(word, [old, value], bits) if word in ("smax", "smin", "umax", "umin") else None
        if found is None:
            raise Unknown(f"atomicrmw {word}")
        return found % 2 ** bits

    def observe(self, name: str, args: list) -> None:
        """An event that changes no memory by itself."""
        if UNDEFINED in args:
            raise Unknown("an undefined value that others see")
        self.events.append(Event(name, tuple(map(self.known, self.flat(args))), (), (), False))

    def known(self, value):
        """A value as others see it: local memory has a number by the order in which they get it."""
        if not self.is_local(value):
            return value
        at = value // ARENA
        number = self.given.setdefault(at, len(self.given) + 1)
        return f"local memory {number}" + f" + {value % ARENA}" * (value % ARENA != 0)

    # Intrinsics

    def intrinsic(self, ins: Ins, args: list):
        word = ins.word
        if word == "llvm.assume":
            return self.assume(ins, args[0])
        if COPIES.match(word):
            return args[0]
        if word.startswith(("llvm.lifetime.start", "llvm.lifetime.end")):
            return self.revived(args[-1])
        if NOTHING.match(word):
            return 0
        found = re.match(r"llvm\.(memcpy|memmove|memset)(?:\.inline)?\.p", word)
        if found:
            return self.copy(found[1], ins, args)
        if word == "llvm.trap":
            self.observe(word, [])
            raise Ended
        return self.computed(ins, args)

    def assume(self, ins: Ins, value) -> None:
        if "bundle" in ins.shape:
            raise Unknown("an assumption with operand bundles")
        if not self.decided(value):
            raise Undefined("an assumption that does not hold")

    def revived(self, address) -> None:
        """Local memory holds nothing before and after its lifetime."""
        place = self.memory.places.get(address // ARENA) if isinstance(address, int) else None
        if not place or not self.is_local(address):
            raise Unknown("a lifetime of memory that is not local")
        place.bytes, place.start = {}, {}

    def copy(self, word: str, ins: Ins, args: list) -> None:
        to, other, size = args[:3]
        if marked([to, size]) or word != "memset" and marked([other]):
            raise Unknown("a copy at an undefined address")
        if ins.args[0][0][1] or size > MOST or word != "memset" and ins.args[1][0][1]:
            raise Unknown("a long copy, or one in another address space")
        params = promises.parts(self.raw(ins))[1]
        if not all(promises.value_holds(text, value, 64) for text, value in zip(params, args[:2 - (word == "memset")])):
            raise Undefined("a copy at an address that is not aligned, or null")
        if args[3:] == [1]:
            self.observe(f"volatile {word}", args[:3])
        if size == 0:
            return
        if word == "memcpy" and to != other and abs(to - other) < size:
            raise Undefined("a copy of memory to a part of itself")
        self.memory.store(to, [other] * size if word == "memset" else self.memory.load(other, size))

    def computed(self, ins: Ins, args: list):
        """An intrinsic on numbers or floating point, or on each part of vectors."""
        found = re.fullmatch(r"llvm\.([\w.]+?)\.(?:v\d+)?([if])(\d+)", ins.word)
        if not found or ins.shape or ins.flags:
            raise Unknown(ins.word)
        word, bits, is_vector = found[1], int(found[3]), isinstance(args[0], list)
        rows = list(zip(*[arg if isinstance(arg, list) else [arg] * len(args[0]) for arg in args])) if is_vector else [args]
        made = [marked(list(row)) or (self.rounded(word, list(row), bits) if found[2] == "f" else intrinsic(word, list(row), bits)) for row in rows]
        if None in made:
            raise Unknown(ins.word)
        fields = self.fields(ins.type)
        made = [[one] * len(fields) if fields and not isinstance(one, list) else one for one in made]
        if not is_vector:
            return made[0]
        return [list(part) for part in zip(*made)] if fields else made

    def rounded(self, word: str, args: list, bits: int):
        """An intrinsic of one number of floating point, or None."""
        if bits not in FORMATS or len(args) != 1:
            return None
        value = decoded(args[0], bits)
        if word == "fabs":
            return args[0] & 2 ** (bits - 1) - 1
        if word == "sqrt":
            return UNDEFINED if math.isnan(value) or value < 0 else encoded(math.sqrt(value), bits)
        if word not in ROUNDED:
            return None
        found = float(ROUNDED[word](value)) if math.isfinite(value) else value
        return encoded(math.copysign(found, value), bits)

    # Other functions

    def other(self, ins: Ins, args: list):
        """A call of a function that is not here."""
        name = ins.word or self.target(args[0])
        head = "" if name.startswith("asm ") else self.module.heads.get(name, "")
        if name in self.names.defined or library.is_known(name):
            raise Unknown(f"a call of {name}, which a pass may know")
        before, params, after = promises.parts(head)
        site, own, tail = promises.parts(self.raw(ins))
        words = f"{self.grouped(after)} {self.grouped(tail)} {' '.join(ins.site)}"
        texts = [f"{first} {second}" for first, second in zip(list(params) + [""] * len(args), list(own) + [""] * len(args))]
        texts = texts if ins.word else ["", *texts]
        if name.startswith("asm ") and "sideeffect" not in name and "memory" not in name:
            words += " readnone"
        seen = tuple(self.seen_by_others(arg) for arg in self.flat(args))
        number = self.happened(name, seen, args, texts, words, ins)
        if re.search(r"\bnoreturn\b", words):
            raise Ended
        back = [arg for arg, text in zip(args, texts) if re.search(r"\breturned\b", text)]
        return back[0] if back else self.result(ins.type, number, before + site)

    def target(self, address) -> str:
        if address is POISON:
            raise Undefined("a call of poison")
        if address is UNDEFINED:
            raise Unknown("a call of an undefined value")
        return self.names.name(address) or f"the function at {address:#x}"

    def grouped(self, text: str) -> str:
        return re.sub(r"#\d+", lambda found: self.module.groups.get(found[0], ""), text)

    def seen_by_others(self, value):
        if value is UNDEFINED:
            raise Unknown("an undefined value as an argument")
        if value is POISON:
            return "poison"
        return self.known(value)

    def happened(self, name: str, seen: tuple, args: list, texts: list, words: str, ins: Ins) -> int:
        """What a call does to memory, and the number from which its results are drawn."""
        if re.search(r"\breadnone\b|\bmemory\(none\)", words):
            return drawn(self.memory.seed, name, seen)
        if RESTRICTED.search(words):
            self.restricted(args)
            number = drawn(self.memory.world, name, seen)
            if not re.search(r"\b(?:readonly|argmemonly)\b", words):
                self.events.append(Event(name, seen, (), (), self.may_leave(words)))
            return number
        changed = tuple(sorted(self.memory.changed().items()))
        if UNDEFINED in dict(changed).values():
            raise Unknown("undefined bytes in memory that others see")
        number = drawn(self.memory.world, name, seen, [(at, byte if isinstance(byte, int) else "poison") for at, byte in changed])
        if not re.search(r"\breadonly\b|\bmemory\(read\)", words):
            given = self.given_to(args, texts)
            content = tuple((self.given.get(at, at), tuple(sorted((one % ARENA, byte) for one, byte in place.bytes.items())))
                            for at, place, reads, _ in given if reads)
            self.events.append(Event(name, seen, changed, content, self.may_leave(words)))
            self.memory.called(number, [place for _, place, _, writes in given if writes])
        return number

    def restricted(self, args: list) -> None:
        """A call that may only write what it is given: one that is given local memory is not known."""
        if any(self.keeps(arg) for arg in self.flat(args)):
            raise Unknown("a call that may only write some memory")

    def may_leave(self, words: str) -> bool:
        return not {"willreturn", "nounwind"} <= set(re.findall(r"\w+", words))

    def given_to(self, args: list, texts: list) -> list:
        """The objects that are not shared which a call can reach: their arenas, whether it reads and writes them. One that is
        given without the promise that nobody keeps its address is shared by all later calls."""
        found = [(at, self.memory.places[at], True, True) for at in self.escaped]
        for arg, text in zip(args, texts):
            for value in self.flat(arg):
                if self.keeps(value) and value // ARENA not in self.escaped:
                    self.enter(value // ARENA)
                    found.append((value // ARENA, self.memory.places[value // ARENA], not re.search(r"\b(writeonly|readnone)\b", text),
                                  not re.search(r"\b(readonly|readnone)\b", text)))
                    if not re.search(r"\bnocapture\b|\bcaptures\(none\)", text):
                        self.escaped.append(value // ARENA)
        return found

    def enter(self, at: int) -> None:
        """Local memory has content by chance as if it were at a place of its number."""
        place = self.memory.places[at]
        place.origin = LOCAL // ARENA * 2 + self.given.get(at, 0) if at >= LOCAL // ARENA else at

    def result(self, type: tuple, number: int, text: str = ""):
        """A value of a type by chance."""
        fields = self.fields(type) if type != ("void",) else []
        if fields is not None:
            return [self.result(field, drawn(number, at)) for at, field in enumerate(fields)]
        if type[0] == "vector":
            return [self.result(type[2], drawn(number, at)) for at in range(int(type[1]))] if type[1].isdigit() else UNDEFINED
        if type[0] == "opaque":
            return UNDEFINED
        if type[0] == "float":
            return encoded(FLOATS[number % len(FLOATS)], type[1])
        if type[0] == "ptr":
            return self.pointed(number, text)
        if type == BIT:
            return number % 2
        style = ("zero", "small", "number", "number", "bits")[number % 5]
        found = self.memory.drawn_word(style, number // 8) % 2 ** self.layout.bits(type)
        return found if promises.value_holds(text, found, self.layout.bits(type)) else POISON

    def pointed(self, number: int, text: str) -> int:
        """A pointer by chance that is what the text promises."""
        if re.search(r"\bnoalias\b", text):
            at = FRESH - number % (1 << 20)
            self.memory.places[at] = Place(is_shared=False, is_compared=True, start={}, origin=at)
            return at * ARENA + MIDDLE
        found = pointer(number)
        return found if promises.value_holds(text, found, 64) else pointer(number | 1)
