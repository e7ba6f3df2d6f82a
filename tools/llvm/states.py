"""Random states in which both sides of a function are run."""

import random
import re

import promises
from interpreter import Interpreter
from ir import BIT, Function
from memory import ARENA, MIDDLE, Memory, Place
from module import Module
from outside import FLOATS
from scalars import encoded

PARAMS = 1 << 12  # the first arena of what parameters point to
STYLES = "zero", "pointer", "small", "number", "pair", "text", "bits", "bytes"
USUAL = [0, 1, 2, 3, 7, 8, 10, 16, 31, 32, 48, 57, 64, 97, 127, 128, 255, 256, 65535, 2 ** 31 - 1, 2 ** 31, 2 ** 32 - 1, 2 ** 63]


def constants(texts: list) -> list:
    """The numbers of some texts with their neighbours, and usual ones."""
    found = {int(one) for text in texts for one in re.findall(r"(?<![%@\w.!-])-?\d+\b", text) if len(one) < 20}
    return sorted({near % 2 ** 64 for one in found for near in (one - 1, one, one + 1, -one)} | set(USUAL))


class State:
    """The values of the parameters, and the kinds of words in memory."""

    def __init__(self, module: Module, function: Function, head: str, is_apart: bool, numbers: list, seed: int):
        self.random, self.seed, self.numbers = random.Random(seed), seed + 1, numbers
        self.shape, self.is_apart, self.places = Interpreter(module, function, []), is_apart, {}
        self.styles = self.random.choices(STYLES, k=self.random.choice([1, 2, 3, 8]))
        self.small = self.random.random() < 0.6
        texts = [*promises.parts(head)[1], *[""] * len(function.params)]
        self.args = [self.value(type, text, at) for at, ((_, type), text) in enumerate(zip(function.params, texts))]

    def memory(self) -> Memory:
        found = Memory(self.seed, self.styles, self.numbers)
        found.places = {at: Place(is_shared=False, is_compared=True, origin=at) for at in self.places}
        return found

    def value(self, type: tuple, text: str, at: int):
        fields = self.shape.fields(type)
        if fields is not None:
            return [self.value(field, "", at) for field in fields]
        if type[0] == "vector":
            return [self.value(type[2], "", at) for _ in range(int(type[1]))]
        if type[0] == "ptr":
            return self.pointer(text, at)
        if type[0] == "float":
            return encoded(self.random.choice(FLOATS), type[1])
        return self.random.randrange(2) if type == BIT else self.number(self.shape.layout.bits(type), text)

    def number(self, bits: int, text: str) -> int:
        """A number: small, a constant, near the greatest number with sign, or any."""
        for _ in range(20):
            chance = self.random
            pool = chance.randrange(6) if self.small else chance.choice(
                [chance.choice(self.numbers), chance.choice(self.numbers), 2 ** (bits - 1) - chance.randrange(1, 4), chance.getrandbits(bits)])
            found = (pool if self.random.random() < 0.8 else -pool) % 2 ** bits
            if promises.value_holds(text, found, bits):
                return found
        return 0

    def pointer(self, text: str, at: int) -> int:
        """A pointer to an arena of its own, or near that of another parameter where none promises to be apart."""
        offset = self.random.choice([0, 0, 0, 0, 1, 4, 8, 24])
        arena = PARAMS + at
        if not self.is_apart and at and self.random.random() < 0.3:
            arena = PARAMS + self.random.randrange(at)
        if re.search(r"\bnoalias\b", text):
            self.places[arena] = True
        found = 0 if self.random.random() < 0.05 else arena * ARENA + MIDDLE + offset
        return found if promises.value_holds(text, found, 64) else arena * ARENA + MIDDLE
