"""Memory of bytes for runs of functions: arenas of 2^32 addresses, each with an object. What nothing has written yet is drawn
by chance for each word of 8 bytes, in the style of the run.

An object is *shared* if other functions can know its address: after a call its bytes are drawn anew. The others, local memory
and what a parameter or a call promises that nobody else knows, are kept until a call is given their address."""

import hashlib
from dataclasses import dataclass, field
from typing import Optional

from scalars import UNDEFINED, Undefined

ARENA = 1 << 32
LOCAL = 1 << 54  # where the arenas of local memory begin
MOST = 1 << 20  # the bytes of an object of unknown size
MIDDLE = 1 << 16  # where pointers into one point
DRAWN = 1 << 20  # the arenas that pointers by chance point to


def drawn(*what) -> int:
    """A number of 64 bits that depends only on its arguments."""
    return int.from_bytes(hashlib.blake2b(repr(what).encode(), digest_size=8).digest(), "big")


@dataclass
class Place:
    """The object of an arena. One that is not shared has its own bytes; what they lack is in `start`, or, where that is None,
    drawn by chance for `world` as if the object were at `origin`."""
    size: int = MOST
    is_shared: bool = True
    is_constant: bool = False
    is_compared: bool = False
    start: Optional[dict] = None
    world: int = 0
    origin: int = 0
    bytes: dict = field(default_factory=dict)


class Memory:
    """`styles` are the kinds of words of the run, `numbers` constants of the functions. `world` is what calls have made of all
    shared memory."""

    def __init__(self, seed: int, styles: list, numbers: list):
        self.seed, self.styles, self.numbers, self.world = seed, styles, numbers, seed
        self.places, self.bytes, self.words, self.seen = {}, {}, {}, {}

    def place(self, address: int, size: int) -> Optional[Place]:
        """The object at an address; an access that is not inside one object is undefined behaviour."""
        found, at = self.places.get(address // ARENA), address % ARENA
        most = found.size if found else MOST
        if address < ARENA or address >= LOCAL and found is None or at + size > most:
            raise Undefined(f"an access of {size} bytes at {address:#x}, where nothing is")
        return found

    def word(self, world: int, address: int) -> bytes:
        """The word of memory at an address, by chance."""
        key = world, address // 8
        if key not in self.words:
            number = drawn(*key)
            self.words[key] = self.drawn_word(self.styles[number % len(self.styles)], number // 64).to_bytes(8, "little")
        return self.words[key]

    def drawn_word(self, style: str, number: int) -> int:
        constants = self.numbers
        if style == "zero":
            return 0
        if style == "pointer":
            return pointer(number)
        if style == "small":
            return number % 4
        if style == "number":
            return constants[number % len(constants)] % 2 ** 64
        if style == "pair":
            return constants[number % len(constants)] % 2 ** 32 | constants[number // 64 % len(constants)] % 2 ** 32 << 32
        if style == "text":
            letters = [one for one in constants if 0 < one < 128] + [0, 48, 57, 97]
            return int.from_bytes(bytes(letters[(number >> 5 * at) % len(letters)] for at in range(8)), "little")
        return number % 2 ** 64 if style == "bits" else int.from_bytes(bytes((number >> 2 * at) % 3 for at in range(8)), "little")

    def drawn_byte(self, address: int, place: Optional[Place]):
        """The byte at an address that nothing has written since the last call that may have."""
        if place is None or place.is_shared and not place.is_constant:
            world = self.world
        elif place.start is not None:
            return place.start.get(address % ARENA, UNDEFINED)
        else:
            world, address = place.world or self.seed, place.origin * ARENA + address % ARENA
        found = self.word(world, address)[address % 8]
        if world == self.seed:
            self.seen[address] = found
        return found

    def held(self, place: Optional[Place]) -> dict:
        return self.bytes if place is None or place.is_shared else place.bytes

    def load(self, address: int, size: int) -> list:
        place = self.place(address, size)
        held = self.held(place)
        return [held[one] if one in held else self.drawn_byte(one, place) for one in range(address, address + size)]

    def store(self, address: int, values: list) -> None:
        place = self.place(address, len(values))
        if place and place.is_constant:
            raise Undefined("a store to a constant")
        self.held(place).update(zip(range(address, address + len(values)), values))

    def changed(self) -> dict:
        """The bytes of shared memory, and of what is compared, that are not what the last call left."""
        own = {at: byte for place in self.places.values() if place.is_compared and not place.is_shared
               for at, byte in place.bytes.items() if byte != self.word(place.world or self.seed, at)[at % 8]}
        return {at: byte for at, byte in self.bytes.items() if byte != self.word(self.world, at)[at % 8]} | own

    def called(self, world: int, given: list) -> None:
        """All shared memory is what a call made of it, and so is each object that is given to the call to write."""
        self.world, self.bytes = world, {}
        for place in given:
            place.world, place.start, place.bytes = world, None, {}


def pointer(number: int) -> int:
    """A pointer by chance: rarely null, else to an arena of its own."""
    return 0 if number % 4 == 0 else (DRAWN + number // 4 % DRAWN) * ARENA + MIDDLE
