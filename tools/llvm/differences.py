"""Searches a run in which both sides of a function, with the true meaning of operations and memory, do what others can tell
apart: they return other values, make other calls, or leave other memory.

A run in which the first side has undefined behaviour, uses an undefined value, or does what is not known here, shows only its
calls before the last one that may not return."""

import re
from typing import NamedTuple, Optional

from ir import Unread
from module import Module
from outside import Outside
from scalars import POISON, UNDEFINED
from states import State, constants
from truth import Event, Names, Outcome
from values import Options

RUNS, TURNS, STEPS, BUDGET = 96, 300, 6000, 120_000  # of all instructions of a function; of blocks and instructions in a run


class Difference(NamedTuple):
    """What differs in one line, and the run."""
    why: str
    run: str


def raw_text(module: Module, name: str) -> str:
    """The text of a function with what the reader drops."""
    first = module.lines[name] - 1
    return "\n".join(module.raw[first:first + module.texts[name].count("\n") + 1])


class Search:
    """Runs of both sides of a function. `defined` are functions that have code, so that a pass may know what they do."""

    def __init__(self, before: Module, after: Module, name: str, options: Options = Options(), defined: frozenset = frozenset()):
        self.modules, self.name, self.options = (before, after), name, options
        self.functions = [module.function(name) for module in self.modules]
        self.heads = [module.heads[name] for module in self.modules]
        texts = [raw_text(module, name) for module in self.modules]
        self.names, self.numbers = Names(frozenset(defined | {name})), constants(texts)
        self.is_apart = any(re.search(r"\bnoalias\b|!alias\.scope|null_pointer_is_valid", text) for text in texts)
        self.spent = self.shown = 0

    def can_run(self) -> bool:
        """Whether both sides take the same arguments, addresses have 64 bits, and null is no address."""
        first, second = ([type for _, type in function.params] for function in self.functions)
        layout = self.modules[0].layout
        return first == second and self.functions[0].type == self.functions[1].type and layout.pointer(0)[0] == 64 and \
            not any("null_pointer_is_valid" in module.groups.get(group, "") for module, head in zip(self.modules, self.heads)
                    for group in re.findall(r"#\d+", head))

    def state(self, seed: int) -> State:
        return State(self.modules[0], self.functions[0], self.heads[0], self.is_apart, self.numbers, seed)

    def outcome(self, side: int, state: State) -> tuple:
        memory = state.memory()
        steps = STEPS * (1 + 3 * side)
        run = Outside(self.modules[side], self.functions[side], self.heads[side], state.args, memory, self.names, steps)
        found = run.run(TURNS * (1 + 3 * side))
        self.spent += steps - run.left
        return found, memory

    def run(self, seed: int) -> Optional[Difference]:
        state = self.state(seed)
        first, memory = self.outcome(0, state)
        if first.kind not in ("returned", "ended") and not self.sure(first):
            return None
        second, other = self.outcome(1, state)
        self.shown += first.kind in ("returned", "ended") and second.kind != "unknown"
        why = self.differs(first, second)
        seen = {**memory.seen, **other.seen}
        return Difference(why, self.told(state, seen, first, second)) if why else None

    def sure(self, first: Outcome) -> list:
        """The events of the first side that happen whatever follows: all if it ends as is known, else those up to the last
        call that may not return."""
        if first.kind in ("returned", "ended"):
            return first.events
        last = max((at for at, event in enumerate(first.events) if event.may_leave), default=-1)
        return [] if self.options.returns_only else first.events[:last + 1]

    def differs(self, first: Outcome, second: Outcome) -> str:
        """What others can tell apart, or nothing."""
        ended = first.kind in ("returned", "ended")
        if self.options.returns_only and (first.kind, second.kind) != ("returned", "returned"):
            return "" if not ended or second.kind != "undefined" or first.kind != "returned" else self.wrong(second)
        events = self.sure(first)
        for at, event in enumerate(events):
            if at == len(second.events):
                ends = {"undefined": f"before which {self.wrong(second)}", "returned": "which after does not", "ended": "which after does not"}
                return f"{calls(event)}, {ends[second.kind]}" if second.kind in ends else ""
            why = other_event(event, second.events[at])
            if why is not None:
                return why
        if not ended or second.kind in ("unknown", "more"):
            return f"after {calls(second.events[len(events)])}, which before does not" if ended and len(second.events) > len(events) else ""
        return self.other_end(first, second)

    def told(self, state: State, seen: dict, first: Outcome, second: Outcome) -> str:
        """The run as lines: the state, as far as it was read, and what both sides did."""
        values = ", ".join(f"%{name} = {values_of(arg)}" for (name, _), arg in zip(self.functions[0].params, state.args))
        globals = ", ".join(f"@{name} = {self.names.address(name):#x}" for name in self.names.numbers if name not in self.names.defined)
        bytes = ", ".join(f"{at:#x}: {byte}" for at, byte in sorted(seen.items())[:64]) + ", .." * (len(seen) > 64)
        parts = [("state", values or "no parameters"), ("globals", globals), ("memory", bytes), ("before", told_side(first)),
                 ("after", told_side(second))]
        return "\n".join(f"    {word + ':':8} {text}" for word, text in parts if text)

    def wrong(self, second: Outcome) -> str:
        return f"after has undefined behaviour: {second.why}"

    def other_end(self, first: Outcome, second: Outcome) -> str:
        """What differs at the end of two runs with the same events on the first side."""
        if second.kind == "undefined":
            return self.wrong(second)
        if len(second.events) > len(first.events):
            return f"after {calls(second.events[len(first.events)])}, which before does not"
        if first.kind != second.kind:
            return f"before {first.kind}, after {second.kind}"
        for one, other in zip(first.values, second.values):
            if isinstance(one, int) and other is not UNDEFINED and one != other:
                return f"returns {shown(one)}, after {shown(other)}"
        for at in sorted({*first.memory, *second.memory}):
            one, other = first.memory.get(at), second.memory.get(at)
            if one != other and not {one, other} & {UNDEFINED} and one is not POISON:
                return f"other memory at {at:#x}"
        return ""


def found(before: Module, after: Module, name: str, options: Options = Options(), defined: frozenset = frozenset(),
          most: int = RUNS) -> Optional[Difference]:
    """A run that differs, within so many runs and a fixed number of instructions, or None."""
    try:
        search = Search(before, after, name, options, defined)
        runs = (search.run(seed) for seed in range(most if search.can_run() else 0) if search.spent < BUDGET)
        return next((run for run in runs if run), None)
    except (Unread, ValueError):  # a construct, or a parameter of a type, that is not read
        return None


def values_of(value) -> str:
    return f"[{', '.join(map(values_of, value))}]" if isinstance(value, list) else shown(value)


def shown(value) -> str:
    return str(value) if not isinstance(value, int) or value < 2 ** 32 else hex(value)


def calls(event: Event) -> str:
    return f"calls {event.name}({', '.join(map(shown, event.args))})"


def other_event(first: Event, second: Event) -> Optional[str]:
    """What differs between two events; nothing where that cannot be said, None where nothing differs."""
    if (first.name, first.args) != (second.name, second.args):
        return f"{calls(first)}, after {calls(second)}"
    if first.memory != second.memory:
        one, other = dict(first.memory), dict(second.memory)
        at = min(at for at in {*one, *other} if one.get(at) != other.get(at))
        return f"{calls(first)} with other memory at {at:#x}"
    for (one, left), (other, right) in zip(first.local, second.local):
        left, right = dict(left), dict(right)
        if one != other or any(left[at] != right[at] for at in left if at in right and isinstance(left[at], int) and
                               right[at] is not UNDEFINED):
            return f"{calls(first)} with other local memory"
        if any(at not in right for at in left):
            return ""
    return None


def told_side(outcome: Outcome) -> str:
    """What a side did."""
    steps = [calls(event) for event in outcome.events]
    if outcome.kind == "returned":
        values = ", ".join(map(shown, outcome.values))
        bytes = ", ".join(f"{at:#x}: {shown(byte)}" for at, byte in sorted(outcome.memory.items())[:24])
        steps += [f"returns {values}".rstrip()] + [f"with memory {bytes}"] * bool(bytes)
    else:
        ends = {"ended": "does not return", "undefined": f"has undefined behaviour: {outcome.why}", "more": "goes on",
                "unknown": f"goes on: {outcome.why}"}
        steps.append(ends[outcome.kind])
    return "; ".join(steps)
