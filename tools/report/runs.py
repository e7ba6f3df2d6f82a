"""Follows a string through both sides, and finds the places of both sides that are reached by the same strings.

All this is computed by this script and not proved.
"""

from collections import deque
from typing import Iterable, Iterator, NamedTuple, Optional

from .machines import Machine, Place, Seen, Way
from .questions import Fact, Known, Question
from .tokens import Span, Unreadable

# The most pairs of ways, with what is known there, that `together` looks at.
MOST_WAYS = 10_000


class Step(NamedTuple):
    """What a side does in a state of a string: the way that it takes, and how it goes on: `acts`, `ended`, `early`, `stops`,
    `other` if its action is not the next one of the string, or `more` if the string has ended."""

    way: Way
    status: str


class Reached(NamedTuple):
    """A place of a side in a state, with the steps that led there."""

    place: Place
    steps: tuple[Step, ...]


def follow(machine: Machine, states: list[dict[int, bool]], actions: list[int]) -> list[Step]:
    """A step for each state that the side reaches. The string is followed as far as possible."""
    reached = [Reached(machine.start, ())]
    for k, state in enumerate(states):
        wanted = actions[k] if k < len(actions) else None
        later: dict[Place, Reached] = {}
        failed: list[tuple[Reached, Step]] = []
        for at in reached:
            for way in at_once(machine, at.place, state):
                step = Step(way, status_of(way, wanted))
                if step.status == "ended":
                    return [*at.steps, step]
                if step.status == "acts":
                    later.setdefault(way.target, Reached(way.target, (*at.steps, step)))
                else:
                    failed.append((at, step))
        if not later:
            order = ("early", "other", "more", "stops")
            failed.sort(key=lambda it: order.index(it[1].status))
            return [*failed[0][0].steps, failed[0][1]] if failed else list(reached[0].steps)
        reached = list(later.values())
    return list(reached[0].steps)


def at_once(machine: Machine, place: Place, known: Known, most: int = 1000) -> Iterator[Way]:
    """The ways from a place, together with those after ways that do nothing."""
    left: list[tuple[Place, Known, tuple[Seen, ...], frozenset]] = [(place, known, (), frozenset())]
    while left:
        place, known, seen, passed = left.pop()
        if place in passed:
            last = seen[-1].span if seen else None
            yield Way(known, "stop", seen, last, words="a loop that changes nothing")
            continue
        for way in machine.ways(place, known):
            most -= 1
            if most < 0:
                raise Unreadable("too many ways to follow")
            if way.kind == "act" and way.action == -1:
                left.append((way.target, way.known, (*seen, *way.seen), passed | {place}))
            else:
                yield way._replace(seen=(*seen, *way.seen))


def status_of(way: Way, wanted: Optional[int]) -> str:
    if way.kind == "stop":
        return "stops"
    if way.kind == "end":
        return "ended" if wanted is None else "early"
    if wanted is None:
        return "more"
    return "acts" if way.action == wanted else "other"


# Places that belong together

class Together(NamedTuple):
    """The parts of both texts that are run together, and whether every pair of places was looked at."""

    pairs: set[tuple[Span, Span]]
    is_whole: bool


class Knowledge:
    """What the facts of a question say of the tests."""

    def __init__(self, facts: Iterable[Fact]) -> None:
        facts = list(facts)
        self.still = [dict(fact.before) for fact in facts if fact.action is None]
        self.moves: dict[int, list[Fact]] = {}
        for fact in facts:
            if fact.action is not None:
                self.moves.setdefault(fact.action, []).append(fact)

    def closed(self, known: Known) -> Optional[dict[int, bool]]:
        """All that follows by single facts, or nothing where the facts rule it out."""
        closed, changed = dict(known), True
        while changed:
            changed = False
            for fact in self.still:
                if any(closed.get(k, truth) != truth for k, truth in fact.items()):
                    continue
                open_tests = [k for k in fact if k not in closed]
                if not open_tests:
                    return None
                if len(open_tests) == 1:
                    closed[open_tests[0]] = not fact[open_tests[0]]
                    changed = True
        return closed

    def after(self, known: Known, action: int) -> Optional[dict[int, bool]]:
        """What is known after an action, or nothing where the facts rule it out."""
        then: dict[int, bool] = {}
        for fact in self.moves.get(action, ()):
            if any(known.get(k) != truth for k, truth in fact.before):
                continue
            if not fact.after:
                return None
            if len(fact.after) == 1:
                (k, truth), = fact.after
                if then.get(k, not truth) == truth:
                    return None
                then[k] = not truth
        return self.closed(then)


class Pair(NamedTuple):
    left: Place
    right: Place
    known: frozenset


def together(left: Machine, right: Machine, question: Question) -> Together:
    """Runs both sides side by side, with all truth values that the facts allow."""
    facts = Knowledge(question.facts)
    first = Pair(left.start, right.start, frozenset())
    found, queue = {first}, deque([first])
    whole = Together(set(), True)
    ends: dict[Pair, list[tuple[Pair, tuple[Span, Span]]]] = {}
    final: set[Pair] = set()
    ways = 0
    while queue:
        pair = queue.popleft()
        for mine, other, known in both_ways(left, right, pair, facts):
            ways += 1
            if ways > MOST_WAYS:
                return whole._replace(is_whole=False)
            if mine.kind == other.kind == "end":
                final.add(pair)
            if not mine.kind == other.kind == "act" or mine.action is None or mine.action != other.action:
                continue
            then = facts.after(known, mine.action)
            if then is None:
                continue
            later = Pair(mine.target, other.target, frozenset(then.items()))
            spans = left.mark(mine.target) or mine.span, right.mark(other.target) or other.span
            if spans[0] and spans[1]:
                ends.setdefault(later, []).append((pair, (spans[0], spans[1])))
            if later not in found:
                found.add(later)
                queue.append(later)
    starts = left.mark(left.start), right.mark(right.start)
    if starts[0] and starts[1]:
        whole.pairs.add((starts[0], starts[1]))
    if left.is_program and right.is_program:
        whole.pairs.update(spans for before in ends.values() for _, spans in before)
    else:
        whole.pairs.update(finishing(ends, final))
    return whole


def both_ways(left: Machine, right: Machine, pair: Pair, facts: Knowledge) -> Iterator[tuple[Way, Way, Known]]:
    for mine in at_once(left, pair.left, dict(pair.known)):
        known = facts.closed(mine.known)
        if known is None:
            continue
        for other in at_once(right, pair.right, known):
            closed = facts.closed(other.known)
            if closed is not None:
                yield mine, other, closed


def reached_by(machine: Machine, question: Question) -> Optional[set[Span]]:
    """The parts of a side that some run reaches, with all truth values that the facts allow, or nothing if these are too
    many."""
    facts = Knowledge(question.facts)
    first: tuple[Place, frozenset] = (machine.start, frozenset())
    found, queue, ways = {first}, deque([first]), 0
    spans: set[Span] = set()
    while queue:
        place, known = queue.popleft()
        for way in at_once(machine, place, dict(known)):
            ways += 1
            if ways > MOST_WAYS:
                return None
            closed = facts.closed(way.known)
            if closed is None:
                continue
            spans.update(seen.span for seen in way.seen)
            spans.update([way.span] if way.span else [])
            if way.kind != "act":
                continue
            then = {} if way.action is None else facts.after(closed, way.action)
            later = first if then is None else (way.target, frozenset(then.items()))
            if later not in found:
                found.add(later)
                queue.append(later)
    return spans


def finishing(ends: dict, final: set[Pair]) -> set[tuple[Span, Span]]:
    """The parts that are run together on the way to a common end."""
    useful, left, found = set(final), list(final), set()
    while left:
        for before, spans in ends.get(left.pop(), ()):
            found.add(spans)
            if before not in useful:
                useful.add(before)
                left.append(before)
    return found


def groups_of(pairs: Iterable[tuple[Span, Span]]) -> list[tuple[set[Span], set[Span]]]:
    """The parts of both sides that belong together, in the order of the left side."""
    groups: list[tuple[set[Span], set[Span]]] = []
    for one, other in sorted(pairs):
        touched = [group for group in groups if one in group[0] or other in group[1]]
        merged = ({one}.union(*(group[0] for group in touched)), {other}.union(*(group[1] for group in touched)))
        groups = [group for group in groups if group not in touched] + [merged]
    return sorted(groups, key=lambda group: min(group[0]))
