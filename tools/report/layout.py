"""Lays out a control-flow graph in layers: by Graphviz where it is installed, otherwise by the method of Sugiyama, Tagawa
and Toda (1981): edges that go back are turned, each node is one layer below its last predecessor, the order in a layer
follows the neighbours, and edges over several layers bend in each."""

import json
import shutil
import subprocess
from typing import NamedTuple, Optional

LAYER_GAP, NODE_GAP, BEND_WIDTH, SWEEPS, SECONDS = 36.0, 26.0, 10.0, 12, 20
# How far a link that goes back is beside the middle of its nodes, so that it is not on a link that goes down.
BESIDE = 14.0


class Box(NamedTuple):
    width: float
    height: float


class Link(NamedTuple):
    source: str
    target: str
    label: str = ""


class Point(NamedTuple):
    x: float
    y: float


class Layout(NamedTuple):
    """The size of the picture, the middle of each node, and for each link the points of a chain of cubic curves and the
    place of its label."""

    size: Box
    nodes: dict[str, Point]
    curves: list[list[Point]]
    labels: list[Point]


def layout_of(boxes: dict[str, Box], links: list[Link], uses_graphviz: bool = True) -> Layout:
    """The first node is at the top."""
    if uses_graphviz and shutil.which("dot"):
        found = by_graphviz(boxes, links)
        if found:
            return found
    return Layers(boxes, links).layout()


# Graphviz

def by_graphviz(boxes: dict[str, Box], links: list[Link]) -> Optional[Layout]:
    names = {name: f"n{k}" for k, name in enumerate(boxes)}
    lines = ["digraph g {", "node [shape=box, fixedsize=true, label=\"\"]; edge [fontname=monospace, fontsize=11]; ranksep=0.35;"]
    lines += [f"{names[name]} [width={box.width / 72:.3f}, height={box.height / 72:.3f}];" for name, box in boxes.items()]
    lines += [f'{names[link.source]} -> {names[link.target]} [id={k}, label="{link.label}"];' for k, link in enumerate(links)]
    try:
        ran = subprocess.run(["dot", "-Tjson"], input="\n".join([*lines, "}"]), stdout=subprocess.PIPE, stderr=subprocess.DEVNULL,
                             text=True, timeout=SECONDS)
        return read_graphviz(json.loads(ran.stdout), list(boxes), len(links)) if ran.returncode == 0 else None
    except (subprocess.TimeoutExpired, OSError, ValueError, KeyError):
        return None


def read_graphviz(drawn: dict, names: list[str], count: int) -> Layout:
    """What `dot -Tjson` prints; its y axis goes up."""
    _, _, width, height = (float(part) for part in drawn["bb"].split(","))

    def point(words: str) -> Point:
        x, y = words.split(",")
        return Point(float(x), height - float(y))

    nodes = {names[int(node["name"][1:])]: point(node["pos"]) for node in drawn["objects"]}
    curves: list[list[Point]] = [[] for _ in range(count)]
    labels = [Point(0, 0)] * count
    for edge in drawn.get("edges", []):
        parts = edge["pos"].split()
        tip = [point(part[2:]) for part in parts if part.startswith("e,")]
        curve = [point(part) for part in parts if part[0] not in "es"]
        if tip:
            curve[-1] = tip[0]
        curves[int(edge["id"])] = curve
        labels[int(edge["id"])] = point(edge["lp"]) if "lp" in edge else curve[len(curve) // 2]
    return Layout(Box(width, height), nodes, curves, labels)


# Layers

class Layers:
    """The nodes of a graph in layers, with a bend for each layer that a link crosses."""

    def __init__(self, boxes: dict[str, Box], links: list[Link]) -> None:
        self.boxes: dict[object, Box] = {}
        self.boxes.update(boxes.items())
        self.links = links
        self.turned = turned_links(list(boxes), links)
        self.layer = layers_of(list(boxes), links, self.turned)
        self.chains = [self.chain(k) for k in range(len(links))]
        self.rows = self.ordered_rows()
        self.x = self.positions()

    def chain(self, k: int) -> list[object]:
        """The nodes and bends of a link, from the upper to the lower node."""
        link = self.links[k]
        upper, lower = (link.target, link.source) if k in self.turned else (link.source, link.target)
        if upper == lower:
            return []
        bends: list[object] = []
        for row in range(self.layer[upper] + 1, self.layer[lower]):
            bend = (k, row)
            self.layer[bend], self.boxes[bend] = row, Box(BEND_WIDTH, 0)
            bends.append(bend)
        return [upper, *bends, lower]

    def neighbours(self) -> tuple[dict[object, list[object]], dict[object, list[object]]]:
        above: dict[object, list[object]] = {it: [] for it in self.layer}
        below: dict[object, list[object]] = {it: [] for it in self.layer}
        for chain in self.chains:
            for upper, lower in zip(chain, chain[1:]):
                above[lower].append(upper)
                below[upper].append(lower)
        return above, below

    def ordered_rows(self) -> list[list[object]]:
        """The rows, each in the order of the middle of its neighbours, swept down and up; the best of all sweeps."""
        above, below = self.neighbours()
        rows: list[list[object]] = [[] for _ in range(max(self.layer.values()) + 1)]
        for it, layer in self.layer.items():
            rows[layer].append(it)
        best, fewest = [list(row) for row in rows], crossings(rows, below)
        for sweep in range(SWEEPS):
            order = rows if sweep % 2 == 0 else rows[::-1]
            beside = above if sweep % 2 == 0 else below
            for row in order:
                place = {it: k for other in rows for k, it in enumerate(other)}
                row.sort(key=lambda it: mean([place[near] for near in beside[it]], place[it]))
            count = crossings(rows, below)
            if count < fewest:
                best, fewest = [list(row) for row in rows], count
        return best

    def positions(self) -> dict[object, float]:
        """The middle of each node and bend, near the mean of its neighbours and apart from the next in its row."""
        above, below = self.neighbours()
        x: dict[object, float] = {}
        for row in self.rows:
            x.update(spread(row, {it: float(k) for k, it in enumerate(row)}, self.boxes))
        for sweep in range(SWEEPS):
            beside = above if sweep % 2 == 0 else below
            for row in self.rows if sweep % 2 == 0 else self.rows[::-1]:
                x.update(spread(row, {it: mean([x[near] for near in beside[it]], x[it]) for it in row}, self.boxes))
        left = min(x[it] - self.boxes[it].width / 2 for it in x)
        return {it: x[it] - left + NODE_GAP for it in x}

    def layout(self) -> Layout:
        heights = [max((self.boxes[it].height for it in row), default=0) for row in self.rows]
        tops, top = [], 8.0
        for height in heights:
            tops.append(top)
            top += height + LAYER_GAP
        nodes = {it: Point(self.x[it], tops[self.layer[it]] + heights[self.layer[it]] / 2) for it in self.layer}
        curves = [self.curve(k, nodes) for k in range(len(self.links))]
        width = max([self.x[it] + self.boxes[it].width / 2 for it in self.x] + [point.x for curve in curves for point in curve])
        labels = [middle_of(curve) for curve in curves]
        return Layout(Box(width + NODE_GAP, top), {it: at for it, at in nodes.items() if isinstance(it, str)}, curves, labels)

    def curve(self, k: int, nodes: dict[object, Point]) -> list[Point]:
        chain = self.chains[k]
        if not chain:
            return self.loop(nodes[self.links[k].source], self.boxes[self.links[k].source])
        first, last = chain[0], chain[-1]
        stops = [Point(nodes[first].x, nodes[first].y + self.boxes[first].height / 2), *(nodes[it] for it in chain[1:-1]),
                 Point(nodes[last].x, nodes[last].y - self.boxes[last].height / 2)]
        if k in self.turned:
            stops = [Point(stop.x + BESIDE, stop.y) for stop in stops]
        points = [stops[0]]
        for one, other in zip(stops, stops[1:]):
            middle = (one.y + other.y) / 2
            points += [Point(one.x, middle), Point(other.x, middle), other]
        return points[::-1] if k in self.turned else points

    def loop(self, at: Point, box: Box) -> list[Point]:
        """A link from a node to itself, at its right."""
        edge = at.x + box.width / 2
        return [Point(edge, at.y - 6), Point(edge + 24, at.y - 18), Point(edge + 24, at.y + 18), Point(edge, at.y + 6)]


def turned_links(names: list[str], links: list[Link]) -> set[int]:
    """The links to a node that is on the path of a depth-first walk."""
    leaving: dict[str, list[int]] = {name: [] for name in names}
    for k, link in enumerate(links):
        leaving[link.source].append(k)
    turned: set[int] = set()
    done: set[str] = set()
    path: set[str] = set()
    for first in names:
        left = [(first, 0)] if first not in done else []
        while left:
            name, place = left.pop()
            path.add(name)
            done.add(name)
            if place == len(leaving[name]):
                path.discard(name)
                continue
            left.append((name, place + 1))
            target = links[leaving[name][place]].target
            if target in path:
                turned.add(leaving[name][place])
            elif target not in done:
                left.append((target, 0))
    return turned


def layers_of(names: list[str], links: list[Link], turned: set[int]) -> dict[object, int]:
    """One layer below the last predecessor."""
    layer: dict[object, int] = dict.fromkeys(names, 0)
    pairs = [(link.target, link.source) if k in turned else (link.source, link.target)
             for k, link in enumerate(links) if link.source != link.target]
    for _ in names:
        changed = False
        for upper, lower in pairs:
            if layer[lower] < layer[upper] + 1:
                layer[lower], changed = layer[upper] + 1, True
        if not changed:
            break
    return layer


def crossings(rows: list[list[object]], below: dict[object, list[object]]) -> int:
    place = {it: k for row in rows for k, it in enumerate(row)}
    count = 0
    for row in rows:
        ends = [(place[it], place[target]) for it in row for target in below[it]]
        count += sum(1 for k, (one, other) in enumerate(ends) for more, again in ends[:k] if (one - more) * (other - again) < 0)
    return count


def mean(values: list[float], otherwise: float) -> float:
    return sum(values) / len(values) if values else otherwise


def spread(row: list[object], wanted: dict[object, float], boxes: dict[object, Box]) -> dict[object, float]:
    """Places near those that are wanted, in the same order and apart: the mean of a placement from the left and one from
    the right, each as near as it can."""
    from_left = pushed(row, wanted, boxes, 1)
    from_right = pushed(row[::-1], wanted, boxes, -1)
    return {it: (from_left[it] + from_right[it]) / 2 for it in row}


def pushed(row: list[object], wanted: dict[object, float], boxes: dict[object, Box], way: int) -> dict[object, float]:
    found: dict[object, float] = {}
    last: Optional[object] = None
    for it in row:
        at = wanted[it]
        if last is not None:
            least = found[last] + way * ((boxes[last].width + boxes[it].width) / 2 + NODE_GAP)
            at = max(at, least) if way > 0 else min(at, least)
        found[it], last = at, it
    return found


def middle_of(curve: list[Point]) -> Point:
    """A place beside the first curve of a chain."""
    a, b, c, d = curve[:4]
    return Point((a.x + 3 * b.x + 3 * c.x + d.x) / 8, (a.y + 3 * b.y + 3 * c.y + d.y) / 8)
