"""The control-flow graphs of programs and of flow graphs, and their pictures."""

import html
from dataclasses import dataclass, field
from typing import NamedTuple, Optional

from .flows import Graph, depth_first
from .layout import Box, Link, Point, layout_of
from .machines import Seen
from .problems import Term
from .tokens import Span, Unreadable

LETTER, LINE, MOST_LETTERS, MOST_LINES, MOST_NODES = 7.0, 16.0, 34, 7, 120
START, END = "start", "end"
NAME = ' class="name"'
# How small a picture is drawn where a page is narrow, before it scrolls.
SMALLEST = 0.6


@dataclass
class Node:
    """A node with its lines, the first of which may be a name; and the parts of the text that it has."""

    name: str
    lines: list[str]
    spans: list[Span]
    kind: str = "block"


@dataclass
class Drawing:
    nodes: dict[str, Node] = field(default_factory=dict)
    links: list[Link] = field(default_factory=list)


class Path(NamedTuple):
    nodes: list[str]
    links: list[int]


# Graphs of programs

class ProgramGraph:
    """Joins statements in a row to one node, and makes a node of each condition."""

    def __init__(self, text: str) -> None:
        self.text, self.drawing = text, Drawing()
        self.open: list[tuple[str, str]] = []

    def of(self, term: Term) -> Drawing:
        self.drawing.nodes[START] = Node(START, ["start"], [], "end")
        self.open = [(START, "")]
        self.add(term)
        self.place(Node(END, ["end"], [], "end"))
        return self.drawing

    def place(self, node: Node) -> None:
        """Adds a node after the ends that are open."""
        if len(self.drawing.nodes) > MOST_NODES:
            raise Unreadable("too many nodes to draw")
        self.drawing.nodes[node.name] = node
        self.drawing.links += [Link(source, node.name, label) for source, label in self.open]
        self.open = [(node.name, "")]

    def new(self, span: Span, kind: str) -> Node:
        return Node(f"n{len(self.drawing.nodes)}", [words_of(self.text, span)], [span], kind)

    def add(self, term: Term) -> None:
        if term.kind == ".":
            for part in term.parts:
                self.add(part)
        elif term.kind in ("act", "skip", "assert", "test"):
            self.add_statement(term)
        elif term.kind in ("abort", "0"):
            self.place(self.new(term.span, "stop"))
            self.open = []
        elif term.kind in ("if", "while"):
            self.add_test(term)

    def add_statement(self, term: Term) -> None:
        last = self.drawing.nodes[self.open[0][0]] if len(self.open) == 1 else None
        if last and last.kind == "block" and not self.open[0][1]:
            last.lines.append(words_of(self.text, term.span))
            last.spans.append(term.span)
        elif self.open:
            self.place(self.new(term.span, "block"))

    def add_test(self, term: Term) -> None:
        if not self.open:
            return
        node = self.new(term.span, "test")
        self.place(node)
        self.open = [(node.name, "true")]
        self.add(term.parts[0])
        if term.kind == "while":
            self.drawing.links += [Link(source, node.name, label) for source, label in self.open]
            self.open = [(node.name, "false")]
        else:
            ends, self.open = self.open, [(node.name, "false")]
            self.add(term.parts[1])
            self.open = ends + self.open


def drawing_of_program(text: str, term: Term) -> Drawing:
    return ProgramGraph(text).of(term)


def drawing_of_graph(text: str, graph: Graph) -> Drawing:
    """A node for each block that is reached from the entry."""
    drawing, reached = Drawing(), depth_first(graph)[0]
    if len(reached) > MOST_NODES:
        raise Unreadable("too many blocks to draw")
    for name, block in graph.blocks.items():
        if name not in reached:
            continue
        lines = [words_of(text, statement.span) for statement in block.statements]
        spans = [block.heading, *(statement.span for statement in block.statements), block.jump.span]
        jump = block.jump
        lines += [words_of(text, jump.condition.span) + " ?"] if jump.condition else \
            [words_of(text, jump.span)] if jump.kind != "goto" else []
        drawing.nodes[name] = Node(name, [name, *lines], spans, "stop" if jump.kind == "abort" else "block")
        labels = ("true", "false") if jump.kind == "if" else ("",)
        drawing.links += [Link(name, target, label) for target, label in zip(jump.targets, labels)]
    return drawing


def words_of(text: str, span: Span) -> str:
    return " ".join(text[slice(*span)].rstrip(";").split())


# Paths

class Walk:
    """Follows the parts of a text that a run passes through the nodes and links of its graph."""

    def __init__(self, drawing: Drawing) -> None:
        self.drawing = drawing
        self.by_span = {span: name for name, node in drawing.nodes.items() for span in node.spans}
        self.at: Optional[str] = START if START in drawing.nodes else None
        self.truth: Optional[bool] = None

    def path(self, seen: list[Seen], ends: bool = False) -> Path:
        """The nodes and links of the next parts, and of the way to the end."""
        found = Path([], [])
        for part in seen:
            name = self.by_span.get(part.span)
            if name is None:
                continue
            if name != self.at or self.comes_round(name, part.span):
                self.goes(name, found)
            elif not found.nodes:
                found.nodes.append(name)
            self.truth = part.truth
        if ends and END in self.drawing.nodes:
            self.goes(END, found)
        return found

    def comes_round(self, name: str, span: Span) -> bool:
        """Whether the first part of the node where the run is follows a link from the node to itself."""
        return span == self.drawing.nodes[name].spans[0] and bool(self.links_to(name))

    def links_to(self, name: str) -> list[int]:
        return [k for k, link in enumerate(self.drawing.links) if link.source == self.at and link.target == name]

    def goes(self, name: str, found: Path) -> None:
        links = self.links_to(name)
        label = {True: "true", False: "false", None: ""}[self.truth]
        found.links.extend(([k for k in links if self.drawing.links[k].label == label] or links)[:1])
        found.nodes.append(name)
        self.at, self.truth = name, None


# Pictures

def picture(drawing: Drawing, names: tuple[str, str, str], groups: dict[Span, int], way: dict[str, str]) -> str:
    """An SVG of the graph, from the prefix of the names by which a script marks nodes and links, an identifier, and a title.
    What is on the way is marked from the start, and a line has the number of its group."""
    prefix, identifier, title = names
    boxes = {name: box_of(node, groups) for name, node in drawing.nodes.items()}
    layout = layout_of(boxes, drawing.links)
    width, height = layout.size.width + 8, layout.size.height + 8
    parts = [f'<svg class="graph" role="img" aria-labelledby="{identifier}" width="{width:.0f}" height="{height:.0f}" '
             f'viewBox="-4 -4 {width:.0f} {height:.0f}" style="min-width:{width * SMALLEST:.0f}px">',
             f'<title id="{identifier}">{html.escape(title)}</title>']
    for k, link in enumerate(drawing.links):
        parts.append(drawn_link(f"{prefix}l{k}", link, layout.curves[k], layout.labels[k], f"{prefix}l{k}" in way))
    for number, (name, node) in enumerate(drawing.nodes.items()):
        mark = f"{prefix}n{number}"
        parts.append(drawn_node(mark, node, boxes[name], layout.nodes[name], groups, mark in way))
    return "".join([*parts, "</svg>"])


def shown_lines(node: Node) -> list[str]:
    lines = node.lines
    if len(lines) > MOST_LINES:
        lines = [*lines[:MOST_LINES - 1], f".. {len(lines) - MOST_LINES + 1} more"]
    return [line if len(line) <= MOST_LETTERS else line[:MOST_LETTERS - 2] + ".." for line in lines]


def box_of(node: Node, groups: dict[Span, int]) -> Box:
    lines = shown_lines(node)
    widest = max(len(line) for line in lines)
    sides = (34 if node.kind == "test" else 16) + (20 if any(span in groups for span in node.spans) else 0)
    return Box(widest * LETTER + sides, len(lines) * LINE + 10)


def drawn_link(mark: str, link: Link, curve: list[Point], label: Point, is_way: bool) -> str:
    if len(curve) < 4:
        return ""
    path = f"M{curve[0].x:.0f} {curve[0].y:.0f}C" + " ".join(f"{point.x:.0f} {point.y:.0f}" for point in curve[1:])
    words = f'<text x="{label.x:.0f}" y="{label.y + 4:.0f}">{link.label}</text>' if link.label else ""
    return f'<g class="link{" way" if is_way else ""}" data-m="{mark}"><path d="{path}"/>{tip(curve[-2], curve[-1])}{words}</g>'


def tip(before: Point, end: Point) -> str:
    """The head of an arrow."""
    dx, dy = end.x - before.x, end.y - before.y
    length = max((dx * dx + dy * dy) ** 0.5, 0.01)
    dx, dy = dx / length * 8, dy / length * 8
    points = ((end.x, end.y), (end.x - dx - dy / 2, end.y - dy + dx / 2), (end.x - dx + dy / 2, end.y - dy - dx / 2))
    return '<polygon points="' + " ".join(f"{x:.1f},{y:.1f}" for x, y in points) + '"/>'


def drawn_node(mark: str, node: Node, box: Box, at: Point, groups: dict[Span, int], is_way: bool) -> str:
    lines = shown_lines(node)
    numbers = [groups.get(span) for span in node.spans[:len(lines)]] if len(lines) == len(node.lines) else []
    rows = [drawn_line(line, Point(at.x, at.y - box.height / 2 + k * LINE), box.width,
                       numbers[k] if k < len(numbers) else None, k == 0 and line == node.name) for k, line in enumerate(lines)]
    kind = f"node {node.kind}" + (" way" if is_way else "")
    whole = html.escape("\n".join(node.lines))
    return f'<g class="{kind}" data-m="{mark}"><title>{whole}</title>{outline(node, box, at)}{"".join(rows)}</g>'


def drawn_line(line: str, top: Point, width: float, group: Optional[int], is_name: bool) -> str:
    """A line of a node, with the colour and number of its group."""
    name = NAME if is_name else ""
    if group is None:
        return f'<text{name} x="{top.x:.0f}" y="{top.y + 17:.0f}">{html.escape(line)}</text>'
    back = (f'<rect class="g{group % 8}" x="{top.x - width / 2 + 4:.0f}" y="{top.y + 5:.0f}" width="{width - 8:.0f}" '
            f'height="{LINE:.0f}"/>')
    return (f'{back}<text{name} x="{top.x:.0f}" y="{top.y + 17:.0f}">{html.escape(line)}'
            f'<tspan class="number" dx="5">{group + 1}</tspan></text>')


def outline(node: Node, box: Box, at: Point) -> str:
    left, top = at.x - box.width / 2, at.y - box.height / 2
    if node.kind != "test":
        radius = box.height / 2 if node.kind == "end" else 4
        return f'<rect x="{left:.0f}" y="{top:.0f}" width="{box.width:.0f}" height="{box.height:.0f}" rx="{radius:.0f}"/>'
    corner = min(14, box.height / 2)
    right, bottom = left + box.width, top + box.height
    points = [(left + corner, top), (right - corner, top), (right, at.y), (right - corner, bottom), (left + corner, bottom),
              (left, at.y)]
    return '<polygon points="' + " ".join(f"{x:.0f},{y:.0f}" for x, y in points) + '"/>'
