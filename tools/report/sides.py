"""Both sides of a goal beside each other: code with marks, and control-flow graphs."""

from difflib import SequenceMatcher
from typing import NamedTuple, Optional

from .cases import Case, CaseSide
from .graphs import Drawing, Walk, drawing_of_graph, drawing_of_program, picture
from .html_text import tag, text
from .listing import Line, Mark, is_crowded, line_at, lines_of, listing
from .machines import Seen
from .runs import Step, groups_of, reached_by
from .tokens import Span, Unreadable

MOST_GROUPS = 60


class View(NamedTuple):
    """What the page shows of a side: its number, lines, the parts that can be marked, and its graph."""

    number: int
    side: CaseSide
    lines: list[Line]
    marks: list[Mark]
    drawing: Optional[Drawing]
    only_here: frozenset[int] = frozenset()

    def name_of(self, span: Span) -> str:
        return next((mark.name for mark in self.marks if mark.span == span), "")

    def place(self, span: Optional[Span]) -> str:
        """The line of a part, in words."""
        number = line_at(self.lines, span) if span else 0
        return f"line {number}" if number else ""


def views_of(case: Case) -> list[View]:
    groups = groups_of(case.together.pairs)[:MOST_GROUPS] if case.together else []
    is_anew = any(side.kind != "term" and is_crowded(case.text, side.code) for side in case.sides)
    views = [view_of(case, number, groups, is_anew) for number in range(len(case.sides))]
    if len(views) != 2 or any(view.side.kind == "term" for view in views):
        return views
    return [view._replace(only_here=found) for view, found in zip(views, lines_apart(case.text, *views))]


def lines_apart(words: str, left: View, right: View) -> tuple[frozenset[int], frozenset[int]]:
    """The numbers of the lines that only one side has; the first line has the name of its side."""
    texts = [[" ".join(words[slice(*part)] for part in line.parts).strip() for line in view.lines[1:]] for view in (left, right)]
    apart: tuple[set[int], set[int]] = (set(), set())
    for kind, *places in SequenceMatcher(None, texts[0], texts[1], autojunk=False).get_opcodes():
        if kind != "equal":
            for k, view in enumerate((left, right)):
                first, last = places[2 * k:2 * k + 2]
                apart[k].update(view.lines[1 + at].number for at in range(first, last) if texts[k][at].strip("} {") not in ("", "else"))
    return frozenset(apart[0]), frozenset(apart[1])


def view_of(case: Case, number: int, groups: list[tuple[set[Span], set[Span]]], is_anew: bool) -> View:
    side = case.sides[number]
    lines = lines_of(case.text, side.code, is_anew and side.kind != "term")
    of_span = {span: k for k, group in enumerate(groups) for span in group[number]}
    spans = sorted(leaves_of(side) | set(of_span))
    reached = reached_in(case, side)
    marks = []
    for k, span in enumerate(spans):
        is_never = reached is not None and span not in reached
        title = f"{of_span[span] + 1}: both sides do this together" if span in of_span else \
            "no run gets here" if is_never else case.question.said.get(case.text[slice(*span)], "")
        marks.append(Mark(span, f"{number}.{k}", of_span.get(span), title, is_never))
    return View(number, side, lines, marks, drawing_of(case, side))


def reached_in(case: Case, side: CaseSide) -> Optional[set[Span]]:
    """The parts of a program or graph that some run reaches, for a question of two sides that are equal."""
    if case.together is None or side.kind == "term" or not side.machine:
        return None
    try:
        return reached_by(side.machine, case.question)
    except (Unreadable, KeyError):
        return None


def drawing_of(case: Case, side: CaseSide) -> Optional[Drawing]:
    try:
        if side.graph:
            return drawing_of_graph(case.text, side.graph)
        return drawing_of_program(case.text, side.term) if side.is_program() and side.term else None
    except (Unreadable, RecursionError):
        return None


def leaves_of(side: CaseSide) -> set[Span]:
    """The parts of a side that a run can pass."""
    if side.graph:
        return {span for block in side.graph.blocks.values()
                for span in (block.heading, *(statement.span for statement in block.statements), block.jump.span)}
    found: set[Span] = set()
    left = [side.term] if side.term else []
    while left:
        term = left.pop()
        if term.kind in ("act", "skip", "abort", "assert", "test", "if", "while", "0"):
            found.add(term.span)
        left += term.parts
    return found


# HTML

def sides_html(case: Case, prefix: str, views: list[View], ways: list[dict[str, str]]) -> str:
    """The sides. `ways` has the marks of the whole path of each side in its graph."""
    shown = "".join(side_html(case, prefix, view, ways[k] if k < len(ways) else {}) for k, view in enumerate(views))
    return tag("div", shown, class_="sides two" if len(views) > 1 else "sides")


def side_html(case: Case, prefix: str, view: View, way: dict[str, str]) -> str:
    name, kind = view.side.name, view.side.kind
    heading = text(name) + " " + tag("small", kind)
    if case.goal and case.goal.kind == "triple":
        before, after = (case.text[slice(*it.span)] for it in (case.goal.before, case.goal.after))
        heading = text(f"{{{before}}} {name} {{{after}}}") + " " + tag("small", f"triple of a {kind}")
    marks = [mark if case.steps or mark.group is not None or mark.is_never else mark._replace(name="") for mark in view.marks]
    code = listing(case.text, view.lines, [mark for mark in marks if mark.name], f"code of {name}", f"{view.number}.end",
                   view.only_here)
    return tag("div", tag("h4", heading) + code + picture_html(prefix, view, way), class_="side")


def picture_html(prefix: str, view: View, way: dict[str, str]) -> str:
    if not view.drawing:
        return ""
    groups = {mark.span: mark.group for mark in view.marks if mark.group is not None}
    title = f"Control-flow graph of {view.side.name}, {len(view.drawing.nodes)} nodes"
    drawn = picture(view.drawing, (f"{view.number}g", f"{prefix}{view.number}", title), groups, way)
    return tag("div", drawn, class_="picture", tabindex="0", role="region", aria_label=title)


# Paths

def marks_of_run(view: View, steps: list[Step], count: int) -> list[dict[str, str]]:
    """For each state of a string the marks of a side: parts of the code that it passes there, and nodes and links."""
    walk = Walk(view.drawing) if view.drawing else None
    marks = [marks_of_step(view, steps[k], walk) if k < len(steps) else {} for k in range(count)]
    if steps and steps[-1].status == "ended":
        marks[len(steps) - 1][end_of(view, steps)] = "e"
    return marks


def end_of(view: View, steps: list[Step]) -> str:
    """The mark of the end of a run: the last line of a program, otherwise the last action."""
    span = steps[-2].way.span if len(steps) > 1 else None
    return view.name_of(span) if span and view.side.kind != "prog" else f"{view.number}.end"


def marks_of_step(view: View, step: Step, walk: Optional[Walk]) -> dict[str, str]:
    marks = {}
    for seen in step.way.seen:
        marks[view.name_of(seen.span)] = {True: "t", False: "f", None: "p"}[seen.truth]
    last = {"acts": "n", "ended": "e"}.get(step.status, "x")
    if step.way.span:
        marks[view.name_of(step.way.span)] = last
    if walk and view.drawing:
        span = step.way.span
        passed = list(step.way.seen)
        if span and (not passed or passed[-1].span != span):
            passed.append(Seen(span))
        path = walk.path(passed, step.status in ("ended", "early") and view.side.is_program())
        numbers = {name: k for k, name in enumerate(view.drawing.nodes)}
        marks.update({f"{view.number}gl{k}": "p" for k in path.links})
        marks.update({f"{view.number}gn{numbers[name]}": "p" for name in path.nodes})
        if path.nodes and last == "x":
            marks[f"{view.number}gn{numbers[path.nodes[-1]]}"] = "x"
    marks.pop("", None)
    return marks
