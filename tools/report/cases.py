"""A question with all that is known of it: both sides with their code, the answer, and how each side follows a string."""

import re
import tempfile
import time
from pathlib import Path
from typing import NamedTuple, Optional

from .flows import Flow, Graph, read_flow
from .forms import Sorts
from .guarded import read_guarded
from .machines import FlowMachine, Machine, TermMachine, results_of
from .problems import Goal, Problem, Term, read_problem
from .prover import DIFFERENT, EQUAL, Answer, Kat, read_replay
from .questions import Question
from .runs import Step, Together, follow, together
from .tokens import Span, Unreadable


class CaseSide(NamedTuple):
    """A side of a goal: its name, its kind (`prog`, `guarded program`, `term` or `graph`), and how it runs."""

    name: str
    kind: str
    code: tuple[Span, ...]
    term: Optional[Term]
    graph: Optional[Graph]
    machine: Optional[Machine]

    def is_program(self) -> bool:
        """Whether it is a program of conditions, loops and steps in a row, of which a graph can be drawn."""
        return self.kind in ("prog", "guarded program")


class Case:
    """A file that `kat` was asked about. `text` is what the user wrote; `problem_text` is what `decide` read."""

    def __init__(self, title: str, text: str, answer: Answer) -> None:
        self.title, self.text, self.answer = title, text, answer
        self.problem_text = text
        self.data = b""
        self.notes: list[str] = []
        self.goal: Optional[Goal] = None
        self.goal_text = ""
        self.sides: list[CaseSide] = []
        self.question = Question("", Sorts({}, {}, False))
        self.explained: list[str] = []
        self.states: list[dict[int, bool]] = []
        self.actions: list[int] = []
        self.steps: list[list[Step]] = []
        self.tried: list[str] = []
        self.try_status: Optional[int] = None
        self.together: Optional[Together] = None

    def kind(self) -> str:
        return self.answer.word if self.answer.status in (EQUAL, DIFFERENT) else "refused"


def case_of(kat: Kat, file: Path, turns: int) -> Case:
    """What the program says of a file, and what this script works out of it."""
    with tempfile.TemporaryDirectory() as folder:
        return case_in(kat, file, turns, Path(folder) / "problem.kat")


def case_in(kat: Kat, file: Path, turns: int, made: Path) -> Case:
    data = file.read_bytes()
    text = data.decode("utf-8", "replace")
    source, command = source_of(kat, file, text)
    if command:
        text = source.read_text("utf-8", "replace")
        begun = time.perf_counter()
        status, printed = kat.call(command, str(source))
        if status != 0:
            word = "no answer in time" if status is None else printed.strip()
            case = Case(str(source), text, Answer(status, word, "", 0, 0, time.perf_counter() - begun))
            case.data = source.read_bytes()
            return case
        made.write_text(printed, "utf-8")
        file = made
    case = Case(str(source), text, kat.decide(file))
    case.data = data
    if command:
        case.problem_text = made.read_text("utf-8")
    if case.answer.status in (EQUAL, DIFFERENT):
        try:
            read_sides(kat, case, file, command)
        except (Unreadable, KeyError, IndexError) as why:
            case.notes.append(f"The sides are not shown: {why}.")
        explain(kat, case, file, turns)
    return case


def source_of(kat: Kat, file: Path, text: str) -> tuple[Path, str]:
    """The text that a file was made from, and the command that makes it. A file of `validate` is made from the flow text
    beside it."""
    flow = file.with_suffix(".flow")
    if file.suffix == ".kat" and flow.exists() and kat.call("flow", str(flow)) in ((0, text), (2, text)):
        return flow, "flow"
    return file, {".flow": "flow", ".gkat": "gkat"}.get(file.suffix, "")


def read_sides(kat: Kat, case: Case, file: Path, command: str) -> None:
    """Reads the text that the user wrote, and the question that `show` prints of the problem file."""
    if command == "flow":
        flow = read_flow(case.text)
        case.goal_text = f"equal {', '.join(flow.sides)}"
        case.question = Question(case.problem_text, flow.known(), results_of(flow))
        case.sides = [flow_side(flow, name, case.question) for name in flow.sides]
        return
    problem = read_guarded(case.text) if command == "gkat" else read_problem(case.text)
    case.goal = problem.goals[0]
    case.goal_text = goal_text(case.text)
    status, shown = kat.call("show", str(file))
    if status != 0:
        raise Unreadable("`show` printed no question")
    sorts = Sorts(dict.fromkeys(problem.variables, problem.width), {}, False)
    case.question = Question(shown, sorts, said_names=said_names(case.text, problem))
    names = ("body",) if case.goal.kind == "triple" else ("left", "right")
    kind = "guarded program" if command == "gkat" else "prog"
    case.sides = [CaseSide(side.name or name, kind if side.is_program else "term", side.code, side.term, None,
                           machine_of(side.term, case.question, side.is_program))
                  for side, name in zip(case.goal.sides, names)]


def said_names(text: str, problem: Problem) -> dict[str, str]:
    """What comments `# NAME is ..` say of declared tests and actions, as those that `flow` prints."""
    names = {*problem.tests, *problem.actions}
    return {name: words for name, words in re.findall(r"^# ([ta]\d+) is (.*)$", text, re.M) if name in names}


def machine_of(term: Term, question: Question, is_program: bool) -> Optional[Machine]:
    try:
        return TermMachine(term, question, is_program)
    except (Unreadable, RecursionError):
        return None


def flow_side(flow: Flow, name: str, question: Question) -> CaseSide:
    graph = flow.graphs[name]
    return CaseSide(name, "graph", (graph.span,), None, graph, FlowMachine(flow, graph, question))


def goal_text(text: str) -> str:
    """The goal as it is written: of a text of guarded programs, its equation."""
    found = re.search(r"\bgoal\s+([^;]*);|\b(equal\s[^;]*);", re.sub(r"#[^\n]*", "", text))
    return " ".join((found[1] or found[2]).split()) if found else ""


# What the answer rests on

def explain(kat: Kat, case: Case, file: Path, turns: int) -> None:
    status, printed = kat.with_evidence(case.answer.evidence, "explain", str(file))
    case.explained = printed.splitlines() if status == 0 else []
    if case.answer.status == DIFFERENT:
        case.states, case.actions = read_replay(kat.with_evidence(case.answer.evidence, "replay", str(file))[1])
        case.steps = [steps_of(case, side) for side in case.sides]
        try_stores(kat, case, file, turns)
    machines = [side.machine for side in case.sides if side.machine]
    if case.answer.status == EQUAL and len(machines) == 2:
        try:
            case.together = together(machines[0], machines[1], case.question)
        except (Unreadable, KeyError) as why:
            case.notes.append(f"Which places belong together was not worked out: {why}.")


def steps_of(case: Case, side: CaseSide) -> list[Step]:
    if not side.machine:
        return []
    try:
        return follow(side.machine, case.states, case.actions)
    except (Unreadable, KeyError) as why:
        case.notes.append(f"The run of {side.name} was not worked out: {why}.")
        return []


def try_stores(kat: Kat, case: Case, file: Path, turns: int) -> None:
    with tempfile.NamedTemporaryFile("w", suffix=".evidence") as evidence:
        evidence.write(case.answer.evidence)
        evidence.flush()
        case.try_status, printed = kat.call("try", str(file), str(turns), evidence.name)
        case.tried = printed.splitlines()


def last_lines(case: Case) -> list[str]:
    """What `explain` says after the states of a string, with the names of the goal."""
    start = next((k for k, line in enumerate(case.explained) if " relates the ends" in line), len(case.explained))
    names = dict(zip(("left", "right"), (side.name for side in case.sides)))
    return [re.sub(r"\b(left|right)\b", lambda found: names.get(str(found[0]), str(found[0])), line)
            for line in case.explained[start:]]
