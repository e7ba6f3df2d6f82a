"""The section of a question: what the program says of it, and what this script shows of that."""

import json
import re
from .cases import Case, last_lines
from .facts import used_facts
from .html_text import code, counted, path_text, table, tag, text, with_code
from .problems import statement_at
from .prover import DIFFERENT, EQUAL, refusal_of
from .refusals import Fault, fault_of, reason_of
from .runs import Step, groups_of
from .tokens import Span
from .sides import View, marks_of_run, sides_html, views_of

AROUND = 3
MOST_ROWS = 300
# More states times tests are shown with what changes only, so that a page stays small.
MOST_TESTS = 2000
CODE_LEGEND = ("▶ next step", "✓ condition is true", "✗ condition is false", "✖ stops, or the sides part", "■ end", "grey: passed")
DIFFERS = "bar beside a number: a line that only this side has"
GRAPH_LEGEND = ("thick: the path of the string", "thickest: its part in this state", "thick and dashed: stops here")


def section_html(case: Case, k: int) -> str:
    prefix = f"p{k}-"
    word = case.kind() if case.answer.status in (EQUAL, DIFFERENT) else case.answer.word or "no answer"
    facts = [f"{case.answer.seconds:.3f} s"]
    if case.answer.evidence:
        facts = [counted(case.answer.size, "pair" if case.answer.status == EQUAL else "action"),
                 counted(case.answer.hypotheses, "hypothesis"), *facts]
    head = tag("h2", path_text(case.title), id=f"p{k}")
    answer = tag("span", text(word), class_=f"answer {case.kind()}")
    line = tag("p", answer + " " + tag("span", text(", ".join(facts)), class_="facts"))
    goal = tag("p", "goal " + code(case.goal_text)) if case.goal_text else ""
    notes = "".join(tag("p", with_code(note), class_="note") for note in case.notes)
    if case.answer.status == DIFFERENT:
        body = different_html(case, prefix)
    elif case.answer.status == EQUAL:
        body = equal_html(case, prefix)
    else:
        body = refused_html(case)
    has_steps = bool(case.states and case.sides)
    made = ""
    if any(side.kind == "guarded program" for side in case.sides):
        made = tag("details", tag("summary", with_code("The problem file that `gkat` makes of it")) + tag("pre", text(case.problem_text)))
    class_ = "steps" if has_steps else ""
    return tag("section", head + line + goal + body + notes + made, class_=class_, aria_labelledby=f"p{k}")


# Refused

def refused_html(case: Case) -> str:
    refusal = refusal_of(case.answer.word)
    if not refusal:
        return ""
    fault = fault_of(case.data or case.text.encode(), refusal)
    if not fault:
        return tag("p", with_code(reason_of(refusal.word)))
    token = fault.text[fault.start:fault.end]
    there = f"at {code(token)}. " if token.strip() else "at the end. "
    heading = tag("p", tag("strong", f"Line {fault.line}, column {fault.start + 1}, ") + there + with_code(fault.reason))
    return heading + tag("div", fault_lines(case.text, fault), class_="side")


def fault_lines(words: str, fault: Fault) -> str:
    lines = words.split("\n")
    rows = []
    for number in range(max(1, fault.line - AROUND), min(len(lines), fault.line + AROUND) + 1):
        shown, sign = text(lines[number - 1]), ""
        if number == fault.line:
            bad = tag("mark", text(fault.text[fault.start:fault.end]) or "␣")
            shown, sign = text(fault.text[:fault.start]) + bad + text(fault.text[fault.end:]), "✖"
        rows.append(code_line(str(number), sign, shown, " fault" if number == fault.line else ""))
        if number == fault.line:
            caret = text(blank(fault.text[:fault.start])) + tag("span", "^" * max(1, fault.end - fault.start), class_="caret")
            rows.append(code_line("", "", caret, " fault"))
    return tag("div", "".join(rows), class_="code whole", role="group", aria_label="the text around the fault", tabindex="0")


def code_line(number: str, sign: str, shown: str, class_: str) -> str:
    return (f'<div class="line{class_}"><span class="number">{number}</span><span class="sign" aria-hidden="true">{sign}</span>'
            f'<code>{shown}</code></div>')


def blank(words: str) -> str:
    return "".join("\t" if letter == "\t" else " " for letter in words)


# Different

def different_html(case: Case, prefix: str) -> str:
    views = views_of(case)
    said = tag("ul", "".join(tag("li", line_html(case, views, line)) for line in last_lines(case)))
    proved = tag("h3", "Where the sides part" if len(case.sides) != 1 else "Where the triple fails") + said
    if not views or not case.states:
        return proved + tag("pre", text("\n".join(case.explained)))
    proved += "".join(parted_words(case, view, steps) for view, steps in zip(views, case.steps))
    marks = [marks_of_run(view, steps, len(case.states)) for view, steps in zip(views, case.steps)]
    data = [{"marks": {name: state for side in marks for name, state in side[k].items()}} for k in range(len(case.states))]
    ways = [{name: state for step in side for name, state in step.items()} for side in marks]
    script = f'<script type="application/json">{json.dumps(data, separators=(",", ":"))}</script>'
    states = "".join(tag("template", state_html(case, views, k), data_state=str(k)) for k in range(len(case.states)))
    note = tag("p", "The answer, the states and the lists are what kat says. The places in the code and in the graphs are worked "
                    "out by this script and not proved.", class_="note")
    return (proved + stores_html(case) + stepper_html() + sides_html(case, prefix, views, ways) + legend(views) + note
            + states_table(case, views) + names_html(case) + states + script)


def line_html(case: Case, views: list[View], line: str) -> str:
    """A line of `explain`, with the statement that its path means."""
    found = re.match(r"(\w+) (?:cannot continue|has more to do).* it is at ([0-9.]+)$", line)
    view = next((view for view in views if found and view.side.name == found[1]), None)
    if not found or not view or not view.side.term:
        return text(line)
    span = statement_at(view.side.term, found[2])
    return text(line) + text(f", {view.place(span)}: ") + code(case.text[slice(*span)])


def stepper_html() -> str:
    names = (("First", "« First"), ("Back", "‹ Back"), ("Next", "Next ›"), ("Last", "Last »"))
    buttons = "".join(f'<button type="button" aria-label="{name} state">{shown}</button>' for name, shown in names)
    keys = tag("span", "or the keys ← and →", class_="note")
    row = tag("div", buttons + tag("span", "", class_="at") + keys, class_="buttons")
    return (f'<div class="stepper" role="group" aria-label="steps of the string" hidden>{row}'
            '<div class="said" aria-live="polite" tabindex="0" role="region" aria-label="the state"></div></div>')


def legend(views: list[View]) -> str:
    return legend_of(CODE_LEGEND, views, GRAPH_LEGEND)


def legend_of(first: tuple[str, ...], views: list[View], last: tuple[str, ...]) -> str:
    """What marks mean: in the code, beside lines that differ, and in graphs, if there are any."""
    words = [*first, *([DIFFERS] if any(view.only_here for view in views) else []),
             *(last if any(view.drawing for view in views) else ())]
    return "" if not words else tag("ul", "".join(tag("li", text(it)) for it in words), class_="legend", aria_label="legend")


def state_html(case: Case, views: list[View], k: int) -> str:
    """What holds in a state, what each side does there, and the action that follows."""
    rows = [(view.side.name, side_words(case, view, steps, k)) for view, steps in zip(views, case.steps)]
    if k < len(case.actions):
        rows.append(("the string", "does " + code(case.question.action_words(case.actions[k]))))
    else:
        rows.append(("the string", "ends here"))
    if case.states[k]:
        rows.append(("holds", tests_html(case, k)))
    return tag("dl", "".join(tag("dt", text(name)) + tag("dd", words) for name, words in rows))


def tests_html(case: Case, k: int) -> str:
    before = case.states[k - 1] if k else {}
    parts = [(before.get(test) == truth, case.question.test_words(test, truth)) for test, truth in case.states[k].items()]
    parts.sort(key=lambda part: part[0])
    if k and len(case.states) * len(parts) > MOST_TESTS:
        parts = [part for part in parts if not part[0]]
        return tag("ul", "".join(tag("li", code(words), class_="new") for _, words in parts), class_="tests") + "the others as before"
    items = [tag("li", code(words), class_="" if is_old or k == 0 else "new", title="" if is_old or k == 0 else "changed")
             for is_old, words in parts]
    return tag("ul", "".join(items), class_="tests")


def side_words(case: Case, view: View, steps: list[Step], k: int) -> str:
    if not steps:
        return "not worked out"
    if k >= len(steps):
        return f"stopped in state {len(steps) - 1}: " + stop_words(case, view, steps[-1])
    step, blocks = steps[k], blocks_words(view, steps[k])
    if step.status == "acts":
        return blocks + action_words(case, view, step) + where_words(view, step)
    if step.status == "ended":
        return blocks + "has ended"
    return blocks + tag("span", "parts: ", class_="parts") + stop_words(case, view, step)


def parted_words(case: Case, view: View, steps: list[Step]) -> str:
    """Where a side parts from the string, as this script works it out; of programs `explain` says it."""
    if view.side.kind == "prog" or not steps or steps[-1].status == "ended":
        return ""
    name = tag("b", text(view.side.name))
    return tag("p", f"In state {len(steps) - 1}, as worked out by this script, {name} {stop_words(case, view, steps[-1])}.")


def where_words(view: View, step: Step) -> str:
    place = view.place(step.way.span)
    return f" ({place})" if place else ""


def action_words(case: Case, view: View, step: Step) -> str:
    """The action of a way: as a program has it, but for a graph, whose blocks make one assignment."""
    if step.way.action is not None and step.way.action >= 0 and not step.way.words and view.side.kind == "graph":
        return code(case.question.action_words(step.way.action))
    return code(case.text[slice(*step.way.span)].rstrip(";")) if step.way.span else "an action"


def stop_words(case: Case, view: View, step: Step) -> str:
    """Why a side cannot follow the string."""
    does, where = action_words(case, view, step), where_words(view, step)
    there = case.text[slice(*step.way.span)] if step.way.span else ""
    return {"ended": "has ended",
            "early": "has ended too early, actions of the string are left",
            "stops": f"cannot continue{where}, " + with_code(step.way.words.replace("a test", f"the test `{there}`")),
            "other": f"cannot continue with the string, it does {does}{where}",
            "more": f"has more to do, {does}{where}"}[step.status]


def blocks_words(view: View, step: Step) -> str:
    """The blocks of a flow graph that a way passes."""
    if not view.side.graph:
        return ""
    headings = {block.heading: name for name, block in view.side.graph.blocks.items()}
    names = [headings[seen.span] for seen in step.way.seen if seen.span in headings]
    return "through " + code(" → ".join(names)) + ": " if names else ""


def states_table(case: Case, views: list[View]) -> str:
    rows, parted = [], {}
    for k in range(min(len(case.states), MOST_ROWS)):
        changed = [case.question.test_words(test, truth) for test, truth in case.states[k].items()
                   if not k or case.states[k - 1].get(test) != truth] 
        action = code(case.question.action_words(case.actions[k])) if k < len(case.actions) else ""
        rows.append([str(k), "<br>".join(map(code, changed)), action,
                     *(side_words(case, view, steps, k) for view, steps in zip(views, case.steps))])
        if any(k + 1 == len(steps) and steps[k].status != "ended" for steps in case.steps):
            parted[k] = "parted"
    if not rows:
        return ""
    heads = ["state", "tests that changed", "then", *(view.side.name for view in views)]
    return tag("details", tag("summary", f"All {counted(len(case.states), 'state')} as a table")
               + table("The string: a state is marked where a side cannot follow it", heads, rows, row_class=parted))


def stores_html(case: Case) -> str:
    lines = case.tried
    if case.try_status == DIFFERENT and lines:
        names = [side.name for side in case.sides]
        ends = "".join(tag("li", text(name) + ": " + code(line)) for name, line in zip(names, lines[1:]))
        return tag("h3", "From a store") + tag("p", "The goal is false from the store " + code(lines[0]) + " (found by trying; "
                   "it is proved that such a store makes the goal false):") + tag("ul", ends)
    if case.try_status == EQUAL and lines:
        return tag("h3", "From a store") + tag("p", "No store was found from which the goal is false (" + text(lines[0]) +
                   "). So the difference may be one that no store shows.")
    return ""


# Equal

def equal_html(case: Case, prefix: str) -> str:
    views = views_of(case) if case.sides else []
    marks = [mark for view in views for mark in view.marks]
    words = (*(["number and colour: both sides do this together"] if any(mark.group is not None for mark in marks) else []),
             *(["struck out: no run gets here"] if any(mark.is_never for mark in marks) else []))
    sides = sides_html(case, prefix, views, []) + legend_of(words, views, ()) if views else ""
    return sides + groups_html(case, views) + used_html(case) + names_html(case)


def groups_html(case: Case, views: list[View]) -> str:
    """Which parts of both sides belong together."""
    if not case.together or len(views) != 2:
        return ""
    groups = groups_of(case.together.pairs)
    if not case.together.is_whole:
        return tag("p", "Which places belong together was not worked out: there are too many.", class_="note")
    rows = []
    for k, group in enumerate(groups):
        cells = ["".join(places_words(case, view, span) for span in sorted(spans)) for view, spans in zip(views, group)]
        rows.append([tag("span", str(k + 1), class_=f"chip g{k % 8}"), *cells])
    never = [f"{view.side.name} {view.place(mark.span)}" for view in views for mark in view.marks if mark.is_never]
    whose = f" of {views[0].side.name}" if case.goal and case.goal.kind == "below" else ""
    note = tag("p", text(f"In every run{whose} that ends, both sides do the same steps in the same order. Those with one number and "
                         "colour are done together. This script works them out from the facts of the question; they are not "
                         "proved."), class_="note")
    gone = tag("p", "No run gets to the parts that are struck out: " + text(", ".join(dict.fromkeys(never)))
               + ". This is worked out in the same way.", class_="note") if never else ""
    if not rows:
        return gone
    heads = ["number", *(view.side.name for view in views)]
    return tag("h3", "What belongs together") + note + table("Steps that both sides do together", heads, rows) + gone


def places_words(case: Case, view: View, span: Span) -> str:
    words = " ".join(case.text[slice(*span)].rstrip(";").split())
    return tag("div", text(view.place(span)) + " " + code(words if len(words) < 60 else words[:57] + ".."))


def used_html(case: Case) -> str:
    if not case.explained:
        return tag("p", "`explain` gave no answer in time.", class_="note")
    used = used_facts(case.explained, case.question, case.problem_text)
    first = [line for line in case.explained if line.startswith(("equal:", "hypotheses "))]
    heading = tag("h3", "What the proof used")
    lines = tag("ul", "".join(tag("li", text(line)) for line in first))
    parts = []
    if used.stated:
        parts.append(tag("p", "Stated hypotheses:") + tag("ul", "".join(tag("li", code(it)) for it in used.stated[:MOST_ROWS])))
    if used.after:
        rows = [[code(action), ", ".join(map(code, tests))] for action, tests in used.after.items()]
        parts.append(table("Facts of assignments", ["after", "is known whether"], rows))
    if used.together:
        parts.append(tag("p", "Facts between comparisons, of which each line is about those in it:")
                     + tag("ul", "".join(tag("li", code(it)) for it in used.together[:MOST_ROWS])))
    if not parts:
        parts = [tag("p", "No hypothesis: the sides are equal by the laws of the algebra alone.")]
    elif used.size() > 12:
        parts = [tag("details", tag("summary", counted(used.size(), "fact")) + "".join(parts))]
    return heading + lines + "".join(parts)


def names_html(case: Case) -> str:
    """What names of tests and actions stand for, where comments of the text say so."""
    if not case.question or not case.question.said:
        return ""
    rows = [[code(name), code(words)] for name, words in case.question.said.items()]
    return tag("details", tag("summary", f"{counted(len(rows), 'name')} of tests and actions")
               + table("What the comments of the text say", ["name", "is"], rows))


def row_of(case: Case, k: int) -> list[str]:
    """The row of the table of all files."""
    size = ""
    if case.answer.evidence:
        size = counted(case.answer.size, "pair" if case.answer.status == EQUAL else "action")
    word = case.answer.word or "no answer"
    link, answer = tag("a", path_text(case.title), href=f"#p{k}"), tag("span", text(word), class_=case.kind())
    return [link, answer, size, f"{case.answer.seconds:.3f} s"]
