"""Code as numbered lines in which some parts are marked."""

import html
from typing import NamedTuple, Optional

from .tokens import Span, Token, tokens_of

LONG = 76


class Line(NamedTuple):
    """A line of code: its number, how deep it is, and the parts of the text that it has."""

    number: int
    depth: int
    parts: tuple[Span, ...]


class Mark(NamedTuple):
    """A marked part: its name for the script, and the number of its group with what belongs to it."""

    span: Span
    name: str
    group: Optional[int] = None
    title: str = ""
    is_never: bool = False


def lines_of(text: str, code: tuple[Span, ...], is_anew: bool) -> list[Line]:
    """The lines as they are written, or with a line for each statement."""
    lines: list[Line] = []
    for span in code:
        lines += laid_out(text, span, len(lines)) if is_anew else as_written(text, span)
    return lines


def is_crowded(text: str, code: tuple[Span, ...]) -> bool:
    """Whether blocks have long lines, or lines with several statements."""
    lines = [text[slice(*line.parts[0])] for span in code for line in as_written(text, span)]
    return any(line.count(";") > (2 if line.lstrip().startswith(("block", "cut")) else 1) or len(line) > LONG for line in lines)


def as_written(text: str, span: Span) -> list[Line]:
    number, place, lines = text.count("\n", 0, span.start) + 1, span.start, []
    while place < span.end:
        end = text.find("\n", place, span.end)
        end = span.end if end < 0 else end
        lines.append(Line(number, 0, (Span(place, end),)))
        number, place = number + 1, end + 1
    return lines


def laid_out(text: str, span: Span, before: int) -> list[Line]:
    """A line for each statement."""
    lines: list[Line] = []
    row: list[Token] = []
    depth = 0

    def close() -> None:
        if row:
            lines.append(Line(before + len(lines) + 1, depth, joined(text, row)))
            row.clear()

    tokens = [Token(token.kind, token.text, Span(token.span.start + span.start, token.span.end + span.start))
              for token in tokens_of(text[slice(*span)])]
    for k, token in enumerate(tokens):
        following = tokens[k + 1].text if k + 1 < len(tokens) else ""
        if token.text == "}":
            close()
            depth -= 1
        row.append(token)
        if token.text == "{":
            close()
            depth += 1
        elif token.text == ";" or token.text == "}" and following != "else":
            close()
    close()
    return lines


def joined(text: str, row: list[Token]) -> tuple[Span, ...]:
    """The parts of the text that some tokens take, cut at comments and ends of lines."""
    parts = [row[0].span]
    for token in row[1:]:
        between = text[parts[-1].end:token.span.start]
        if "\n" in between or "#" in between:
            parts.append(token.span)
        else:
            parts[-1] = Span(parts[-1].start, token.span.end)
    return tuple(parts)


def line_at(lines: list[Line], span: Span) -> int:
    """The number of the line where a part begins, or 0."""
    return next((line.number for line in lines for part in line.parts if part.start <= span.start < part.end), 0)


def listing(text: str, lines: list[Line], marks: list[Mark], label: str, end: str,
            only_here: frozenset[int] = frozenset()) -> str:
    """The lines as HTML. Marks have names by which a script finds them, and so has the last line."""
    if not lines:
        return ""
    marks = sorted(marks)
    rows = [f'<div class="code" role="group" aria-label="{html.escape(label)}" tabindex="0">']
    for line in lines:
        shown = " ".join(marked(text, part, marks) for part in line.parts)
        name = f' data-m="{end}"' if line is lines[-1] else ""
        apart = " apart" if line.number in only_here else ""
        rows.append(f'<div class="line{apart}"{name}><span class="number">{line.number}</span>'
                    '<span class="sign" aria-hidden="true"></span>'
                    f'<code style="--depth:{line.depth}">{shown}</code></div>')
    return "".join([*rows, "</div>"])


def marked(text: str, part: Span, marks: list[Mark]) -> str:
    """A part of a line with its marks."""
    shown, place = [], part.start
    for mark in marks:
        start, end = max(mark.span.start, place), min(mark.span.end, part.end)
        if start >= end or start < part.start:
            continue
        shown.append(html.escape(text[place:start], quote=False))
        shown.append(mark_html(mark, html.escape(text[start:end], quote=False)))
        place = end
    return "".join([*shown, html.escape(text[place:part.end], quote=False)])


def mark_html(mark: Mark, inside: str) -> str:
    classes = "m" + ("" if mark.group is None else f" g{mark.group % 8}") + (" never" if mark.is_never else "")
    badge = "" if mark.group is None else f'<span class="badge">{mark.group + 1}</span>'
    title = f' title="{html.escape(mark.title)}"' if mark.title else ""
    name = f' data-m="{mark.name}"' if mark.name else ""
    return f'<span class="{classes}"{name}{title}>{inside}{badge}</span>'
