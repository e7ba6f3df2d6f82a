"""The page: one HTML file without a network."""

from pathlib import Path

from .cases import Case
from .html_text import table, tag
from .sections import row_of, section_html

HERE = Path(__file__).resolve().parent


def page_html(cases: list[Case]) -> str:
    style, script = ((HERE / name).read_text("utf-8") for name in ("page.css", "page.js"))
    sections = "".join(section_html(case, k) for k, case in enumerate(cases))
    head = ('<meta charset="utf-8"><meta name="viewport" content="width=device-width, initial-scale=1">'
            '<meta name="color-scheme" content="light dark">')
    head += tag("title", "What kat says") + tag("style", style) + tag("script", script)
    rows = [row_of(case, k) for k, case in enumerate(cases)]
    overview = table("Files", ["file", "answer", "evidence", "time"], rows, "files") if len(cases) > 1 else ""
    body = tag("main", tag("h1", "What kat says") + overview + sections)
    return f'<!DOCTYPE html>\n<html lang="en"><head>{head}</head><body>{body}</body></html>\n'
