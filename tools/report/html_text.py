"""HTML as text."""

import html
import re


def tag(name: str, inside: str, **attributes: str) -> str:
    """An element; `class_` and `aria_label` are written `class` and `aria-label`."""
    shown = "".join(f' {key.rstrip("_").replace("_", "-")}="{html.escape(value)}"' for key, value in attributes.items() if value)
    return f"<{name}{shown}>{inside}</{name}>"


def text(words: object) -> str:
    return html.escape(str(words), quote=False)


def path_text(words: str) -> str:
    """The name of a file, which may break after a slash."""
    return text(words).replace("/", "/<wbr>")


def code(words: object) -> str:
    return tag("code", text(words))


def with_code(words: str) -> str:
    """Text in which parts between backquotes are code."""
    return re.sub(r"`([^`]*)`", lambda found: f"<code>{found[1]}</code>", text(words))


def counted(count: int, what: str) -> str:
    """A number and a word, in the plural unless the number is one."""
    if count == 1:
        return f"1 {what}"
    return f"{count:,} {what[:-2]}es" if what.endswith("is") else f"{count:,} {what}s"


def table(caption: str, heads: list[str], rows: list[list[str]], class_: str = "", row_class: dict[int, str] = {}) -> str:
    """A table whose cells are HTML; the first cell of a row is its heading."""
    head = tag("thead", tag("tr", "".join(tag("th", text(it), scope="col") for it in heads)))
    body = "".join(tag("tr", tag("th", row[0], scope="row") + "".join(tag("td", cell) for cell in row[1:]),
                       class_=row_class.get(k, "")) for k, row in enumerate(rows))
    whole = tag("table", tag("caption", text(caption)) + head + tag("tbody", body), class_=class_)
    return tag("div", whole, class_="wide", tabindex="0", role="region", aria_label=caption)
