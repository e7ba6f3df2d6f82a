"""What a server must know of a text without the prover: tokens, places, the names that it declares and its goals."""

from __future__ import annotations

import bisect
import re
from functools import cached_property
from typing import Iterator, NamedTuple

# What a keyword declares in each language.
KINDS = {"kat": {"test": "test", "action": "action", "var": "variable", "term": "term", "prog": "program"},
         "gkat": {"test": "test", "action": "action"},
         "flow": {"sort": "sort", "fun": "function", "var": "variable", "graph": "graph", "block": "block"}}
# After these words a name is that of a block.
BEFORE_BLOCKS = frozenset({"block", "goto", "else"})
GOALS = {"kat": "goal", "gkat": "equal", "flow": "equal"}
BRACED = frozenset({"prog", "graph", "block"})
SORTED = frozenset({"fun", "var"})
GAP = re.compile(r"(?:[ \t\r\n]+|#[^\n]*)*")
SIMPLE = re.compile(r"[A-Za-z_][A-Za-z0-9_]*|[0-9]+|:=|==|!=|<=|>=|&&|\|\||[;,{}()\[\]=<>+\-*.!^]")
LINE_END = re.compile(r"\r\n|\n|\r")


class Token(NamedTuple):
    """A token, with its place in characters."""

    start: int
    end: int
    text: str

    @property
    def is_name(self) -> bool:
        return self.text.isidentifier()


class Definition(NamedTuple):
    """A name that the text declares, the item that does so, and the graph that a block belongs to."""

    kind: str
    token: Token
    item: tuple[int, int]
    graph: tuple[int, int] | None


def token_end(text: str, start: int) -> int:
    """The end of the token that begins at a place; no token begins with another character, which is then taken as one. Of
    characters that are newer than this Python the prover may know more."""
    found = SIMPLE.match(text, start)
    end = found.end() if found else start + 1
    # A name may begin and go on with characters that are not ASCII, as Unicode's XID_Start and XID_Continue say.
    if text[start].isidentifier() and not text[start:end + 1].isascii():
        while end < len(text) and f"_{text[end]}".isidentifier():
            end += 1
    return end


def tokens_of(text: str) -> list[Token]:
    """The tokens of a text, without spaces and comments."""
    found, at = [], GAP.match(text).end()
    while at < len(text):
        end = token_end(text, at)
        found.append(Token(at, end, text[at:end]))
        at = GAP.match(text, end).end()
    return found


class Text:
    """A text of a document, in one of the languages `kat`, `gkat` and `flow`."""

    def __init__(self, text: str, language: str) -> None:
        self.text, self.language = text, language

    @cached_property
    def bytes(self) -> bytes:
        return self.text.encode("utf-8", "surrogatepass")

    @cached_property
    def tokens(self) -> list[Token]:
        return tokens_of(self.text)

    @cached_property
    def line_starts(self) -> list[int]:
        return [0, *(it.end() for it in LINE_END.finditer(self.text))]

    def place(self, at: int) -> dict[str, int]:
        """The line and the column in units of UTF-16 of a character, both from 0, as the protocol counts."""
        line = bisect.bisect_right(self.line_starts, at) - 1
        before = self.text[self.line_starts[line]:at]
        return {"line": line, "character": len(before.encode("utf-16-le", "surrogatepass")) // 2}

    def character(self, place: dict[str, int]) -> int:
        """The character at a place of the protocol; the end of the line where the line is shorter."""
        if not 0 <= place["line"] < len(self.line_starts):
            return len(self.text)
        start = self.line_starts[place["line"]]
        line = LINE_END.split(self.text[start:], maxsplit=1)[0].encode("utf-16-le", "surrogatepass")
        return start + len(line[:2 * place["character"]].decode("utf-16-le", "replace"))

    def range(self, start: int, end: int) -> dict[str, dict[str, int]]:
        return {"start": self.place(start), "end": self.place(end)}

    def character_of_byte(self, offset: int) -> int:
        """The character that begins at a byte, or that the byte is in."""
        return len(self.bytes[:offset].decode("utf-8", "ignore"))

    @cached_property
    def token_starts(self) -> list[int]:
        return [it.start for it in self.tokens]

    def index_at(self, at: int) -> int | None:
        """The index of the token at a character. A name or number also has the character after its last one."""
        k = bisect.bisect_right(self.token_starts, at) - 1
        if k > 0 and self.tokens[k].start == at and self.tokens[k - 1].end == at and not self.tokens[k].text.isalnum():
            k -= self.tokens[k - 1].text.isalnum()
        return k if k >= 0 and at <= self.tokens[k].end else None

    def token_at(self, at: int) -> Token | None:
        """The token that begins at a character, or that the character is in."""
        k = bisect.bisect_right(self.token_starts, at) - 1
        return self.tokens[k] if k >= 0 and at < self.tokens[k].end else None

    def fault_range(self, offset: int) -> dict[str, dict[str, int]]:
        """The range of the token at a byte; at the end of the text that of the last token, after which something is missing."""
        at = self.character_of_byte(offset)
        token = self.tokens[-1] if at >= len(self.text) and self.tokens else self.token_at(at)
        return self.range(token.start, token.end) if token else self.range(at, min(at + 1, len(self.text)))

    def texts_at(self, offset: int) -> tuple[str, str]:
        """The token before a byte, and the one that begins there; the empty text where there is none."""
        k = bisect.bisect_left(self.token_starts, self.character_of_byte(offset))
        return self.tokens[k - 1].text if k > 0 else "", self.tokens[k].text if k < len(self.tokens) else ""

    def item_end(self, first: int) -> int:
        """The index after the last token of the item that begins with a token."""
        depth, is_braced = 0, self.tokens[first].text in BRACED
        for k in range(first, len(self.tokens)):
            depth += {"{": 1, "}": -1}.get(self.tokens[k].text, 0)
            if depth <= 0 and self.tokens[k].text == ("}" if is_braced else ";"):
                return k + 1
        return len(self.tokens)

    def span(self, first: int) -> tuple[int, int]:
        """The characters of the item that begins with a token."""
        return self.tokens[first].start, self.tokens[self.item_end(first) - 1].end

    def declared(self, first: int) -> Iterator[Token]:
        """The names that an item declares."""
        word, k = self.tokens[first].text, first + 1
        # In a flow file a sort precedes the names of functions and variables.
        k += word in SORTED and self.language == "flow"
        while k < len(self.tokens) and self.tokens[k].is_name:
            yield self.tokens[k]
            k += 2
            if word in BRACED or word in ("term", "fun") or k > len(self.tokens) or self.tokens[k - 1].text != ",":
                return

    @cached_property
    def definitions(self) -> list[Definition]:
        found, graph, kinds = [], None, KINDS[self.language]
        for k, token in enumerate(self.tokens):
            if token.text in kinds:
                item = self.span(k)
                graph = item if token.text == "graph" else graph
                owner = graph if token.text == "block" else None
                found += [Definition(kinds[token.text], name, item, owner) for name in self.declared(k)]
        return found

    def definition_at(self, at: int) -> tuple[Token, Definition] | None:
        """The name at a character, and what it is, if the text declares it."""
        k = self.index_at(at)
        if k is None:
            return None
        token = self.tokens[k]
        is_block = self.language == "flow" and k > 0 and self.tokens[k - 1].text in BEFORE_BLOCKS
        for it in self.definitions:
            in_scope = (it.kind == "block") == is_block and (it.graph is None or it.graph[0] <= token.start < it.graph[1])
            if it.token.text == token.text and in_scope:
                return token, it
        return None

    @cached_property
    def goals(self) -> list[tuple[Token, tuple[int, int]]]:
        """The keyword of each goal, and its item."""
        word, previous = GOALS[self.language], ("", *(it.text for it in self.tokens))
        # In a problem file `equal` is part of a goal; in the others it is an item.
        return [(token, self.span(k)) for k, token in enumerate(self.tokens)
                if token.text == word and previous[k] in ("", ";", "}")]

    def with_goal(self, number: int) -> bytes:
        """The text with this goal only; spaces replace the bytes of the others, so that all else keeps its place."""
        parts, at = [], 0
        for k, (_, (start, end)) in enumerate(self.goals):
            if k != number:
                parts += [self.text[at:start], " " * len(self.text[start:end].encode("utf-8", "surrogatepass"))]
                at = end
        return "".join([*parts, self.text[at:]]).encode("utf-8", "surrogatepass")
