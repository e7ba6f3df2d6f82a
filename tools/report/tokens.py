"""Tokens, expressions and conditions, which problem files and flow files share."""

import re
import sys
from typing import Callable, NamedTuple

TOKEN = re.compile(r"(?P<skip>[ \t\r\n]+|\#[^\n]*)|(?P<name>[^\W\d]\w*)|(?P<number>[0-9]+)"
                   r"|(?P<sign>:=|==|!=|<=|>=|&&|\|\||[-<>!+*.()\[\]{},;=^])")
# The calls in each other that 200 levels of a text need, which the program allows.
MOST_CALLS = 6000
RELATIONS = ("==", "!=", "<", "<=", ">", ">=")
SIGNED = ("slt", "sle", "sgt", "sge")
CONVERSIONS = ("u8", "u16", "u32", "u64", "s8", "s16", "s32", "s64")


class Unreadable(Exception):
    """The text is none that this script reads. The program says what is wrong with it."""


class Span(NamedTuple):
    """A part of a text, by its first place and the place after it."""

    start: int
    end: int


class Token(NamedTuple):
    kind: str
    text: str
    span: Span


class Expression(NamedTuple):
    """A `number`, a `name`, a `call` of a function or conversion, or an operation `+ - *`, with its operands."""

    kind: str
    text: str
    parts: tuple["Expression", ...] = ()


class Condition(NamedTuple):
    """A `constant`, the `name` of a test, a `comparison` of two expressions, or `! && ||` of conditions."""

    kind: str
    text: str
    span: Span
    parts: tuple["Condition", ...] = ()
    operands: tuple[Expression, ...] = ()


def tokens_of(text: str) -> list[Token]:
    found, place = [], 0
    while place < len(text):
        match = TOKEN.match(text, place)
        if not match:
            raise Unreadable(f"no token at {place}")
        if match.lastgroup != "skip":
            found.append(Token(match.lastgroup or "", match[0], Span(*match.span())))
        place = match.end()
    return found


ALWAYS = Condition("constant", "true", Span(0, 0))


class Reader:
    """The tokens of a text, taken one by one."""

    def __init__(self, text: str) -> None:
        self.text, self.tokens, self.place = text, tokens_of(text), 0
        self.last = Span(0, 0)

    def item(self) -> None:
        """Reads an item of the text."""
        raise NotImplementedError

    def read_items(self) -> None:
        sys.setrecursionlimit(max(MOST_CALLS, sys.getrecursionlimit()))
        try:
            while self.peek():
                self.item()
        except RecursionError:
            raise Unreadable("nested too deep") from None

    def peek(self, ahead: int = 0) -> str:
        place = self.place + ahead
        return self.tokens[place].text if place < len(self.tokens) else ""

    def kind(self) -> str:
        return self.tokens[self.place].kind if self.place < len(self.tokens) else ""

    def start(self) -> int:
        """The place of the next token."""
        return self.tokens[self.place].span.start if self.place < len(self.tokens) else len(self.text)

    def take(self, wanted: str = "") -> str:
        if not self.peek() or wanted and self.peek() != wanted:
            raise Unreadable(f"{self.peek()!r} in place of {wanted!r}")
        token = self.tokens[self.place]
        self.place, self.last = self.place + 1, token.span
        return token.text

    def takes(self, wanted: str) -> bool:
        """Takes the next token if it is this one."""
        if self.peek() != wanted:
            return False
        self.take()
        return True

    def name(self) -> str:
        if self.kind() != "name":
            raise Unreadable(f"{self.peek()!r} in place of a name")
        return self.take()

    def names(self) -> list[str]:
        """Names between commas, and the semicolon after them."""
        found = [self.name()]
        while self.takes(","):
            found.append(self.name())
        self.take(";")
        return found

    def since(self, start: int) -> Span:
        return Span(start, self.last.end)

    # Expressions

    def expression(self) -> Expression:
        return self.operations("+-", self.product)

    def product(self) -> Expression:
        return self.operations("*", self.factor)

    def operations(self, signs: str, operand: Callable[[], Expression]) -> Expression:
        whole = operand()
        while self.peek() and self.peek() in signs:
            whole = Expression("operation", self.take(), (whole, operand()))
        return whole

    def factor(self) -> Expression:
        if self.takes("("):
            inside = self.expression()
            self.take(")")
            return inside
        if self.kind() == "number":
            return Expression("number", self.take())
        name = self.name()
        return Expression("call", name, self.arguments()) if self.peek() == "(" else Expression("name", name)

    def arguments(self) -> tuple[Expression, ...]:
        self.take("(")
        found = []
        while self.peek() != ")":
            found.append(self.expression())
            if not self.takes(","):
                break
        self.take(")")
        return tuple(found)

    # Conditions

    def condition(self) -> Condition:
        return self.joined("||", lambda: self.joined("&&", self.literal))

    def joined(self, sign: str, operand: Callable[[], Condition]) -> Condition:
        start = self.start()
        whole = operand()
        while self.takes(sign):
            right = operand()
            whole = Condition(sign, "", self.since(start), (whole, right))
        return whole

    def literal(self) -> Condition:
        start = self.start()
        if self.takes("!"):
            inside = self.literal()
            return Condition("!", "", self.since(start), (inside,))
        if self.peek() in ("true", "false"):
            return Condition("constant", self.take(), self.since(start))
        if self.peek() in SIGNED and self.peek(1) == "(":
            relation = self.take()
            return Condition("comparison", relation, Span(start, 0), (), self.arguments())._replace(span=self.since(start))
        if self.peek() == "(" and not self.opens_expression():
            self.take()
            inside = self.condition()
            self.take(")")
            return inside._replace(span=self.since(start))
        left = self.expression()
        if self.peek() in RELATIONS:
            relation, right = self.take(), self.expression()
            return Condition("comparison", relation, self.since(start), (), (left, right))
        if left.kind != "name":
            raise Unreadable("an expression in place of a condition")
        return Condition("name", left.text, self.since(start))

    def opens_expression(self) -> bool:
        """Whether the parenthesis here belongs to an expression: an operator or a relation follows the one that closes it."""
        depth, place = 0, self.place
        while place < len(self.tokens):
            depth += (self.tokens[place].text == "(") - (self.tokens[place].text == ")")
            place += 1
            if depth == 0:
                break
        after = self.tokens[place].text if place < len(self.tokens) else ""
        return after in ("+", "-", "*") or after in RELATIONS
