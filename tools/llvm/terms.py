"""Expressions and conditions of flow texts. An expression is a number or a text, a condition is a text."""

import re

RESERVED = set("sort fun var graph block cut goto if else return abort assert equal rounds split true false u8 u16 u32 u64 "
               "s8 s16 s32 s64 slt sle sgt sge m mem before after".split())
RELATIONS = {"eq": "==", "ne": "!=", "lt": "<", "le": "<=", "gt": ">", "ge": ">="}
VARIABLE = re.compile(r"\b(?!true\b|false\b)[A-Za-z_]\w*\b(?!\()")


def fresh(name, taken):
    while name in taken:
        name += "_"
    return name


def plain(name):
    """A name of a flow text for one of IR."""
    name = re.sub(r"[^A-Za-z0-9_]", "_", name)
    return f"v{name}" if name[0].isdigit() else fresh(name, RESERVED)


def exact(name):
    """A name for a function or a global of IR; two of them never have one name. The letters used are not ASCII."""
    name = re.sub(r"[^A-Za-z0-9_]", lambda found: "\u02cc" if found[0] == "." else f"\u02c8{ord(found[0]):x}\u02c8", name)
    return f"\u02c8n{name}" if name[0].isdigit() else name


def closed(term):
    """A text in parentheses, unless it is a name, a number, or a function of such."""
    return term if re.fullmatch(r"\w+(\([^()]*\))?", str(term)) else f"({term})"


def combine(op, left, right, width):
    """A sum, difference or product; one of numbers is a number."""
    if isinstance(left, int) and isinstance(right, int):
        return {"+": left + right, "-": left - right, "*": left * right}[op] % 2 ** width
    if right == (1 if op == "*" else 0):
        return left
    return f"{closed(left)} {op} {closed(right)}"


def convert(word, value, old, new):
    """A value of a width, read without or with sign, at another width."""
    if isinstance(value, int):
        return (value - (value >> old - 1 << old if word == "s" else 0)) % 2 ** new
    return value if old == new else f"{word}{new}({value})"


def relation(op, left, right, width):
    """A comparison; one of two numbers is one at 64 bits."""
    if op[0] == "s" and isinstance(left, int) and isinstance(right, int):
        left, right = convert("s", left, width, 64), convert("s", right, width, 64)
    return f"{op}({left}, {right})" if op[0] == "s" else f"{left} {op} {right}"


def negate(cond):
    return {"true": "false", "false": "true"}.get(cond, f"!({cond})")


def join(op, left, right):
    """A conjunction or disjunction; one with a truth value is decided."""
    unit, zero = ("true", "false") if op == "&&" else ("false", "true")
    if zero in (left, right):
        return zero
    return right if left == unit else left if right == unit else f"({left}) {op} ({right})"


def choice(cond, left, right):
    return join("||", join("&&", cond, left), join("&&", negate(cond), right))
