"""The functions that a pass changed, and the flow texts that are tried for each."""

import argparse
import sys

from graph import Builder
from ir import Unread
from module import Module
from names import share
from shape import copied, cut, pruned
from texts import flow_text
from values import Options, Scope

# A choice is the cuts of both sides, and whether the file says `split` or the loops of the first side are copied.
FIRST = ["heads heads", "joins joins", "bodies heads", "tests tests"]
OTHERS = "heads heads twice;heads heads once;heads heads split;exits exits;heads turns;tests exits;ends ends;bodies bodies;" \
         "joins heads;heads joins;exits joins"
CHOICES = FIRST + OTHERS.split(";") + [
    f"{way} {more}" for more in ("twice", "twice split", "once", "once split", "split") for way in FIRST]
sys.setrecursionlimit(10_000)


def options(doc):
    """A reader of the words of a command, with what both commands have."""
    parser = argparse.ArgumentParser(description=doc)
    parser.add_argument("--strict", action="store_true",
                        help="assert what the flags nuw, nsw, exact and inbounds promise, and that divisions are defined")
    parser.add_argument("--loads", choices=["strict"], help="assert before each load that its address is valid")
    parser.add_argument("--returns-only", action="store_true", help="compare only runs that return, and no calls before")
    parser.add_argument("--refine", action="store_true", help="AFTER.ll may do anything where BEFORE.ll does not return")
    return parser


def chosen(words) -> Options:
    """What the words of a command say of the question."""
    return Options(words.strict, words.loads, words.returns_only, words.refine)


def modules(before, after, names=("", "")):
    """Both modules of two texts; the declarations of the first hold for both."""
    first = Module(before, None, names[0])
    return first, Module(after, first, names[1])


def changed(before, after):
    """The names of the functions that both modules define with different texts; all of them where a type has changed."""
    types = any(before.types.get(name, type) != type for name, type in after.types.items())
    return [name for name, text in after.texts.items() if name in before.texts and (types or before.texts[name] != text)]


def tries(before, after, name, options=Options()):
    """Pairs of a choice and its flow text, each text once, for a function of two modules."""
    if name not in before.texts or name not in after.texts:
        raise Unread(f"no function {name} in both files")
    first, second = before.function(name), after.function(name)
    if first.type != second.type or [type for _, type in first.params] != [type for _, type in second.params]:
        raise Unread("both functions do not have the same parameters and results")
    scope, seen = Scope(), set()
    left = Builder(before, first, scope, (), options)
    right = Builder(after, second, scope, left.params, options)
    graphs = [pruned(left.build()), pruned(right.build())]
    share(graphs, left.params, scope)
    first, second = map(pruned, graphs)
    for choice in CHOICES:
        left, right, *more = choice.split()
        side = copied(first, "twice" in more) if {"once", "twice"} & set(more) else first
        text = flow_text([cut(side, left), cut(second, right)], scope, "split" in more)
        if text not in seen:
            seen.add(text)
            yield choice, text
