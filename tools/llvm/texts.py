"""Prints flow graphs as the text that asks whether both always return the same."""

import re


def block_text(name, block, results):
    parts = [f"assert {stmt['']};" if "" in stmt else f"{', '.join(stmt)} := {', '.join(stmt.values())};" for stmt in block.stmts]
    word, terms, targets = block.jump
    rest = f"{terms[0]} goto {' else '.join(targets)}" if word == "if" else ", ".join(terms[:results] + targets)
    return f"  {'cut ' * block.cut}block {name} {{ {' '.join([*parts, word, rest]).rstrip()}; }}\n"


def flow_text(graphs, scope, split):
    """The text that asks whether both graphs always return the same. Memory is a result where a graph sets it."""
    every = [block for blocks in graphs for block in blocks.values()]
    kept = any("m" in stmt for block in every for stmt in block.stmts) or any(block.jump[1][-1] != "m" for block in every
                                                                             if block.jump[0] == "return")
    results = None if kept else -1
    texts = ["".join(block_text(name, block, results) for name, block in blocks.items()) for blocks in graphs]
    words = set(re.findall(r"\w+", "".join(texts)))
    heads = [f"fun {sort} {name}({', '.join(args)});\n" for name, (sort, args) in scope.functions.items() if name in words]
    for sort in dict.fromkeys(scope.sorts.values()):
        names = [name for name in scope.sorts if scope.sorts[name] == sort and name in words]
        heads += [f"var {sort} {', '.join(names)};\n"] if names else []
    sorts = dict.fromkeys(word for head in heads for word in re.findall(r"\bmem\b|\u02c8sort_\w+", head))
    heads = [f"sort {sort};\n" for sort in sorts] + heads
    heads += [f"graph {word} {{\n{text}}}\n" for word, text in zip(("before", "after"), texts)]
    return "".join(heads) + "split;\n" * split + "equal before, after;\n"
