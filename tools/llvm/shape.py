"""Changes of flow graphs that keep what they return: what nothing needs is dropped, loops are copied, and cuts are marked."""

from dataclasses import replace

from names import live
from terms import fresh


def loops(blocks):
    """The blocks of each loop, by the target of back edges of the walk in depth that takes first targets first."""
    found, path, done = {}, [], set()

    def visit(name):
        path.append(name)
        for other in blocks[name].jump[2]:
            if other in path:
                extend(found.setdefault(other, {other}), name)
            elif other not in done:
                visit(other)
        done.add(path.pop())

    def extend(body, name):
        if name not in body:
            body.add(name)
            for other in blocks:
                if name in blocks[other].jump[2]:
                    extend(body, other)

    visit(next(iter(blocks)))
    return found


def aimed(block, new):
    """A block with other targets; a choice between one and the same is none."""
    word, terms, targets = block.jump
    targets = [new.get(name, name) for name in targets]
    return replace(block, jump=("goto", [], targets[:1]) if len(targets) > len(set(targets)) else (word, terms, targets))


def pruned(blocks):
    """Without statements that nothing needs, and without blocks that only jump on."""
    def end(name, seen=()):
        on = not blocks[name].stmts and blocks[name].jump[0] == "goto" and name not in seen
        return end(blocks[name].jump[2][0], (*seen, name)) if on else name

    before, entry = None, next(iter(blocks))
    blocks = entered(blocks)
    while blocks != before:
        before, found = blocks, live(blocks)
        blocks = {name: replace(block, stmts=[stmt for stmt, _ in found[name][0]]) for name, block in blocks.items()}
        ends = {name: end(name) for name in blocks}
        blocks = {name: aimed(block, ends) for name, block in blocks.items() if name in (entry, ends[name])}
    return blocks


def entered(blocks):
    """The blocks that a run can reach."""
    found, new = set(), [next(iter(blocks))]
    while new:
        name = new.pop()
        new += [other for other in blocks[name].jump[2] if other not in found and other not in new] if name not in found else []
        found.add(name)
    return {name: block for name, block in blocks.items() if name in found}


def copied(blocks, twice):
    """Copies the innermost loops: twice in a turn, or once in front."""
    every = loops(blocks)
    for head, body in every.items():
        if next(iter(blocks)) in body or any(other in body for other in every if other != head):
            continue
        copy = {name: fresh(f"{name}_2", blocks) for name in blocks if name in body}
        turn = {copy[name]: aimed(blocks[name], copy | {head: head}) for name in copy}
        blocks = {name: aimed(block, {head: copy[head]}) if (name in body) == twice else block
                  for name, block in blocks.items()} | turn
    return blocks


def cut(blocks, choice):
    """Marks the blocks of a choice as cuts; with `heads` none is marked, which means the targets of back edges."""
    every, edges = loops(blocks), [(name, other) for name, block in blocks.items() for other in block.jump[2]]
    targets = [other for _, other in edges]
    exits = {other for name, other in edges for body in every.values() if name in body and other not in body}
    ends = {name for name, other in edges if name in every.get(other, ())}
    cuts = {"heads": set(), "joins": {name for name in blocks if targets.count(name) > 1}, "exits": exits.union(every),
            "tests": exits | {other for name, other in edges for body in every.values() if name in body},
            "bodies": {other for name, other in edges if other in every.get(name, ())},
            "ends": ends, "turns": {other for name, other in edges if name in ends}}[choice]
    return {name: replace(block, cut=name in cuts) for name, block in blocks.items()}
