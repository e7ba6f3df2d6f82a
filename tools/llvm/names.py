"""Which variables of flow graphs are live, and names that both graphs share."""

import re

from terms import RESERVED, VARIABLE, fresh

SUFFIX = r"(_(i|us|lcssa|peel|unr|epil|prol|pre|ph|phi|sink|split|clone|le|in|\d+))+_*$"


def reads(terms):
    return {name for term in terms for name in VARIABLE.findall(str(term))}


def walk(block, after):
    """The statements of a block without what nothing needs, each with what is live after it, and what is live at its start."""
    found, now = [], after | reads(block.jump[1])
    for stmt in reversed(block.stmts):
        stmt = {name: term for name, term in stmt.items() if name == "" or name in now and name != term}
        if stmt:
            found.insert(0, (stmt, now))
            now = now - set(stmt) | reads(stmt.values())
    return found, now


def live(blocks):
    """What `walk` says of each block, where as little as possible is live."""
    starts, before, found = dict.fromkeys(blocks, set()), None, {}
    while starts != before:
        before = dict(starts)
        for name, block in reversed(blocks.items()):
            found[name] = walk(block, set().union(*(starts[other] for other in block.jump[2])))
            starts[name] = found[name][1]
    return found


def crowds(blocks):
    """The sets of variables that hold something at once."""
    found = live(blocks)
    return [found[next(iter(blocks))][1]] + [now.union(stmt) for stmts, _ in found.values() for stmt, now in stmts]


def share(graphs, params, scope):
    """Gives variables of one stem one name in both graphs, where no two of them are live at once, or at the starts of both
    graphs; parameters keep theirs."""
    every, taken, groups, new = list(map(crowds, graphs)), RESERVED - {"m"} | set(scope.functions), {}, {"": ""}
    every = sum(every, [set().union(*(crowd[0] for crowd in every))])
    for name in dict.fromkeys([*params, *scope.sorts]):
        stem = name if name in params else re.sub(SUFFIX, "", name) or name
        known, mine = groups.setdefault((stem, scope.sorts[name]), {}), set().union(*(crowd for crowd in every if name in crowd))
        own = next((own for own, names in known.items() if not mine & names), None) or fresh(stem, taken)
        taken.add(own)
        known.setdefault(own, set()).add(name)
        new[name] = own

    def renamed(term):
        return VARIABLE.sub(lambda found: new.get(found[0], found[0]), str(term))

    for block in (block for blocks in graphs for block in blocks.values()):
        block.stmts = [{new[name]: renamed(term) for name, term in stmt.items()} for stmt in block.stmts]
        block.jump = block.jump[0], list(map(renamed, block.jump[1])), block.jump[2]
    scope.sorts = {new[name]: sort for name, sort in scope.sorts.items()}
