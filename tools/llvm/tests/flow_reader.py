"""Reads flow texts by the grammar and the sorts of docs/flow.md, and runs them under an interpretation."""

import re

TOKEN = re.compile(r"\s+|#[^\n]*|(?P<name>[^\W\d]\w*)|(?P<number>\d+)|(?P<sign>:=|==|!=|<=|>=|&&|\|\||[-+*<>!(){};,])")
KEYWORDS = set("sort fun var graph block cut goto if else return abort assert equal rounds split true false u8 u16 u32 u64 "
               "s8 s16 s32 s64 slt sle sgt sge".split())
WIDTHS = {"u8": 8, "u16": 16, "u32": 32, "u64": 64}
RELATIONS = {"==": lambda a, b: a == b, "!=": lambda a, b: a != b, "<": lambda a, b: a < b, "<=": lambda a, b: a <= b,
             ">": lambda a, b: a > b, ">=": lambda a, b: a >= b}
SIGNED = {"slt": "<", "sle": "<=", "sgt": ">", "sge": ">="}


class Wrong(Exception):
    pass


def signed(number, width):
    return number - (number >> (width - 1) << width)


class Reader:
    """Expressions are read to (sort, tree) pairs; a number alone has the sort None."""

    def __init__(self, text):
        self.tokens, at = [], 0
        while at < len(text):
            found = TOKEN.match(text, at)
            if not found:
                raise Wrong(f"BadToken {at}")
            at = found.end()
            if found.lastgroup:
                self.tokens.append(found[0])
        self.tokens.append("")
        self.at = 0
        self.sorts, self.functions, self.vars, self.graphs = {"u8", "u16", "u32", "u64"}, {}, {}, {}
        self.goal, self.split = None, False

    def peek(self):
        return self.tokens[self.at]

    def take(self, *words):
        if self.peek() in words:
            self.at += 1
            return True
        return False

    def want(self, word):
        if not self.take(word):
            raise Wrong(f"{self.peek()} where {word} is wanted: {' '.join(self.tokens[self.at - 9:self.at + 3])}")

    def name(self):
        word = self.peek()
        if not re.match(r"[^\W\d]", word) or word in KEYWORDS:
            raise Wrong(f"{word} is no name")
        self.at += 1
        return word

    def declare(self):
        word = self.name()
        if word in self.sorts or word in self.functions or word in self.vars or word in self.graphs:
            raise Wrong(f"DoubleName {word}")
        return word

    def sort(self):
        word = self.peek()
        if word not in self.sorts:
            raise Wrong(f"{word} is no sort")
        self.at += 1
        return word

    def listed(self, item):
        found = [item()]
        while self.take(","):
            found.append(item())
        return found

    def file(self):
        while self.peek():
            if self.take("sort"):
                self.sorts.add(self.declare())
            elif self.take("fun"):
                sort, name = self.sort(), self.declare()
                self.want("(")
                args = [] if self.peek() == ")" else self.listed(self.sort)
                self.want(")")
                self.functions[name] = sort, args
            elif self.take("var"):
                sort = self.sort()
                for name in self.listed(self.declare):
                    self.vars[name] = sort
            elif self.take("graph"):
                name = self.declare()
                self.graphs[name] = self.graph()
                continue
            elif self.take("split"):
                self.split = True
            else:
                self.want("equal")
                self.goal = self.name(), (self.want(","), self.name())[1]
            self.want(";")
        if self.goal is None or not set(self.goal) <= set(self.graphs):
            raise Wrong("NoGoal")
        if len(self.vars) > 256 or len(self.functions) > 256 or any(len(args) > 16 for _, args in self.functions.values()):
            raise Wrong("TooMany")
        returns = [jump for graph in self.graphs.values() for _, jump in graph.values() if jump[0] == "return"]
        if len({len(jump[1]) for jump in returns}) > 1:
            raise Wrong("Sort: results")
        wanted = [next((pair[0] for pair in pairs if pair[0]), "u64") for pairs in zip(*(jump[1] for jump in returns))]
        for jump in returns:
            jump[1][:] = [self.fit(pair, sort) for pair, sort in zip(jump[1], wanted)]
        return self

    def graph(self):
        blocks = {}
        self.want("{")
        while not self.take("}"):
            self.take("cut")
            self.want("block")
            name = self.name()
            if name in blocks:
                raise Wrong(f"DoubleName {name}")
            self.want("{")
            stmts = []
            while self.peek() not in ("goto", "if", "return", "abort"):
                stmts.append(self.stmt())
            blocks[name] = stmts, self.jump()
            self.want("}")
        for _, jump in blocks.values():
            for target in jump[1:] if jump[0] == "goto" else jump[2:] if jump[0] == "if" else ():
                if target not in blocks:
                    raise Wrong(f"UnknownName {target}")
        if len(blocks) > 1000:
            raise Wrong("TooMany")
        return blocks

    def stmt(self):
        if self.take("assert"):
            found = "assert", self.cond()
        else:
            names = self.listed(self.name)
            self.want(":=")
            values = self.listed(self.expr)
            if len(set(names)) < len(names) or len(names) != len(values):
                raise Wrong("DoubleName or Sort in an assignment")
            found = "set", names, [self.fit(value, self.vars[name]) for name, value in zip(names, values)]
        self.want(";")
        return found

    def jump(self):
        word = self.tokens[self.at]
        self.at += 1
        if word == "goto":
            found = "goto", self.name()
        elif word == "if":
            cond = self.cond()
            self.want("goto")
            left = self.name()
            self.want("else")
            found = "if", cond, left, self.name()
        else:
            found = (word, [] if self.peek() == ";" else self.listed(self.expr)) if word == "return" else (word,)
        self.want(";")
        return found

    def cond(self):
        found = self.conj()
        while self.take("||"):
            found = "||", found, self.conj()
        return found

    def conj(self):
        found = self.lit()
        while self.take("&&"):
            found = "&&", found, self.lit()
        return found

    def is_condition(self):
        """Whether the parenthesis that opens here begins a condition."""
        depth, at = 0, self.at
        while True:
            depth += (self.tokens[at] == "(") - (self.tokens[at] == ")")
            at += 1
            if depth == 0:
                return self.tokens[at] not in ("+", "-", "*") and self.tokens[at] not in RELATIONS

    def lit(self):
        if self.take("!"):
            return "!", self.lit()
        if self.peek() in ("true", "false"):
            self.at += 1
            return self.tokens[self.at - 1] == "true"
        if self.peek() == "(" and self.is_condition():
            self.want("(")
            found = self.cond()
            self.want(")")
            return found
        if self.peek() in SIGNED:
            word = self.tokens[self.at]
            self.at += 1
            self.want("(")
            left = self.expr()
            self.want(",")
            right = self.expr()
            self.want(")")
        else:
            left = self.expr()
            word = self.peek()
            if word not in RELATIONS:
                raise Wrong(f"Syntax: {word}")
            self.at += 1
            right = self.expr()
        sort = left[0] or right[0] or "u64"
        if sort not in WIDTHS and word not in ("==", "!="):
            raise Wrong("Sort")
        return word, sort, self.fit(left, sort), self.fit(right, sort)

    def expr(self):
        return self.chain(("+", "-"), self.mul)

    def mul(self):
        return self.chain(("*",), self.fac)

    def chain(self, signs, part):
        left = part()
        while self.peek() in signs:
            sign = self.peek()
            self.at += 1
            right = part()
            left = left[0] or right[0], (sign, left, right)
        return left

    def fac(self):
        word = self.peek()
        if word.isdigit():
            self.at += 1
            return None, int(word)
        if self.take("("):
            found = self.expr()
            self.want(")")
            return found
        if word[1:] in ("8", "16", "32", "64") and word[0] in "us":
            self.at += 1
            self.want("(")
            inner = self.expr()
            self.want(")")
            sort = inner[0] or "u64"
            return f"u{word[1:]}", (word, sort, self.fit(inner, sort))
        word = self.name()
        if self.take("("):
            sort, wanted = self.functions[word]
            args = [] if self.peek() == ")" else self.listed(self.expr)
            self.want(")")
            if len(args) != len(wanted):
                raise Wrong(f"Sort: arguments of {word}")
            return sort, ("app", word, [self.fit(arg, one) for arg, one in zip(args, wanted)])
        if word not in self.vars:
            raise Wrong(f"UnknownName {word}")
        return self.vars[word], word

    def fit(self, pair, sort):
        """The tree of an expression of a sort that is wanted, with the width of sums and products."""
        own, tree = pair
        if own not in (None, sort):
            raise Wrong(f"Sort: {tree} is {own}, not {sort}")
        if isinstance(tree, int):
            if sort not in WIDTHS or tree >> WIDTHS[sort]:
                raise Wrong(f"NumberTooWide {tree}")
        elif isinstance(tree, tuple) and tree[0] in ("+", "-", "*"):
            if sort not in WIDTHS:
                raise Wrong("Sort")
            return tree[0], WIDTHS[sort], self.fit(tree[1], sort), self.fit(tree[2], sort)
        return tree


def run(file, name, state, meaning, turns):
    """The results of a graph, None where it is stuck, or `more` where it has not ended after so many blocks."""
    state, at = dict(state), next(iter(file.graphs[name]))
    for _ in range(turns):
        stmts, jump = file.graphs[name][at]
        for stmt in stmts:
            if stmt[0] == "set":
                state.update(zip(stmt[1], [value(file, tree, state, meaning) for tree in stmt[2]]))
            elif not holds(file, stmt[1], state, meaning):
                return None
        if jump[0] in ("return", "abort"):
            return [value(file, tree, state, meaning) for tree in jump[1]] if jump[0] == "return" else None
        at = jump[1] if jump[0] == "goto" else jump[2 if holds(file, jump[1], state, meaning) else 3]
    return "more"


def value(file, tree, state, meaning):
    if isinstance(tree, int):
        return tree
    if isinstance(tree, str):
        return state[tree]
    if tree[0] == "app":
        found = meaning(tree[1], [value(file, arg, state, meaning) for arg in tree[2]])
        return found % 2 ** WIDTHS.get(file.functions[tree[1]][0], 64)
    if tree[0] in ("+", "-", "*"):
        left, right = (value(file, part, state, meaning) for part in tree[2:])
        return {"+": left + right, "-": left - right, "*": left * right}[tree[0]] % 2 ** tree[1]
    found = value(file, tree[2], state, meaning)
    return (signed(found, WIDTHS[tree[1]]) if tree[0][0] == "s" else found) % 2 ** int(tree[0][1:])


def holds(file, cond, state, meaning):
    if isinstance(cond, bool):
        return cond
    if cond[0] == "!":
        return not holds(file, cond[1], state, meaning)
    if cond[0] in ("&&", "||"):
        return (all if cond[0] == "&&" else any)([holds(file, part, state, meaning) for part in cond[1:]])
    left, right = (value(file, part, state, meaning) for part in cond[2:])
    if cond[0] in SIGNED:
        left, right = signed(left, WIDTHS[cond[1]]), signed(right, WIDTHS[cond[1]])
    return RELATIONS[SIGNED.get(cond[0], cond[0])](left, right)
