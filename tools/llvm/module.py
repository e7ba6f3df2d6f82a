"""Reads the text of a module of LLVM IR: what is declared, and functions as blocks of instructions."""

import hashlib
import re
from functools import cached_property
from itertools import count

import effects
from instructions import SITE, read_ins
from ir import ENDS, Function, Ins, Unread, located, reached
from layouts import Layout
from lines import NAME, Line, unquoted

TEXT = re.compile(r'"[^"\n]*"')
INNER = r"\((?:[^()\n]|\((?:[^()\n]|\([^()\n]*\))*\))*\)"
# Attributes, metadata, and calls that say nothing of what the program does.
NOISE = re.compile(r",? (?:tail|notail|fastcc|noundef|nonnull|zeroext|signext|noext|inreg|nocapture|readonly|readnone|writeonly"
                   r"|writable|dead_on_unwind|dead_on_return|noalias|returned|nofree|immarg|nest|swiftself|allocptr|allocalign"
                   r"|(?:align|dereferenceable(?:_or_null)?|nofpclass|range|captures|sret|initializes|elementtype|byref)"
                   rf"(?: \d+|{INNER}))(?=[ ,)\n])|(?:, ![\w.]+ ![\w.()]*)*$"
                   r"|^ *(?:#dbg|uselistorder|(?:tail )?call void @llvm\.(?:dbg|experimental\.noalias|donothing)).*", re.M)
LABEL = re.compile(rf"({NAME}):")
UNNAMED = re.compile(r'"[^"\n]*"|@(\d+)(?![-\w.$])')


class Module:
    """The functions of a text by name, each as its own text that has no comments, attributes and metadata, and the line at
    which it begins."""

    def __init__(self, text: str, first=None, file: str = ""):
        """Reads the texts of a module; `first` is one whose declarations hold here too."""
        text = re.sub(r'^((?:[^";\n]|"[^"\n]*")*?) *;.*$', r"\1", text, flags=re.M)
        text = renamed(TEXT.sub(lambda found: found[0].replace(" ", "\\20"), text))
        found = re.search(r'^target datalayout = "(.*)"', text, re.M)
        self.file, self.datalayout = file, found[1] if found else ""
        if first and first.datalayout != self.datalayout:
            raise Unread("data layouts that differ", found[0] if found else "no data layout", file=file)
        self.layout = Layout(self.datalayout)
        self.raw = text.split("\n")  # with what the texts of functions lack
        groups = {word: TEXT.sub("", body) for word, body in re.findall(r"^attributes (#\d+) = \{(.*)\}", text, re.M)}
        self.groups, self.heads = groups, {unquoted(name): line for line, name in
                                           re.findall(rf"^((?:define|declare) .*?@({NAME})\(.*)", text, re.M)}
        self.attributes = {unquoted(name): attributes(TEXT.sub("", tail), groups) for name, tail in
                           re.findall(rf"^(?:define|declare) .*?@({NAME})(\(.*)", text, re.M)}
        self.attributes |= first.attributes if first else {}
        self.types = {unquoted(name): type for name, type in re.findall(rf"^%({NAME}) = type (.*)", text, re.M)}
        text = re.sub(r" (#\d+)\b", lambda found: "".join(f" {word}" for word in groups.get(found[1], "").split() if word in SITE), text)
        self.texts, self.lines, line, at = {}, {}, 1, 0
        text = NOISE.sub("", text)
        for found in re.finditer(rf"^(define [^\n]*?@({NAME})\(.*?)^\}}", text, re.M | re.S):
            line, at = line + text.count("\n", at, found.start()), found.start()
            name = unquoted(found[2])
            self.texts[name], self.lines[name] = headed(found[1]), line
        if len(self.texts) != len(re.findall(r"(?<![-\w.$%@])define\s", text)) or any(
                body.split("\n", 1)[0].endswith("code in a heading") for body in self.texts.values()):
            raise Unread("a definition that is not a line with its heading, lines with its code, and a line with }", file=file)

    @cached_property
    def nodes(self) -> dict:
        """The nodes of metadata by number, as texts."""
        return dict(re.findall(r"^!(\d+) = (?:distinct )?!\{(.*)\}", "\n".join(self.raw), re.M))

    def effect(self, name: str, site: set = frozenset()) -> str:
        """What a call may do to memory: `none`, `reads` or `writes`."""
        return effects.effect(self.attributes.get(name, ""), site)

    def named(self, type: tuple) -> tuple:
        if type[0] != "named":
            return type
        if self.types.get(type[1], "opaque") == "opaque":
            raise Unread(f"size of the type {type[1]}")
        return Line(self.types[type[1]]).type()

    def measure(self, type: tuple) -> tuple:
        """The bytes from one element of an array to the next, the alignment, and the offsets of the fields of a struct."""
        return self.layout.measure(type, self.named)

    def function(self, name: str) -> Function:
        return read_function(self.texts[name], self.lines[name], self.file)


def attributes(tail: str, groups: dict) -> str:
    """The attributes of a declaration: those of its groups, and what no later use may miss of those written out."""
    words = re.findall(r"#\d+|\bconvergent\b|\breturns_twice\b|\bnoreturn\b", tail)
    return " ".join(groups.get(word, "" if word[0] == "#" else word) for word in words)


def renamed(text: str) -> str:
    """Gives each global without a name one that says its content, which its number does not. One whose content another one
    has keeps its number, and so has no name that a function can use."""
    bodies = dict(re.findall(r"^@(\d+) = (.*?)(?:, align \d+)?(?:, !\w+ !\d+)*$", text, re.M))

    def content(number: str, seen: tuple) -> str:
        body = re.sub(r"\b(?:local_)?unnamed_addr |\bdso_local ", "", bodies[number])
        return UNNAMED.sub(lambda found: content(found[1], (*seen, number)) if found[1] in bodies and found[1] not in (*seen, number)
                           else found[0], body)

    contents = {number: content(number, ()) for number in bodies}
    names = {number: "unnamed." + hashlib.sha256(body.encode()).hexdigest()[:32] for number, body in contents.items()
             if list(contents.values()).count(body) == 1 and UNNAMED.sub("", body) == TEXT.sub("", body)}
    return UNNAMED.sub(lambda found: f"@{names[found[1]]}" if found[1] in names else found[0], text)


def headed(text: str) -> str:
    """A definition whose heading has only its type, name and parameters."""
    heading, body = text.split("\n", 1) if "\n" in text else (text, "")
    heading = re.sub(r"^define (?:[a-z_]\w*(?:\([^()]*\))? (?:\d+ )?)*?(?=(?:void|ptr|half|float|double|bfloat|fp128|x86_fp80|ppc_fp128"
                     r"|i\d+)\b|[%\[{<])", "define ", heading.rstrip())
    line = Line(heading)
    while line.peek() and not (line.peek()[0] == "@" and line.peek(1) == "("):
        line.pop()
    line.pop()
    with located(heading):
        line.skip()
    rest = [line.pop() for _ in range(len(line.tokens) - line.at)]
    words = " ".join(line.tokens[:len(line.tokens) - len(rest)])
    return f"{words} {'{' if ' '.join(rest).strip()[-1:] == '{' and rest.count('{') == 1 else 'code in a heading'}\n{body}"


def joined(text: str, first: int) -> list:
    """The lines of a definition without its heading, each with its number; what LLVM prints in several lines is one."""
    found, is_open = [], False
    for number, line in enumerate(text.splitlines()[1:], first + 1):
        line = line.strip()
        more = is_open or found and (line.startswith("to label ") and found[-1][1].find("invoke ") >= 0 or
                                     re.match(r"(cleanup$|catch |filter )", line) and " landingpad " in found[-1][1])
        if line and more:
            found[-1] = found[-1][0], f"{found[-1][1]} {line}"
        elif line:
            found.append((number, line))
        is_open = bool(line) and (is_open and line[0] != "]" or line.startswith("switch ") and line[-1] == "[")
    return found


def read_heading(heading: str) -> tuple:
    """The type and the parameters of a definition, which may have names."""
    line, params = Line(heading), []
    line.want("define")
    type = line.type()
    line.pop()
    line.want("(")
    while not line.take(")"):
        if not line.take("...", ","):
            params.append((line.type(), line.value(("void",))[1] if line.peek()[:1] == "%" else ""))
    line.want("{")
    return type, params


def read_function(text: str, first: int = 0, file: str = "") -> Function:
    """Reads a definition: its heading, and the lines of its blocks."""
    text = headed(text)
    heading = text.split("\n", 1)[0]
    with located(heading, first, file):
        if heading.endswith("code in a heading"):
            raise Unread("code in a heading")
        type, heads = read_heading(heading)
    numbers, blocks = map(str, count()), {}
    params = [(next(numbers) if name.isdigit() or not name else name, type) for type, name in heads]
    label = next(numbers)
    for number, line in joined(text, first):
        labelled = LABEL.fullmatch(line)
        label = unquoted(labelled[1]) if labelled else label
        with located(line, number * bool(first), file):
            block = blocks.setdefault(label, [])
            if block and block[-1].op in ENDS:
                raise Unread("an instruction after the end of a block")
            block.extend([] if labelled else [numbered(read_ins(line), number * bool(first))])
    return Function(type, params, {label: blocks[label] for label in reached(blocks)}, file)


def numbered(ins: Ins, line: int) -> Ins:
    ins.line = line
    return ins
