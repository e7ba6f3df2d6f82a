"""Reads a line of LLVM IR: its tokens, types and values."""

import re

from ir import BINARY, CASTS, PTR, Ins, Unread

NAME = r'(?:"[^"]*"|[-\w.$]+)'
TOKEN = re.compile(rf'[%@]{NAME}|c?"[^"]*"|0x\w+|-?\d+(?:\.\d+(?:e[+-]?\d+)?)?|[A-Za-z_][\w.]*|![-\w.]*|\.+|\S')
FLAGS = set("nuw nsw exact disjoint nneg samesign inbounds nusw nnan ninf nsz arcp contract afn reassoc fast".split())
CONSTANTS = {"true": 1, "false": 0, "null": 0}
SCALARS = {"ptr": PTR, "void": ("void",), "half": ("float", 16), "float": ("float", 32), "double": ("float", 64)}
OPAQUE = {"bfloat", "fp128", "x86_fp80", "ppc_fp128"}
CLOSING = {"(": ")", "{": "}", "[": "]", "<": ">"}


def unquoted(name: str) -> str:
    """A name without quotation marks. A number keeps them, since the value 5 is not the one named "5"."""
    return name if name.strip('"').isdigit() else name.strip('"').replace("\\20", " ")


class Line:
    """The tokens of a line, and how many of them are read."""

    def __init__(self, text: str):
        self.tokens, self.at = TOKEN.findall(text) + ["", ""], 0

    def peek(self, ahead: int = 0) -> str:
        return self.tokens[min(self.at + ahead, len(self.tokens) - 1)]

    def pop(self) -> str:
        self.at += 1
        return self.tokens[min(self.at, len(self.tokens)) - 1]

    def take(self, *words: str) -> bool:
        if self.peek() in words and self.peek():
            self.at += 1
            return True
        return False

    def want(self, word: str) -> None:
        if not self.take(word):
            raise Unread(f"'{self.peek()}' where '{word}' is wanted")

    def number(self) -> int:
        word = self.pop()
        if not re.fullmatch(r"-?\d+", word):
            raise Unread(f"'{word}' where a number is wanted")
        return int(word)

    def flags(self) -> set:
        found = set()
        while self.peek() in FLAGS or self.peek() == "inrange":
            word = self.pop()
            found.add(word)
            if word == "inrange" and self.peek() == "(":
                self.skip()
        return found

    def skip(self) -> str:
        """The text of what is in parentheses of any kind, which are balanced."""
        start, open = self.at, [CLOSING[self.pop()]]
        while open:
            word = self.pop()
            if not word:
                raise Unread("a parenthesis that is not closed")
            if word in CLOSING:
                open.append(CLOSING[word])
            elif word == open[-1]:
                open.pop()
        return " ".join(self.tokens[start:self.at])

    def space(self) -> int:
        """The number of an address space, 0 if none is written."""
        if not self.take("addrspace"):
            return 0
        self.want("(")
        found = self.number()
        self.want(")")
        return found

    def is_type(self) -> bool:
        word = self.peek()
        return word in SCALARS or word in OPAQUE or word in ("[", "{", "<") or word[:1] == "%" or re.fullmatch(r"i\d+", word) is not None

    def type(self) -> tuple:
        word = self.pop()
        if word == "[":
            count = self.number()
            self.want("x")
            type = "array", count, self.type()
            self.want("]")
        elif word == "{" or word == "<" and self.take("{"):
            parts = []
            while not self.take("}"):
                parts.append(self.type())
                self.take(",")
            type = "struct", word == "<", tuple(parts)
            if word == "<":
                self.want(">")
        elif word == "<":
            scalable = self.take("vscale") and self.take("x")
            count = ("n" if scalable else "") + str(self.number())
            self.want("x")
            type = "vector", count, self.type()
            self.want(">")
        elif word[:1] == "%":
            type = "named", unquoted(word[1:])
        elif word in OPAQUE:
            type = "opaque", word
        elif word in SCALARS or re.fullmatch(r"i\d+", word):
            type = SCALARS.get(word) or ("int", int(word[1:]))
        else:
            raise Unread(f"type {word}")
        return self.pointers(type)

    def pointers(self, type: tuple) -> tuple:
        """What follows a type: an address space, stars, and the parameters of a function."""
        if type == PTR:
            type = "ptr", self.space()
        while self.peek() in ("*", "addrspace") or self.peek() == "(" and type[0] != "function":
            if self.peek() == "(":
                self.skip()
                type = "function", type
            else:
                space = self.space()
                self.want("*")
                type = "ptr", space
        return type

    def typed(self) -> tuple:
        type = self.type()
        return type, self.value(type)

    def value(self, type: tuple) -> tuple:
        word = self.peek()
        if word == "@" or word[:1] == "@" and word[1:].isdigit():
            raise Unread("an unnamed function, or one of several unnamed globals with one content")
        if word[:1] in ("%", "@"):
            return self.pop()[0], unquoted(word[1:])
        if word in ("undef", "poison"):
            return "undef", self.pop()
        if word == "zeroinitializer":
            self.pop()
            return ("text", word) if type[0] in ("vector", "opaque") else ("zero", "")
        if word in BINARY or word in CASTS or word in ("getelementptr", "icmp", "fcmp", "select"):
            return "ins", self.computed()
        if word[:2] == 'c"' or word in ("[", "{") or word == "<" and type[0] in ("struct", "named", "array"):
            return self.aggregate()
        if word == "<" or word == "splat":
            text = self.skip() if word == "<" else f"{self.pop()} {self.skip()}"
            return ("undef" if re.search(r"\b(undef|poison)\b", text) else "text"), text
        if type[0] == "opaque" and re.match(r"0x|-?\d", word):
            return "text", self.pop()
        if type[0] == "float" and re.match(r"0x|-?\d", word):
            return "float", self.pop()
        if word in CONSTANTS or re.fullmatch(r"-?\d+", word):
            return "int", CONSTANTS[word] if self.pop() in CONSTANTS else int(word)
        if word in ("byval", "inalloca", "preallocated", "swifterror"):
            raise Unread(f"'{word}' where a value is wanted")
        raise Unread(f"constant {word}" if word else "a line that ends too early")

    def aggregate(self) -> tuple:
        """A constant structure, array or string."""
        word, parts = self.pop(), []
        if word[:2] == 'c"':
            found = re.findall(r"\\([0-9A-Fa-f]{2})|(.)", word[2:-1])
            return "list", [(("int", 8), ("int", int(code, 16) if code else ord(letter))) for code, letter in found]
        packed = word == "<" and self.take("{")
        while not self.take("}", "]"):
            parts.append(self.typed())
            self.take(",")
        if packed:
            self.want(">")
        return "list", parts

    def computed(self) -> Ins:
        """A constant that is computed: an operation with its operands in parentheses."""
        start = self.at
        ins = Ins(None, self.pop(), "")
        ins.flags = self.flags()
        ins.word = self.pop() if ins.op in ("icmp", "fcmp") else ""
        self.want("(")
        if ins.op == "getelementptr":
            self.element(ins)
        else:
            ins.args = [self.typed()]
            while self.take(","):
                ins.args.append(self.typed())
            if ins.op in CASTS:
                self.want("to")
                ins.type = self.type()
            else:
                ins.type = ("int", 1) if ins.word else ins.args[-1][0]
        self.want(")")
        if ins.args[0][0][0] == "vector" or ins.type[0] == "vector":
            raise Unread(f"constant {ins.op} of vectors")
        ins.text = " ".join(self.tokens[start:self.at])
        return ins

    def element(self, ins: Ins) -> None:
        """The operands of `getelementptr`: the type of an element, which has no value, the address and the indices."""
        ins.args = [(self.type(), ("none", ""))]
        while self.take(","):
            self.take("inrange")
            ins.args.append(self.typed())
        ins.type = ins.args[1][0]
        if any(type[0] == "vector" for type, _ in ins.args[1:]):
            raise Unread("getelementptr of vectors")
