"""Reads instructions of LLVM IR."""

import re

from ir import BINARY, BIT, CASTS, PTR, VOID, Ins, Unread
from lines import Line, unquoted

ORDERINGS = {"unordered", "monotonic", "acquire", "release", "acq_rel", "seq_cst"}
# What is written at a call and says what it does: of attributes these only.
SITE = {"convergent", "noreturn", "returns_twice"}
IGNORED = set("nounwind readnone readonly willreturn mustprogress nofree nosync norecurse cold hot noinline alwaysinline optsize "
              "minsize builtin nobuiltin nomerge argmemonly inaccessiblememonly writeonly speculatable nocallback".split())
CONVENTIONS = re.compile(r"ccc|coldcc|tailcc|swiftcc|swifttailcc|cfguard_checkcc|preserve_\w+cc|ghccc|webkit_jscc|anyregcc|x86_\w+cc"
                         r"|win64cc|x86_64_sysvcc|arm_\w+cc|aarch64_\w+|spir_\w+|amdgpu_\w+|ptx_\w+|intel_ocl_bicc|cxx_fast_tlscc")


def read_ins(text: str) -> Ins:
    line = Line(text)
    name = line.value(VOID)[1] if line.peek(1) == "=" and line.peek()[:1] == "%" else None
    line.take("=")
    ins = Ins(name, line.pop(), text)
    read = READERS.get(ins.op) or READERS.get("binary" if ins.op in BINARY else "cast" if ins.op in CASTS else None)
    if read is None:
        raise Unread(ins.op)
    ins.flags = line.flags()
    read(line, ins)
    if line.peek():
        raise Unread(f"'{line.peek()}'")
    return ins


def read_binary(line: Line, ins: Ins) -> None:
    type = line.type()
    ins.args, ins.type = [(type, line.value(type))], type
    while line.take(","):
        ins.args.append((type, line.value(type)))


def read_compare(line: Line, ins: Ins) -> None:
    ins.word = line.pop()
    ins.flags |= line.flags()
    read_binary(line, ins)
    ins.type = ("vector", ins.type[1], BIT) if ins.type[0] == "vector" else BIT


def read_cast(line: Line, ins: Ins) -> None:
    ins.args = [line.typed()]
    line.want("to")
    ins.type = line.type()


def read_select(line: Line, ins: Ins) -> None:
    read_operands(line, ins)
    ins.type = ins.args[1][0]


def read_operands(line: Line, ins: Ins) -> None:
    """Operands of which each has its type. The result has the type of the first."""
    ins.args = [line.typed()]
    while line.take(","):
        ins.args.append(line.typed())
    ins.type = ins.args[0][0]


def read_extractelement(line: Line, ins: Ins) -> None:
    read_operands(line, ins)
    ins.type = ins.type[2]


def read_shufflevector(line: Line, ins: Ins) -> None:
    read_operands(line, ins)
    ins.type = "vector", ins.args[2][0][1], ins.type[2]


def read_phi(line: Line, ins: Ins) -> None:
    ins.type = line.type()
    while not ins.args or line.take(","):
        line.want("[")
        ins.args.append((ins.type, line.value(ins.type)))
        line.want(",")
        ins.labels.append(line.value(VOID)[1])
        line.want("]")


def read_element(line: Line, ins: Ins) -> None:
    line.element(ins)


def read_parts(line: Line, ins: Ins) -> None:
    """`extractvalue` and `insertvalue`: values, and then numbers of parts."""
    ins.args = [line.typed()]
    while line.take(","):
        ins.args.append(line.typed() if line.is_type() else (("int", 64), ("int", line.number())))
    ins.type = ins.args[0][0]  # that of extractvalue follows from the structure


def read_access(line: Line, ins: Ins) -> None:
    """A load, a store, or what is atomic: words before and after the operands are its mode."""
    words = [line.pop() for _ in range(3) if line.peek() in ("atomic", "volatile", "weak")]
    if ins.op == "atomicrmw":
        ins.word = line.pop()
    type = line.type() if ins.op == "load" else None
    if type:
        line.want(",")
    read_operands(line, ins)
    ins.type = type or {"atomicrmw": ins.args[-1][0], "store": VOID}.get(ins.op, VOID)
    if ins.op == "cmpxchg":
        ins.type = "struct", False, (ins.args[1][0], BIT)
    ins.mode = " ".join(words + read_ordering(line))


def read_ordering(line: Line) -> list:
    found = []
    if line.take("syncscope"):
        line.want("(")
        found.append(line.pop().strip('"'))
        line.want(")")
    while line.peek() in ORDERINGS:
        found.append(line.pop())
    return found


def read_fence(line: Line, ins: Ins) -> None:
    ins.mode = " ".join(read_ordering(line))


def read_alloca(line: Line, ins: Ins) -> None:
    ins.args, space = [(line.type(), ("none", ""))], 0
    while line.take(","):
        if line.peek() == "addrspace":
            space = line.space()
        else:
            ins.args.append(line.typed())
    ins.type = "ptr", space


def read_argument(line: Line, ins: Ins) -> None:
    ins.args = [line.typed()]
    line.want(",")
    ins.type = line.type()


def read_jump(line: Line, ins: Ins) -> None:
    if line.peek() != "label":
        ins.args = [line.typed()]
        line.want(",")
    ins.labels = [read_label(line)]
    while line.take(","):
        ins.labels.append(read_label(line))


def read_label(line: Line) -> str:
    line.want("label")
    return line.value(VOID)[1]


def read_switch(line: Line, ins: Ins) -> None:
    ins.args = [line.typed()]
    line.want(",")
    ins.labels = [read_label(line)]
    line.want("[")
    while not line.take("]"):
        ins.args.append(line.typed())
        line.want(",")
        ins.labels.append(read_label(line))


def read_ret(line: Line, ins: Ins) -> None:
    if not line.take("void"):
        ins.args = [line.typed()]


def read_nothing(line: Line, ins: Ins) -> None:
    pass


def read_landingpad(line: Line, ins: Ins) -> None:
    """The clauses are a word: what they say of the state is one function for each text of clauses."""
    ins.type = line.type()
    ins.word = " ".join(line.tokens[line.at:]).strip()
    line.at = len(line.tokens)


def read_resume(line: Line, ins: Ins) -> None:
    ins.args = [line.typed()]


def read_call(line: Line, ins: Ins) -> None:
    if ins.op in ("musttail", "tail", "notail"):
        ins.shape = ins.op if ins.op == "musttail" else ""
        line.want("call")
        ins.op = "call"
    ins.flags |= line.flags()
    if line.peek() == "cc" or CONVENTIONS.fullmatch(line.peek()):
        word = line.pop()
        ins.shape += word + (str(line.number()) if word == "cc" else "")
    type = line.type()
    ins.signature = type[0] == "function"
    ins.type = type[1] if ins.signature else type
    callee = read_callee(line, ins)
    line.want("(")
    ins.args = [] if callee is None else [callee]
    read_actuals(line, ins)
    while line.peek() in SITE or line.peek() in IGNORED:
        ins.site |= {line.pop()} & SITE
    if line.take("["):
        read_bundles(line, ins)
    if ins.op == "invoke":
        line.want("to")
        ins.labels = [read_label(line)]
        line.want("unwind")
        ins.labels.append(read_label(line))


def read_callee(line: Line, ins: Ins):
    """The function of a call, which becomes its word; a pointer is an argument before the others."""
    if line.take("asm"):
        words = [line.pop()]
        while line.peek() not in ("(", ""):
            words.append(line.pop())
        ins.word, ins.signature = "asm " + " ".join(words), True
        return None
    kind, what = line.value(PTR)
    if kind == "@":
        ins.word = what
        return None
    return PTR, (kind, what)


def read_actuals(line: Line, ins: Ins) -> None:
    """Arguments, to the parenthesis after them. One that is metadata is a word of the call."""
    while not line.take(")"):
        if line.take("metadata"):
            start = line.at
            while line.peek() not in (",", ")", ""):
                line.skip() if line.peek() in ("(", "{") else line.pop()
            ins.shape += " metadata " + " ".join(line.tokens[start:line.at])
        else:
            ins.args.append(line.typed())
        line.take(",")


def read_bundles(line: Line, ins: Ins) -> None:
    """Operand bundles: their words and numbers of values are words of the call, and the values are arguments after the others."""
    while not line.take("]"):
        word, before = line.pop().strip('"'), len(ins.args)
        line.want("(")
        read_actuals(line, ins)
        ins.shape += f" bundle {word} {len(ins.args) - before}"
        line.take(",")
    ins.site |= {"bundle"}


READERS = {
    "binary": read_binary, "fneg": read_binary, "freeze": read_binary, "cast": read_cast, "icmp": read_compare, "fcmp": read_compare,
    "select": read_select, "phi": read_phi, "getelementptr": read_element, "extractvalue": read_parts, "insertvalue": read_parts,
    "extractelement": read_extractelement, "insertelement": read_operands, "shufflevector": read_shufflevector,
    "load": read_access, "store": read_access, "cmpxchg": read_access, "atomicrmw": read_access, "fence": read_fence,
    "alloca": read_alloca, "va_arg": read_argument, "br": read_jump, "switch": read_switch, "ret": read_ret,
    "unreachable": read_nothing, "landingpad": read_landingpad, "resume": read_resume, "call": read_call, "invoke": read_call,
    "musttail": read_call, "tail": read_call, "notail": read_call,
}
