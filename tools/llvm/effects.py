"""What a call may do, by the attributes of its function and of the call."""

import re

from ir import Ins, Unread

# Intrinsics that return and do not unwind, whether their declaration says so or not. A name with a dot at its end is any of them.
RETURN = ("llvm.assume", "llvm.memcpy.", "llvm.memmove.", "llvm.memset.", "llvm.lifetime.", "llvm.invariant.", "llvm.stacksave",
          "llvm.stackrestore", "llvm.va_start", "llvm.va_copy", "llvm.va_end", "llvm.prefetch", "llvm.expect.", "llvm.ssa.copy.",
          "llvm.launder.invariant.group.", "llvm.strip.invariant.group.")
MEMORY = re.compile(r"\bmemory\((.*?)\)|\breadnone\b|\breadonly\b")


def effect(words: str, site: set = frozenset()) -> str:
    """What a call may do to memory: `none`, `reads` or `writes`. One that may not return, may unwind, is convergent or has
    operand bundles counts as one that writes."""
    memory = MEMORY.search(words)
    names = set(words.split())
    if not memory or "write" in memory[0] or not {"willreturn", "nounwind"} <= names or "convergent" in names or site:
        return "writes"
    return "none" if memory[0] in ("memory(none)", "readnone") else "reads"


def is_volatile(ins: Ins) -> bool:
    """Whether a call copies or sets volatile memory."""
    return ins.word.startswith("llvm.mem") and bool(ins.args) and ins.args[-1] == (("int", 1), ("int", 1))


def returns(ins: Ins, words: str) -> bool:
    """Whether a call is known to return: by the attributes `willreturn` and `nounwind` of its function, or as an intrinsic.
    An access that is volatile or atomic is a place at which the run is compared, as a call that may not return is."""
    if ins.op not in ("call", "invoke") or is_volatile(ins):
        return False
    return {"willreturn", "nounwind"} <= set(words.split()) or (ins.word + ".").startswith(RETURN)


def check(ins: Ins, words: str) -> None:
    """Refuses a call that returns twice."""
    if "returns_twice" in words.split() or "returns_twice" in ins.site or ins.word in ("setjmp", "_setjmp", "sigsetjmp", "vfork"):
        raise Unread("a call that returns twice")
