#!/usr/bin/env python3
# SPDX-License-Identifier: MIT OR Apache-2.0
"""Writes docs/statement.md: the clauses that carry the claim, with every definition behind them.

    docs/statement.py            writes the page, which has the first six parts
    docs/statement.py --part N   prints part N of PARTS, without the definitions of earlier parts
    docs/statement.py --check    ends with 1 if the page is not what the sources give, if README.md does not have the
                                 count of the first part, or if that part is longer than a few pages

It follows definitions by name through the `use` lines of the crates' specs/, from the clauses named in PARTS, and the
constants that they name to the crates' src/. Each definition occurs once, after those that it needs, with its file and
line. Each part ends with its counts.
"""

import re
import sys
from dataclasses import dataclass, field
from pathlib import Path
from typing import Iterable, Iterator, Optional

TOP = Path(__file__).resolve().parent.parent
PAGE = TOP / "docs/statement.md"
ON_PAGE = 6
# A module and a name in it; what the names of a file stand for.
Name = tuple[str, str]
Imported = dict[str, Name]
MOST_LINES = 350


@dataclass
class Part:
    """A part of the page: clauses of public functions, and definitions that wait for a later part."""

    title: str
    about: str
    # file below crates/, function, and the names of its clauses; no names stand for all
    clauses: list[tuple[str, str, list[str]]] = field(default_factory=list)
    # files below crates/ whose public traits' clauses belong to the part
    traits: list[str] = field(default_factory=list)
    # (crate, module, name) of definitions with which the part begins
    names: list[tuple[str, str, str]] = field(default_factory=list)
    # names that a later part defines
    later: tuple[str, ...] = ()


PARTS = [
    Part("What `decide` answers", "The bytes are those of the plainest text of a question, so no grammar is needed to "
         "read this part. What evidence is accepted, and how its text looks, is part 3; relational models, chains of equations and "
         "the size of evidence are part 4: the meaning of the statuses does not need them.",
         clauses=[("tool_decide/src/decide.rt", "decide_bytes", ["plain"])],
         later=("IsAccepted", "Spells", "SameInModels", "HasChain", "IsSmallCert", "IsSmall")),
    Part("What `decide` answers of programs", "The bytes are those of the plainest text of two programs, or of a triple of "
         "one, so no grammar is needed here either. The problem of an abstraction (`abstract_of`) is in part 7: the statement "
         "on stores does not need it.",
         clauses=[("tool_decide/src/decide.rt", "decide_bytes", ["programs", "triples"])], later=("abstract_of",)),
    Part("Evidence", "The certificates that are accepted, and the bytes that spell evidence.",
         names=[("certificate", "Accepted", "IsAccepted"), ("tool_inputs", "EvidenceBytes", "Spells")]),
    Part("Models, chains and the size of evidence", "Relational models whose states are finitely or infinitely many natural numbers, "
         "chains of equations by the axioms and the hypotheses, how many pairs a printed certificate has at most, and how many moves a "
         "shortest string.",
         names=[("kat_laws", "Models", "SameInModels"), ("kat_axioms", "Laws", "HasChain"), ("tool_decide", "SmallCerts", "IsSmallCert"),
                ("kat_laws", "SmallStrings", "IsSmall")]),
    Part("Flow graphs", "That two flow graphs always return the same where `decide` or `check` ends with 0 on what `flow` printed "
         "with 0. The bytes are those of the plainest text of the graphs, so no grammar is needed to read this part. "
         "`crates/flow_plain/proofs/GraphExamples.antt` works two graphs and their text by hand. The replies of the three commands are in "
         "parts 6 and 7: that the graphs agree does not need them.",
         clauses=[("kat_tool/src/laws.rt", "plain_flows_agree", [])], later=("FlowHeadline", "DecideReply", "CheckReply")),
    Part("Every text of flow graphs", "What `flow` answers, and that the two graphs of any flow file always return the same where "
         "`decide` or `check` ends with 0 on the printed text. The text of flow graphs and the problem that is printed are in part 13, what "
         "a problem file asks and what the replies of `decide` and `check` are is in part 7: what an answer says about the graphs does "
         "not need them.",
         clauses=[("tool_flow/src/flow.rt", "flow_bytes", ["headline"]), ("kat_tool/src/laws.rt", "flows_agree", [])],
         later=("Poses", "IsFlowText", "FirstFault", "IsFaultOf", "HasFlowProblem", "HasNoFlowProblem", "problem_text", "variable_names",
                "function_names", "ItemSyntax", "DecideReply", "CheckReply")),
    Part("Every text", "What any text asks, by the grammar of problem files, what its goal says of stores, and what `check` "
         "and `explain` answer.",
         clauses=[("tool_decide/src/decide.rt", "decide_bytes", ["headline", "stores", "readings", "reply"]), ("tool_check/src/check.rt", "check_bytes", ["headline", "reply"]),
                  ("tool_explain/src/explain.rt", "explain_bytes", ["headline"])]),
    Part("Outlines", "What `outline` answers of a triple of a program, and of any notes, whoever wrote them.",
         clauses=[("tool_decide/src/outline.rt", "outline_bytes", ["headline"]), ("tool_decide/src/outline_check.rt", "outline_check_bytes", ["headline"])]),
    Part("Equational proofs", "What `chain` answers of any proof, whoever wrote it.",
         clauses=[("tool_check/src/chain.rt", "chain_bytes", ["headline"])]),
    Part("Runs of programs", "What `run` and `try` answer of a text that says a file.",
         clauses=[("tool_programs/src/running.rt", "run_bytes", ["headline"]), ("tool_try/src/try_goal.rt", "try_bytes", ["headline"]),
                  ("tool_try/src/try_with.rt", "try_with_bytes", ["headline"])]),
    Part("Programs with one loop", "What `oneloop` answers of a text that says a file.",
         clauses=[("tool_programs/src/oneloop.rt", "one_loop_bytes", ["headline"])]),
    Part("The optimiser", "What `optimise` answers of a text that says a file.",
         clauses=[("tool_decide/src/optimise.rt", "optimise_bytes", ["headline"])]),
    Part("Flow files", "The text of two flow graphs, its faults, and the problem that `flow` prints of them, or why there is none.",
         names=[("flow_text", "Texts", "IsFlowText"), ("flow_text", "Texts", "FirstFault"), ("tool_flow", "Questions", "HasFlowProblem"),
                ("tool_flow", "Questions", "HasNoFlowProblem"), ("tool_flow", "Questions", "problem_text")]),
    Part("The whole program", "The clause of `run` and those of the traits over which it runs: refusals with their "
         "places, first reasons, printed lines and faults of the outside.",
         clauses=[("kat_tool/src/lib.rt", "run", [])], traits=["kat_io/src/outside.rt"]),
]

CONSTANT = re.compile(r"(?m)^((?:///.*\n)*)(pub(?:\(crate\))? const (\w+): [^;]*;)$")
HEAD = re.compile(r"(?:(?:abbrev|opaque|unfoldable|pub|record|data|mutual)\s+)+(\S+)")
USE = re.compile(r"(?m)^[ \t]*(?:ghost )?use ([\w.]+?)\.\{([^}]*)\}")
PASSED = re.compile(r"(?m)^pub use (Rattle\.\w+\.specs\.[\w.]+)$")
WORD = re.compile(r"[\s\[\](){},;.λ×]+")


def imports(text: str) -> Imported:
    """What each name of a file stands for: a module and the name there."""
    found: Imported = {}
    for module, items in USE.findall(text):
        for item in filter(None, (it.strip() for it in items.split(","))):
            name, _, alias = item.partition(" as ")
            found[(alias or name).strip()] = module, name.strip()
    return found


def passed_modules() -> dict[str, str]:
    """What the modules stand for that the crates' specs/Lib.antt pass on from the crates below."""
    found = {}
    for path in TOP.glob("crates/*/specs/Lib.antt"):
        for module in PASSED.findall(path.read_text()):
            found[f"Rattle.{path.parent.parent.name}.specs.{module.rpartition('.')[2]}"] = module
    return found


def words(text: str) -> list[str]:
    """The words of a definition or a clause in their order, without its comments and texts."""
    text = re.sub(r"(?m)^\s*--.*$", " ", text)
    parts = dict.fromkeys(filter(None, WORD.split(re.sub(r'"[^"]*"', " ", text))))
    return [name for part in parts for name in (part, f"◌{part}◌")]


@dataclass(eq=False)
class Definition:
    """A definition of a file of specs/, or a constant of src/, with the comment over it."""

    module: str
    name: str
    path: Path
    line: int
    head: str
    lines: list[str]

    def text(self) -> str:
        return "\n".join(self.lines).strip("\n")


class Specs:
    """All definitions of the crates' specs/, by module and name, and what the names of each module stand for."""

    def __init__(self) -> None:
        self.found: dict[Name, Definition] = {}
        self.imported: dict[str, Imported] = {}
        self.kit: set[Name] = set()
        self.passed = passed_modules()
        for path in sorted(TOP.glob("crates/*/specs/**/*.antt")):
            below = path.relative_to(TOP / "crates").with_suffix("").parts
            self.read(path, ".".join(["Rattle", *below]))
        for path in sorted(TOP.glob("crates/*/src/**/*.rt")):
            crate, _, *below = path.relative_to(TOP / "crates").with_suffix("").parts
            self.read_constants(path, ".".join(["Rattle", crate, "specs.declared", *below, "TheConstants"]))

    def read_constants(self, path: Path, module: str) -> None:
        text = path.read_text()
        self.imported[module] = {}
        for constant in CONSTANT.finditer(text):
            comment, line, name = constant.groups()
            number = text.count("\n", 0, constant.start(2)) + 1
            self.found[module, name] = Definition(module, name, path, number, line, [*comment.splitlines(), line])

    def read(self, path: Path, module: str) -> None:
        text = path.read_text()
        self.imported[module] = imports(text)
        now: Optional[Definition] = None
        comment: list[str] = []
        for number, line in enumerate(text.split("\n"), 1):
            if line.startswith("-- ----"):
                comment, now = [], None
            elif line.startswith("--"):
                comment, now = [*comment, line], None
            elif line.startswith(("use ", "pub use ", "pub mod ", "mod ")):
                comment, now = [], None
            elif line[:1].strip():
                named = HEAD.match(line)
                if named and not (now and now.name == named[1]):
                    now = Definition(module, named[1], path, number, line, [*comment, line])
                    self.found[module, named[1]] = now
                elif now:
                    now.lines.append(line)
                comment = []
            elif now:
                now.lines.append(line)
                constructor = re.match(r"\s+(\S+) :", line)
                if constructor and " data " in f" {now.head} ":
                    self.found.setdefault((module, constructor[1]), now)

    def home(self, known: Optional[Name]) -> Optional[Name]:
        """Where a name is defined: a crate may pass on modules of the crates below it."""
        while known and known[0] in self.passed:
            known = self.passed[known[0]], known[1]
        return known

    def named(self, parts: Iterable[str], module: str, imported: Imported) -> Iterator[Definition]:
        """The definitions that these words name in a file of that module."""
        for part in parts:
            known = self.home(imported.get(part))
            if known and known[0].startswith("Rattle.std"):
                self.kit.add(known)
            found = self.found.get(known) or self.found.get((module, part))
            if found:
                yield found

    def gather(self, roots: Iterable[Definition], later: tuple[str, ...], placed: set[Definition]) -> list[Definition]:
        """The definitions behind the roots that no earlier part has, each after those that it needs."""
        order = []

        def place(it: Definition) -> None:
            if it in placed or it.name in later:
                return
            placed.add(it)
            for needed in self.named(words(it.text()), it.module, self.imported[it.module]):
                place(needed)
            order.append(it)

        for root in roots:
            place(root)
        return order


def braces(text: str, start: int) -> int:
    """The end of the braces that open at start."""
    depth = 0
    for at in range(start, len(text)):
        depth += {"{": 1, "}": -1}.get(text[at], 0)
        if depth == 0:
            return at + 1
    raise ValueError("braces that do not end")


def clauses_of(text: str, start: int, wanted: list[str]) -> list[str]:
    """The signature of a function and those of its clauses that are wanted, as they stand in the source."""
    at, head, taken = start, None, []
    clause = re.compile(r"[ \t]*\b(?:requires|ensures)\b\s*(\w*)\s*\{|;|\{")
    while found := clause.search(text, at):
        head = head or text[start : found.start()].rstrip()
        if found[1] is None:
            break
        at = braces(text, found.end() - 1)
        if not wanted or found[1] in wanted:
            taken.append(text[found.start() : at])
    return [head, *taken]


def without_comments(text: str) -> str:
    return re.sub(r"(?m)^\s*//.*\n", "", text)


def function(path: str, name: str, wanted: list[str]) -> tuple[list[str], Imported]:
    """A function's signature with its clauses, and what the names of its file stand for."""
    text = (TOP / "crates" / path).read_text()
    plain = without_comments(text)
    start = re.search(rf"(?m)^pub fn {name}\b", plain)
    return clauses_of(plain, start.start(), wanted), imports(text)


def traits(path: str) -> tuple[list[str], Imported]:
    """The methods of the public traits of a file, with their clauses."""
    text = (TOP / "crates" / path).read_text()
    plain = without_comments(text)
    found = []
    for trait in re.finditer(r"(?m)^pub trait \w+[^{]*", plain):
        body = plain[trait.start() : braces(plain, trait.end())]
        found.append(body)
    return found, imports(text)


def counted(definitions: list[Definition]) -> tuple[int, int]:
    lines = [line for it in definitions for line in it.lines if line.strip()]
    return len(lines), sum(not line.strip().startswith(("--", "///")) for line in lines)


def shown(definitions: list[Definition]) -> list[str]:
    """The definitions as text of the page, those of one file that follow one another in one block."""
    lines: list[str] = []
    path = None
    for it in definitions:
        if it.path != path:
            lines += ["```", ""] if path else []
            lines += [f"`{it.path.relative_to(TOP)}:{it.line}`", "", "```"]
        else:
            lines.append("")
        lines.append(it.text())
        path = it.path
    return [*lines, "```", ""] if path else lines


def roots_of(part: Part, specs: Specs, lines: list[str]) -> list[Definition]:
    """The definitions that the part's clauses name; the clauses themselves are added to the lines."""
    roots = [specs.found[specs.home((f"Rattle.{crate}.specs.{module}", name))] for crate, module, name in part.names]
    asked = [function(*clause) for clause in part.clauses] + [traits(path) for path in part.traits]
    for texts, imported in asked:
        lines += ["```rust", *texts, "```", ""]
        roots += specs.named(words("\n".join(texts)), "", imported)
    return roots


def doubles(definitions: list[Definition]) -> dict[str, list[Path]]:
    """The names that have two or more of these definitions, each with its files."""
    found: dict[str, dict[Path, None]] = {}
    for it in definitions:
        names = [it.name]
        if " data " in f" {it.head} ":
            names += [one[1] for one in map(re.compile(r"\s+(\S+) :").match, it.lines) if one]
        for name in names:
            found.setdefault(name, {}).setdefault(it.path.relative_to(TOP))
    return {name: list(paths) for name, paths in sorted(found.items()) if len(paths) > 1}


def parts(specs: Specs) -> Iterator[tuple[list[str], int, list[Definition]]]:
    """Each part as lines, with the number of its lines of definitions, and its definitions."""
    placed: set[Definition] = set()
    for number, part in enumerate(PARTS, 1):
        lines = [f"## {number}. {part.title}", "", part.about, ""]
        gathered = specs.gather(roots_of(part, specs, lines), part.later, placed)
        lines += shown(gathered)
        total, bare = counted(gathered)
        lines += [f"{total} lines of definitions, {bare} without comments, in {len({it.path for it in gathered})} files.", ""]
        yield lines, total, gathered


def page() -> tuple[str, int]:
    """The page, and the lines of definitions of its first part."""
    specs = Specs()
    found = [part for part, _ in zip(parts(specs), range(ON_PAGE))]
    lines = ["# The statement", "",
             "The clauses that carry the claim of `kat`, and all definitions behind them, each once and after those that it "
             "needs. Part 1 is what a sceptic should read first; README.md says in words what it says. "
             "`docs/statement.py` writes this page from the sources, and the gate compares it with them.", "",
             "Other clauses with their definitions: " + "; ".join(
                 f"`docs/statement.py --part {number}`: {part.title.lower()}"
                 for number, part in enumerate(PARTS[ON_PAGE:], ON_PAGE + 1)) + ".", ""]
    lines += [line for part, _, _ in found for line in part]
    twice = doubles([it for _, _, gathered in found for it in gathered])
    if twice:
        lines += ["## Names with two definitions", "",
                  "Each of these names has two definitions above. In a definition, a name has the meaning that its own file "
                  "defines or imports.", ""]
        lines += [f"- `{name}`: " + ", ".join(f"`{path}`" for path in paths) for name, paths in twice.items()]
        lines.append("")
    modules = sorted({module.removeprefix("Rattle.") for module, _ in specs.kit if ".declared." not in module})
    lines += ["## Not counted", "",
              "The program's types, which clauses see as records and variants, are in the sources. The definitions use these "
              "modules of the standard library: " + ", ".join(f"`{it}`" for it in modules) + ". Names in texts are those of "
              "Unicode's tables of `XID_Start` and `XID_Continue`, by the kit's `unicode_ident`; the first part needs none of "
              "them.", ""]
    return "\n".join(lines), found[0][1]


def print_part(word: str) -> None:
    if not word.isdecimal() or not 1 <= int(word) <= len(PARTS):
        sys.exit(f"docs/statement.py: the parts are 1 to {len(PARTS)}")
    *_, (lines, _, _) = (part for part, _ in zip(parts(Specs()), range(int(word))))
    print("\n".join(lines))


def check() -> None:
    text, first = page()
    if first > MOST_LINES:
        sys.exit(f"docs/statement.md: the first part has {first} lines of definitions, more than {MOST_LINES}")
    if f"{first} lines of definitions" not in (TOP / "README.md").read_text():
        sys.exit(f"README.md does not say that the first part of docs/statement.md has {first} lines of definitions")
    if PAGE.read_text() != text:
        sys.exit("docs/statement.md is not what the sources give: run docs/statement.py")


def main(words: list[str]) -> None:
    if words == ["--check"]:
        check()
    elif len(words) == 2 and words[0] == "--part":
        print_part(words[1])
    elif words:
        sys.exit(__doc__)
    else:
        PAGE.write_text(page()[0])


if __name__ == "__main__":
    main(sys.argv[1:])
