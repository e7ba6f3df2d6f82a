"""Runs functions of LLVM IR and their flow texts from the same random states, and compares what they return."""

import random
import sys
from pathlib import Path

HERE = Path(__file__).resolve().parent
sys.path[:0] = [str(HERE), str(HERE.parent)]

import flow_reader  # noqa: E402
import pairs  # noqa: E402
from graph import Builder  # noqa: E402
from ir_runner import Meaning, Run  # noqa: E402
from module import Module  # noqa: E402
from values import Options, Scope  # noqa: E402

EXAMPLES = HERE.parent / "examples"
DECLARED = "declare i32 @g(i32)\ndeclare i32 @h(i32) #0\n"
ATTRIBUTES = "attributes #0 = { nounwind willreturn readnone }\n"


def shaped(module, type, values):
    """A value of a type, made of the values of its parts."""
    type = module.named(type)
    if type[0] not in ("struct", "array"):
        return next(values)
    return [shaped(module, field, values) for field in ([type[2]] * type[1] if type[0] == "array" else type[2])]


def states(file, builder, name, seeds):
    """For each seed a state of the variables of a text, in which parameters have values of their types."""
    for seed in seeds:
        rng = random.Random(f"{name} {seed}")
        state = {var: rng.choice([0, 1, 2, 3, 5, 48, 57, 2 ** 31, rng.getrandbits(64)]) %
                 2 ** flow_reader.WIDTHS.get(sort, 64) for var, sort in file.vars.items()}
        for param, (_, type) in zip(builder.params, builder.function.params):
            state[param] = state.get(param, 7) % 2 ** (builder.size(type) or 64)
        state.setdefault("m", 3)
        yield seed, state


def compare(test, before, after, name, text, seeds, options=Options()):
    """Runs IR and flow text of both sides from random states; returns how often both ended, and how often they differ."""
    file, differ, ended = flow_reader.Reader(text).file(), 0, 0
    builder = Builder(before, before.function(name), Scope(), (), options)
    for seed, state in states(file, builder, name, seeds):
        results, meaning = [], Meaning(seed)
        for module, side in ((before, "before"), (after, "after")):
            function, values = module.function(name), iter([state[param] for param in builder.params])
            args = [shaped(module, type, values) for _, type in function.params]
            try:
                expected = Run(module, function, args, state["m"], meaning, options).run(120)
            except LookupError:
                continue
            found = flow_reader.run(file, side, state, meaning, 1500)
            if expected == "more" or found == "more":
                continue
            if expected is not None:
                count = len(expected[0])
                expected = expected[0] + [expected[1]] * (found is not None and len(found) > count)
            test.assertEqual(expected, found, f"{name} {side} seed {seed}\n{text}")
            results.append(found)
        ended += len(results) == 2
        differ += len(results) == 2 and results[0] != results[1]
    return ended, differ


def modules(before, after):
    return pairs.modules(*((EXAMPLES / f"{name}.ll").read_text() for name in (before, after)))


def small(body, head="define i32 @f(i32 %x, i32 %y)", heads=""):
    return Module(f"{heads}{DECLARED}{head} {{\n{body}\n}}\n{ATTRIBUTES}")
