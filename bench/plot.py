#!/usr/bin/env python3
# SPDX-License-Identifier: MIT OR Apache-2.0
"""Measures how the families of bench/families.py grow, and draws it.

    python3 bench/plot.py [--kat PROGRAM] [--runs N] [--seconds N] [--points FILE] [-o growth.svg] [FAMILY ..]

Each family is measured at sizes from small to large, as far as `decide` and `check` together take at most N seconds (1)
at the size before. The table of the times is printed. Where matplotlib is installed, it draws one small picture for each
family, with the seconds of `decide` and of `check` against the size on logarithmic axes, into one SVG. With --points
the measured points are written to that file, or, if it exists, drawn from it without measuring.
"""

import argparse
import json
import sys
import tempfile
from pathlib import Path

import families

HERE = Path(__file__).resolve().parent
# The sizes of each family with the seconds of `decide` and of `check`.
Points = dict[str, list[tuple[int, float, float]]]
# The sizes at which a family may be measured; 48 tests or actions are the limit of a problem.
FEW = [1, 2, 3, 4, 5, 6, 8, 10, 12]
NARROW = [2, 4, 8, 16, 24, 32, 40, 47]
MANY = [4, 8, 16, 32, 64, 128, 256, 512, 1024]
SIZES = {
    "tests": NARROW, "denest": NARROW, "chain": NARROW, "broken": NARROW, "ring": NARROW,
    "lastbut": MANY, "differ": MANY, "moves": MANY, "structured": MANY,
    "nest": FEW, "frames": FEW, "frameless": FEW, "corners": FEW, "asked": FEW,
    "untouched": NARROW[:-1], "line": NARROW[:-1],
}


def measured(program: str, name: str, runs: int, seconds: float, folder: Path) -> list[tuple[int, float, float]]:
    """The sizes of a family with the seconds of `decide` and of `check`."""
    points = []
    for size in SIZES[name]:
        row = families.measure(program, name, size, folder, runs)
        if not row[4]:
            break
        points.append((size, float(row[4]), float(row[5])))
        if points[-1][1] + points[-1][2] > seconds:
            break
    return points


def table(points: Points) -> str:
    lines = ["| family | n | decide s | check s |", "|---|---|---|---|"]
    lines += [f"| {name} | {size} | {decide:.3f} | {check:.3f} |" for name, of in points.items() for size, decide, check in of]
    return "\n".join(lines)


def draw(points: Points, output: str) -> bool:
    """One picture of all families; `False` where matplotlib is not installed."""
    try:
        import matplotlib
    except ImportError:
        return False
    matplotlib.use("svg")
    # The same points give the same file.
    matplotlib.rcParams["svg.hashsalt"] = "kat"
    import matplotlib.pyplot as plot
    columns = 4
    rows = -(-len(points) // columns)
    figure, axes = plot.subplots(rows, columns, figsize=(3 * columns, 2.4 * rows), squeeze=False)
    for axis in axes.flat[len(points):]:
        axis.set_visible(False)
    for axis, (name, of) in zip(axes.flat, points.items()):
        sizes = [size for size, _, _ in of]
        axis.plot(sizes, [max(decide, 0.001) for _, decide, _ in of], "o-", label="decide", markersize=3)
        axis.plot(sizes, [max(check, 0.001) for _, _, check in of], "s--", label="check", markersize=3)
        axis.set(title=name, xlabel="n", ylabel="s", xscale="log", yscale="log")
        # Without labels between the powers of ten, and at least one power high.
        axis.minorticks_off()
        axis.set_ylim(0.0008, max(0.012, 1.5 * max(max(decide, check) for _, decide, check in of)))
    axes.flat[0].legend()
    figure.tight_layout()
    figure.savefig(output, metadata={"Date": None})
    return True


def main() -> int:
    reader = argparse.ArgumentParser(description="Draws how families of problems grow.")
    reader.add_argument("--kat", default=str(families.TOP / "kat"))
    reader.add_argument("--runs", type=int, default=3)
    reader.add_argument("--seconds", type=float, default=1)
    reader.add_argument("--points", metavar="FILE")
    reader.add_argument("-o", dest="output", default=str(HERE / "growth.svg"))
    reader.add_argument("family", nargs="*")
    chosen = reader.parse_args()
    unknown = [name for name in chosen.family if name not in SIZES]
    if unknown:
        sys.exit(f"no family {unknown[0]}; the families are {', '.join(SIZES)}")
    if chosen.points and Path(chosen.points).is_file():
        points = json.loads(Path(chosen.points).read_text())
    else:
        program = families.built(chosen.kat)
        with tempfile.TemporaryDirectory() as room:
            folder = Path(room)
            points = {name: measured(program, name, chosen.runs, chosen.seconds, folder) for name in chosen.family or SIZES}
        if chosen.points:
            Path(chosen.points).write_text(json.dumps(points) + "\n")
    print(table(points))
    if not draw(points, chosen.output):
        print("matplotlib is not installed, so nothing was drawn", file=sys.stderr)
        return 1
    return 0


if __name__ == "__main__":
    sys.exit(main())
