#!/usr/bin/env python3
"""Makes one page of what `kat` says about files.

    tools/report.py [--kat PROGRAM] [--turns N] [--seconds N] FILE.. -o report.html

A FILE is a problem file, a flow file (.flow), a text of guarded programs (.gkat), or a folder: one that `validate --keep`
left, of which the page has each function, or one of files and folders. For each the page has the answer of `decide` and both sides of
the goal beside each other, as code with numbered lines and as control-flow graphs. For a difference it steps through the
string: what holds in each state, where each side is, and where they part. For a proof it says what the proof used, and
marks the steps that both sides do together. For a refusal it shows the line and the place. The page is one file, needs no
network, and can be printed. Graphviz (`dot`) places the nodes of graphs if it is installed. The program is the one that the
script `kat` runs, unless --kat names another. What `try` finds with at most N turns (1000) is there too. A call that takes
longer than --seconds (60) is ended.
"""

import sys

from report.command import main

if __name__ == "__main__":
    sys.exit(main(sys.argv[1:], __doc__))
