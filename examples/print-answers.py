#!/usr/bin/env python3
# SPDX-License-Identifier: MIT OR Apache-2.0
"""Reads reports of `kat decide FILE --json`: prints the answer and the size of the evidence for each file.

    examples/print-answers.py FILE..
"""

import json
import subprocess
import sys
from pathlib import Path

KAT = Path(__file__).resolve().parent.parent / "kat"


def main() -> None:
    for file in sys.argv[1:]:
        ended = subprocess.run([KAT, "decide", file, "--json"], stdout=subprocess.PIPE)
        if ended.returncode in (0, 1):
            report = json.loads(ended.stdout)
            print(f"{file}: {report['answer']}, {report['size']} {('pairs', 'actions')[ended.returncode]}")
        else:
            print(f"{file}: {ended.stdout.decode().strip()}")


if __name__ == "__main__":
    main()
