#!/usr/bin/env python3
"""Joins a folder of cases to the input of crates/batch, or to the output that it has to print.

    python3 tools/batch_input.py FOLDER > crates/batch/stdin
    python3 tools/batch_input.py --reports FOLDER > crates/batch/stdout

Each folder in FOLDER is a case: the sheets depot.tsv and plan.tsv, of which one that is missing is empty, and the file
report, which an independent checker printed for them. The cases are taken in the order of their names.
"""

import sys
from pathlib import Path


def sheet(path):
    return path.read_bytes() if path.exists() else b""


def pair(case):
    depot, plan = sheet(case / "depot.tsv"), sheet(case / "plan.tsv")
    return f"pair {len(depot)} {len(plan)}\n".encode() + depot + plan


def report(case):
    text = (case / "report").read_bytes()
    return f"report {len(text)}\n".encode() + text


def main():
    *options, folder = sys.argv[1:]
    wanted = report if options == ["--reports"] else pair
    for case in sorted(Path(folder).iterdir()):
        sys.stdout.buffer.write(wanted(case))


main()
