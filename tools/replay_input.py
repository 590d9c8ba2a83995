#!/usr/bin/env python3
"""Joins runs of calls to one input of the program `replay`, or to what it has to print.

    tools/replay_input.py FOLDER            the depot sheets and calls
    tools/replay_input.py FOLDER answers    the answers

Each folder in FOLDER has the files depot.tsv, calls and answers; they are taken in the order of their names.
"""
import pathlib
import sys

folder, names = pathlib.Path(sys.argv[1]), sys.argv[2:] or ["depot.tsv", "calls"]
runs = sorted(path for path in folder.iterdir() if path.is_dir())
sys.stdout.buffer.write(b"\n".join((run / name).read_bytes() for run in runs for name in names))
