#!/usr/bin/env python3
"""Tells of which tree a gate is, and at its end what it has built: `make dist` takes no program of another.

    built.py                 the commit of the tree, and whether it has changes
    built.py TREE PROGRAM..  that this tree has passed, with the sum of each program and of its object

The gate runs the first before and the second behind all else. TREE is what the first has told: a tree that has changed
meanwhile is one with changes. What is not there is not told: where the kit has a program from an earlier run, it leaves
no object.
"""

from __future__ import annotations

import pathlib
import sys

import static
from proved import told
from rekhuso.program.gate_logs import end_of


def tree() -> str:
    """The commit of the tree, and whether it has changes."""
    is_changed = told("git", "status", "--porcelain") != ""
    return f"{told('git', 'rev-parse', 'HEAD') or 'unknown'} {'with' if is_changed else 'without'}"


def main() -> None:
    """Tells it."""
    before, *programs = sys.argv[1:] or [""]
    if not before:
        print(tree())
        return
    now = tree()
    paths = [path for name in map(pathlib.Path, programs) for path in (name, static.object_of(name)) if path.is_file()]
    sums = {path.name: static.sum_of(path) for path in paths}
    is_changed = before != now or now.endswith(" with")
    for line in end_of(now.split(" ")[0], is_changed, told("rt", "version") or "no kit", sums):
        print(line)


if __name__ == "__main__":
    main()
