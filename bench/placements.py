#!/usr/bin/env python3
"""What one placement costs, in instructions: the built program beside plain C (plain.c, cc -O2), and beside Ceph's own
`osdmaptool` where it is installed.

    placements.py PROGRAM

A map is opened by a run of its rule for each group, so the cost of a placement is that of opening a map with 4,096
groups less that of the same map with 1,024, over 3,072: reading the map and all else cancels. Plain C and
`osdmaptool` place the same groups, and their cost is told apart in the same way. All sets of the 4,096 groups are
compared in the same run. The program does more than plain C, which adds a set up and forgets it: it looks for the
group's exceptions, keeps the set in the table, and puts the group into the lists of its OSDs. What the function
costs that finds a group's mapped set (the rule's run and the exceptions) is told apart, by its name in the built
program; the rest is the table's own part. Where there is no valgrind, microseconds are told in place of
instructions, and that function is not told apart. It is no part of the gate.
"""

from __future__ import annotations

import os
import re
import subprocess
import sys
from collections.abc import Iterator
from typing import Any

import ceph
from maps import KINDS, SHAPES
from running import (
    HAS_VALGRIND,
    LIMIT,
    Folder,
    found,
    heading,
    in_folder,
    instructions,
    judged,
    output,
    program,
    ratio,
    seconds,
    table,
)

FEW, MANY = 1024, 4096
MAPPED = "*Placing::mapped*"
GOALS = {
    "uniform": [0.75, 0.75, 0.75],
    "list": [0.6, 0.5, 0.4],
    "tree": [0.95, 0.95, 0.95],
    "straw2": [0.45, 0.42, 0.4],
}
OWN_PART = 350
HERE = os.path.dirname(os.path.abspath(__file__))


def cost(words: Any) -> Any:
    """The instructions of a run, or its microseconds."""
    return instructions(words) if HAS_VALGRIND else seconds(words) * 1e6


def a_placement(few: Any, many: Any, measure: Any = cost) -> Any:
    """The cost of one of the groups that only the second of two runs places."""
    return (measure(many) - measure(few)) / (MANY - FEW)


def mapped_cost(words: Any) -> Any:
    """The instructions that finding mapped sets takes in a run."""
    return instructions(words, MAPPED)


def plain_text(stated: Any) -> Any:
    """The map as plain.c reads it."""
    numbers = [stated["max_osd"], len(stated["buckets"])]
    for bucket in stated["buckets"]:
        numbers += [bucket["id"], bucket["type"], KINDS.index(bucket["kind"]), len(bucket["items"])]
        numbers += [number for item in bucket["items"] for number in item]
    step = stated["rules"][0]["steps"][1]
    return " ".join(str(number) for number in numbers + [step[2], stated["pools"][0]["size"]]) + "\n"


def program_sets(runs: Folder, stated: Any) -> list[Any]:
    """The sets of all groups as the program answers them."""
    lines = output(runs.words(stated, "".join(f"up 1.{number:x}\n" for number in range(MANY))))
    return [line.split(" ")[3] for line in lines]


def plain_sets(words: Any) -> Any:
    """The sets of all groups as plain C prints them."""
    said = subprocess.run(words + ["print"], stdout=subprocess.PIPE, text=True, check=True, timeout=LIMIT).stdout
    return re.findall(r"^\S+ (\[[-\d,]*\])", said, re.M)


def agree(ours: Any, others: Any, who: Any) -> None:
    """Ends the bench where some sets differ."""
    if len(ours) != MANY or ours != others:
        sys.exit(f"the program and {who} place differently")


def by_plain_c(runs: Folder, many: Any, sets: Any) -> Any:
    """What a placement costs plain C, which places the same sets."""
    rough = runs.file(plain_text(many))
    words = [[runs.compiled(os.path.join(HERE, "plain.c"), "plain"), rough, "0", str(count)] for count in (FEW, MANY)]
    agree(sets, plain_sets(words[1]), "plain C")
    return a_placement(*words)


def by_ceph(runs: Folder, both: Any, sets: Any) -> Any:
    """What a placement costs `osdmaptool`, which places the same sets."""
    paths = [ceph.osdmap(stated, runs.folder) for stated in both]
    agree(sets, ceph.sets(paths[1]), "osdmaptool")
    return a_placement(*map(ceph.words, paths))


def cells(runs: Folder, shape: Any, kind: Any, goal: Any) -> Iterator[Any]:
    """What a placement costs the program, in it the mapped set and the table; plain C; and Ceph where it is
    installed."""
    both = [shape(kind, groups) for groups in (FEW, MANY)]
    ours = [runs.map(stated) for stated in both]
    opened = [runs.words(stated, "") for stated in ours]
    whole, mapped = found(a_placement, *opened), found(a_placement, *opened, mapped_cost)
    sets = program_sets(runs, ours[1])
    own = mapped if isinstance(mapped, str) else whole - mapped
    theirs = found(by_plain_c, runs, both[1], sets)
    yield from [whole, mapped, own, *judged(own, OWN_PART), theirs]
    for part in (whole, mapped):
        yield from [to_plain := ratio(part, theirs), *judged(to_plain, goal)]
    if ceph.is_installed():
        tool = found(by_ceph, runs, both, sets)
        yield from [tool, ratio(whole, tool)]


def rows(runs: Folder) -> Iterator[Any]:
    """A row for each of the twelve maps."""
    for place, (name, shape) in enumerate(SHAPES):
        for kind in KINDS:
            measured = found(lambda: list(cells(runs, shape, kind, GOALS[kind][place])))
            yield [f"{name}, {kind}"] + (measured if isinstance(measured, list) else [measured])


def main() -> None:
    path = program(__doc__)
    heading(f"A placement of size 3, in {'instructions' if HAS_VALGRIND else 'microseconds'}")
    tool = ["`osdmaptool`", "to `osdmaptool`"] if ceph.is_installed() else []
    columns = [
        "map",
        "program",
        "the mapped set",
        "the table's part",
        "goal",
        "",
        "plain C",
        "to plain C",
        "goal",
        "",
        "the set to plain C",
        "goal",
        "",
    ]
    in_folder(path, lambda runs: table(columns + tool, rows(runs)))
    if not tool:
        print("\nNot beside Ceph: no `osdmaptool` and `crushtool` here.")


if __name__ == "__main__":
    main()
