#!/usr/bin/env python3
"""What the commands of tools/rekhuso take over the greatest clusters, and what Ceph's own tools say of their plans.

    tools.py PROGRAM

*A cluster of 131,072 groups* has 32 pools of 4,096 groups of size 3 over 1,024 OSDs in 256 hosts in 16 racks, as the
two dumps that Ceph's tools would print (dumps.py). Each command is the best of three runs, with the start of Python.
Where `osdmaptool` is there, plans of smaller clusters are put into a map of Ceph's: *unlike* are the groups that
Ceph then places otherwise than the program does after its plan, *taken back* the commands by which Ceph's monitor
would clean the plan's exceptions away. It is no part of the gate.
"""

from __future__ import annotations

import os
import subprocess
import sys
import time
from collections.abc import Iterator
from typing import Any

import ceph
from dumps import crush_dump, osd_dump
from maps import PLAIN, exceptions_of, few_hosts, levels, with_commands
from running import GOALS, LIMIT, Folder, found, goal_row, heading, in_folder, judged, output, program, several, table

TOOLS = os.path.join(os.path.dirname(os.path.dirname(os.path.abspath(__file__))), "tools", "rekhuso")
POOLS, GROUPS = 32, 4096
# Groups of a judged cluster that have an explicit set before its plan.
PINNED = 40


def words(runs: Folder, *given: Any) -> list[Any]:
    """The words of a command of the tools."""
    return [sys.executable, TOOLS, *given, "--program", runs.program]


def said(command: Any) -> Any:
    """What a command puts out."""
    return subprocess.run(
        command,
        stdin=subprocess.DEVNULL,
        stdout=subprocess.PIPE,
        stderr=subprocess.DEVNULL,
        text=True,
        check=True,
        timeout=LIMIT,
    ).stdout


def spent(command: Any) -> Any:
    """The seconds of a command, the best of three runs."""

    def one() -> Any:
        begin = time.perf_counter()
        said(command)
        return time.perf_counter() - begin

    return several(one, 3)


def brought_and_told(runs: Folder, dumps: Any) -> Any:
    """The seconds of bringing a cluster in, and of telling it."""
    brought = words(runs, "import", *dumps)
    told = words(runs, "df", runs.file(said(brought)))
    return spent(brought) + spent(told)


def speed_rows(runs: Folder) -> Iterator[Any]:
    """What bringing in, telling and planning the greatest cluster takes."""
    stated = levels("list", GROUPS, POOLS, racks=16, hosts=256)
    dumps = runs.value(osd_dump(stated)), runs.value(crush_dump(stated))
    yield goal_row("import, then df", lambda: brought_and_told(runs, dumps), "s", 3)
    yield goal_row("import alone", lambda: spent(words(runs, "import", *dumps)), "s", None)
    yield goal_row("plan", lambda: spent(words(runs, "plan", *dumps)), "s", 5)
    yield goal_row("plan --deviation 5", lambda: spent(words(runs, "plan", *dumps, "--deviation", "5")), "s", None)


# Ceph's judgement


def commands(output: str) -> list[Any]:
    """The commands of a plan's output that name groups, without the guards and comments round them."""
    return [line for line in output.splitlines() if line.startswith("ceph osd ") and "pg-upmap" in line]


def pinned(kind: str, groups: Any) -> Any:
    """64 OSDs in 8 hosts, and some groups with explicit sets on the first OSDs of three hosts."""
    stated = few_hosts(kind, groups)
    return dict(stated, pg_upmap=[[f"1.{group:x}", [0, 8, 16]] for group in range(PINNED)])


def judged_plan(runs: Folder, stated: Any, given: Any) -> list[Any]:
    """The commands of a plan, the groups that Ceph places otherwise after them, and the commands that it would take
    back."""
    lines = commands(said(words(runs, "plan", runs.map(stated), *given)))
    after = with_commands(stated, lines)
    path = ceph.osdmap(stated, runs.folder)
    ceph.with_exceptions(path, *exceptions_of(after))
    asked = output(runs.words(runs.map(after), "".join(f"up 1.{group:x}\n" for group in range(GROUPS))))
    ours = [answer.split(" ")[3] for answer in asked]
    theirs = ceph.sets(path)
    unlike = sum(one != other for one, other in zip(ours, theirs)) + abs(len(ours) - len(theirs))
    return [len(lines), unlike, len(ceph.taken_back(path))]


CLUSTERS: tuple[tuple[str, Any, tuple[str, ...]], ...] = (
    ("64 OSDs in 8 hosts", few_hosts, ()),
    ("64 OSDs in 8 hosts, within 5 groups of each share", few_hosts, ("--deviation", "5")),
    (f"64 OSDs in 8 hosts, {PINNED} explicit sets before", pinned, ()),
    ("1,024 OSDs in 256 hosts in 16 racks", lambda kind, groups: levels(kind, groups, racks=16, hosts=256), ()),
)


def judged_rows(runs: Folder) -> Iterator[Any]:
    """A row for the plan of each cluster."""
    for name, shape, given in CLUSTERS:
        for kind in PLAIN:
            cells = found(judged_plan, runs, shape(kind, GROUPS), given)
            about = f"{GROUPS:,} groups over {name}, {kind}"
            yield [about, "", cells] if isinstance(cells, str) else [about, *cells, *judged(cells[1:], 0)]


def main() -> None:
    path = program(__doc__)
    heading("The tools over a cluster of 131,072 groups")
    in_folder(path, lambda runs: table(GOALS, speed_rows(runs)))
    heading("Plans as Ceph's tools judge them")
    if ceph.is_installed():
        in_folder(
            path, lambda runs: table(["cluster", "commands", "unlike", "taken back", "goal", ""], judged_rows(runs))
        )
    else:
        print(f"Not judged: no {' and no '.join(ceph.TOOLS)} here.", flush=True)


if __name__ == "__main__":
    main()
