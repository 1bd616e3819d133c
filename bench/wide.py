#!/usr/bin/env python3
"""What stock clusters with as many groups and OSDs as a map may have cost: the table, a plan, and the tools over them.

    wide.py PROGRAM

Two have 1,008 equal OSDs in 42 straw2 hosts in 7 racks, two 4,096 in 256 hosts in 16 racks. All place three copies over
hosts, in pools of so many groups. *Opening*, *memory* and the changes are measured as by tables.py: less a map
with pools of one group each, less one with pools of a fourth of the groups, and less the same lines refused as stale.
A plan is that of one pool, with 1,024 moves at most. The tools are given the two dumps that Ceph's tools would print
(dumps.py), and `df` the map that `import` makes of them; each time is the best of three runs, with the start of
Python. Over the most groups that there may be the tools are not measured. It is no part of the gate.
"""

from __future__ import annotations

import functools
from collections.abc import Iterator
from typing import Any

from changes import STATES, moving
from dumps import crush_dump, osd_dump
from maps import stock
from running import Folder, found, heading, in_folder, judged, peak, program, seconds, table
from tables import LINES, TALK, accepted
from tools import said, spent, words

SIZE, DISK = 3, 1_000_000
# The racks, the hosts in a rack, the OSDs in a host, the pools, and the groups of a pool.
CLUSTERS = ((7, 6, 24, 1, 65_536), (7, 6, 24, 32, 8_192), (16, 16, 16, 1, 65_536), (16, 16, 16, 16, 65_536))
# The most groups over which the tools are measured.
FEW = 262_144


class Measured:
    """What all of it costs over a cluster of so many racks, hosts and OSDs, with so many pools of so many groups."""

    def __init__(self, runs: Folder, racks: int, hosts: int, disks: int, pools: int, groups: int) -> None:
        self.runs, self.shape, self.pools, self.groups = runs, (racks, hosts, [DISK] * disks), pools, groups

    def cluster(self, groups: Any) -> Any:
        """The cluster with so many groups in each pool."""
        return stock(*self.shape, [(groups, SIZE, 0)] * self.pools)

    def map(self, groups: Any) -> Any:
        return self.runs.map(self.cluster(groups))

    @functools.cached_property
    def whole(self) -> Any:
        """The map's file."""
        return self.map(self.groups)

    @functools.cached_property
    def dumps(self) -> list[Any]:
        """The files of the dumps."""
        value = self.cluster(self.groups)
        return [self.runs.value(osd_dump(value)), self.runs.value(crush_dump(value))]

    @functools.cached_property
    def opened(self) -> Any:
        """The seconds of opening."""
        return seconds(self.runs.words(self.whole, "")) - seconds(self.runs.words(self.map(1), ""))

    def memory(self) -> Any:
        """The bytes of a group."""
        few = self.groups // 4
        most, least = (peak(self.runs.words(self.map(groups), TALK)) for groups in (self.groups, few))
        return (most - least) / (self.pools * (self.groups - few))

    def change(self, parts: Any) -> Any:
        """The microseconds of a change."""
        return accepted(self.runs, self.whole, parts, LINES)[0] * 1e6

    def plan(self) -> Any:
        """The milliseconds of a plan."""
        planned, opened = (seconds(self.runs.words(self.whole, script), 3) for script in ("balance 1 1024\n", ""))
        return (planned - opened) * 1e3

    def told(self) -> Any:
        """The seconds of `df` over the map that is brought in."""
        return spent(words(self.runs, "df", self.runs.file(said(words(self.runs, "import", *self.dumps)))))


ROWS = (
    ("opening, ms", None, lambda of: of.opened * 1e3),
    ("opening a group, ns", None, lambda of: of.opened / (of.pools * (of.groups - 1)) * 1e9),
    ("memory a group, bytes", 40, lambda of: of.memory()),
    ("one OSD down or up, µs", 20, lambda of: of.change(STATES)),
    ("one new pair, µs", None, lambda of: of.change(moving(of.runs, of.whole))),
    ("a plan, ms", 1000, lambda of: of.plan()),
    ("import, s", 5, lambda of: spent(words(of.runs, "import", *of.dumps))),
    ("df, s", 5, lambda of: of.told()),
    ("plan of all pools by the tools, s", 5, lambda of: spent(words(of.runs, "plan", *of.dumps))),
)


def rows(runs: Folder) -> Iterator[Any]:
    """A row for each thing that is measured, over each cluster."""
    clusters = [Measured(runs, *own) for own in CLUSTERS]
    for name, goal, measure in ROWS:
        measured = [of for of in clusters if not name.endswith(", s") or of.pools * of.groups <= FEW]
        cells = [found(measure, of) for of in measured]
        yield [name, *cells, *[""] * (len(clusters) - len(cells)), *judged(cells, goal)]


def main() -> None:
    path = program(__doc__)
    heading("Stock clusters with as many groups and OSDs as there may be")
    columns = [
        "what",
        "1,008 OSDs: 65,536 groups",
        "32 pools of 8,192",
        "4,096 OSDs: 65,536",
        "16 pools of 65,536",
        "goal",
        "",
    ]
    in_folder(path, lambda runs: table(columns, rows(runs)))


if __name__ == "__main__":
    main()
