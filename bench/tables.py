#!/usr/bin/env python3
"""What the table of up sets costs, over 1,024 OSDs in 511 buckets: opening a map, memory, and changes, beside the
rule's run alone.

    tables.py PROGRAM

All of it is over 32 pools of 4,096 groups of size 3. *Opening* is the time of an empty script less that over pools
of one group each. *A rule's run* is that of a line `fup`, which runs the rule, less that of a line `up`, which reads
the table, over all groups of a pool. *Memory* is the peak resident set less that over pools of 1,024 groups; *a pool
of one group* is a 31st of what is asked for at once over 32 such pools beyond one. *Lines* are the time of many
changes that are accepted less that of the same lines refused as stale, which are read and turned down: so it is what
the change itself costs. It is no part of the gate.
"""

from __future__ import annotations

import functools
import sys
from collections.abc import Iterator
from typing import Any

from changes import STATES, changes, moving, reweights
from maps import PLAIN, flat, levels
from running import Folder, found, heading, held, in_folder, judged, output, peak, program, seconds, table

POOLS, GROUPS, FEW = 32, 4096, 1024
FIRST, STALE = 100_000, 900_000
LINES, REWEIGHTS, ASKED = 20_000, 4, 8
TALK = "epoch\n" * 20_000


def accepted(runs: Folder, stated: Any, parts: Any, lines: Any) -> tuple[Any, Any]:
    """What a change costs in seconds, beyond the same line refused; and the evaluations of the last."""
    good = runs.words(stated, changes(parts, lines, FIRST))
    last = output(good)[-1].split()
    if last[0] != "ok" or int(last[1]) != FIRST + lines:
        sys.exit(f"a change was refused: {last}")
    return (seconds(good, 3) - seconds(runs.words(stated, changes(parts, lines, STALE)), 3)) / lines, int(last[3])


class Measured:
    """What all of it costs over the buckets of a kind."""

    def __init__(self, runs: Folder, kind: str) -> None:
        self.runs, self.kind = runs, kind

    def map(self, groups: Any, pools: Any = POOLS, shape: Any = levels) -> Any:
        return self.runs.map(shape(self.kind, groups, pools))

    @functools.cached_property
    def whole(self) -> Any:
        """The map's file."""
        return self.map(GROUPS)

    @functools.cached_property
    def opened(self) -> Any:
        """The seconds of opening."""
        return seconds(self.runs.words(self.whole, "")) - seconds(self.runs.words(self.map(1), ""))

    @functools.cached_property
    def rule_run(self) -> Any:
        """The seconds of one run of the rule."""
        stated = self.map(GROUPS, 1)
        lines = "".join(f"{{}} 1.{number:x}\n" for number in range(GROUPS)) * ASKED
        by_rule, by_table = (seconds(self.runs.words(stated, lines.replace("{}", word))) for word in ("fup", "up"))
        return (by_rule - by_table) / (ASKED * GROUPS)

    @functools.cached_property
    def pair(self) -> Any:
        """The seconds of a change of one pair."""
        return accepted(self.runs, self.whole, moving(self.runs, self.whole), LINES)[0]

    def a_group(self) -> Any:
        """The seconds of opening a group."""
        return self.opened / (POOLS * GROUPS - POOLS)

    def memory(self, shape: Any) -> Any:
        """The bytes of a group."""
        many, few = (peak(self.runs.words(self.map(groups, POOLS, shape), TALK)) for groups in (GROUPS, FEW))
        return (many - few) / (POOLS * (GROUPS - FEW))

    def small_pool(self) -> Any:
        """The bytes of a pool of one group."""
        many, one = (held(self.runs.words(self.map(1, pools), "")) for pools in (POOLS, 1))
        return (many - one) / (POOLS - 1)

    def reweight(self) -> Any:
        """The seconds of a reweight, for each group that it evaluates."""
        spent, evals = accepted(self.runs, self.whole, reweights(5), REWEIGHTS)
        return spent / evals


ROWS = (
    ("opening, ms", None, lambda of: of.opened * 1e3),
    ("opening a group, ns", None, lambda of: of.a_group() * 1e9),
    ("a rule's run, ns", None, lambda of: of.rule_run * 1e9),
    ("opening to runs", 1.15, lambda of: of.a_group() / of.rule_run),
    ("memory a group, bytes", 50, lambda of: of.memory(levels)),
    ("the same over 64 OSDs, bytes", 40, lambda of: of.memory(flat)),
    ("a pool of one group, bytes", None, lambda of: of.small_pool()),
    ("one OSD down or up, µs", 20, lambda of: accepted(of.runs, of.whole, STATES, LINES)[0] * 1e6),
    ("one new pair, µs", None, lambda of: of.pair * 1e6),
    ("a new pair to a rule's run", 1.2, lambda of: of.pair / of.rule_run),
    ("a reweight, µs a group evaluated", None, lambda of: of.reweight() * 1e6),
    ("the same to a rule's run", 1.2, lambda of: of.reweight() / of.rule_run),
)


def rows(runs: Folder) -> Iterator[Any]:
    """A row for each thing that is measured, over each kind of buckets."""
    kinds = [Measured(runs, kind) for kind in PLAIN]
    for name, goal, measure in ROWS:
        cells = [found(measure, of) for of in kinds]
        yield [name, *cells, *judged(cells, goal)]


def main() -> None:
    path = program(__doc__)
    heading("The table: 32 pools of 4,096 groups of size 3 over 1,024 OSDs in 511 buckets")
    in_folder(path, lambda runs: table(["what"] + [f"{kind} buckets" for kind in PLAIN] + ["goal", ""], rows(runs)))


if __name__ == "__main__":
    main()
