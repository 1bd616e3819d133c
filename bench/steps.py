#!/usr/bin/env python3
"""What single things cost in instructions, which other work on the machine does not change: opening a group, lines,
changes.

    steps.py PROGRAM

Needs valgrind; without it each row says so. Each is the difference of two runs that differ only in how often it is
done; a change is the difference of a line that is accepted and the same line refused as stale. It is no part of the
gate.
"""

from __future__ import annotations

import sys
from collections.abc import Iterator
from typing import Any

from changes import STATES, changes, comes_and_goes, moving, pairs_of, replaced, reweights
from maps import few_hosts, flat, hosts, levels, osds, paired
from running import Folder, heading, in_folder, instructions, output, program, row, table

EPOCH, STALE = 100_000, 900_000
# One bucket, and three levels.
SHAPES: tuple[Any, ...] = (flat, levels)
FEW, MANY, POOLS = 1_024, 4_096, 32
POOL_COUNTS, OSD_COUNTS = (1, 16, 256), (256, 1_024, 4_096)
# The group in the middle of all groups of 32 pools.
MIDDLE = "16.800"


def a_line(runs: Folder, stated: Any, line: Any, few: Any = 200, many: Any = 1_200) -> Any:
    """The instructions of one line."""
    return (instructions(runs.words(stated, line * many)) - instructions(runs.words(stated, line * few))) / (many - few)


def a_change(runs: Folder, stated: Any, parts: Any, count: Any = 60) -> Any:
    """The instructions of a change beyond the same line refused."""
    good = runs.words(stated, changes(parts, count, EPOCH))
    last = output(good)[-1]
    if not last.startswith("ok"):
        sys.exit(f"a change was refused: {last}")
    return (instructions(good) - instructions(runs.words(stated, changes(parts, count, STALE)))) / count


def a_whole_change(runs: Folder, stated: Any, few: Any = 200, many: Any = 1_200) -> Any:
    """The instructions of a line that sets an OSD down or up, read, made and answered. The goal is 7,500."""
    lines = [changes(STATES, count, EPOCH) for count in (few, many)]
    spent = [instructions(runs.words(stated, text)) for text in lines]
    return (spent[1] - spent[0]) / (many - few)


def single_rows(runs: Folder) -> Iterator[Any]:
    """Each thing with what it costs over one uniform bucket of 64 OSDs, and over 1,024 OSDs in three levels."""
    small, large, tiny = ([runs.map(shape("uniform", groups)) for shape in SHAPES] for groups in (FEW, MANY, 32))
    yield row(
        "opening a group",
        lambda: [
            (instructions(runs.words(many, "")) - instructions(runs.words(few, ""))) / (MANY - FEW)
            for few, many in zip(small, large)
        ],
    )
    for name, line in (
        ("`up`", "up 1.7f\n"),
        ("`epoch`", "epoch\n"),
        ("`count`", "count 7\n"),
        ("`groups`", "groups 7\n"),
    ):
        yield row(f"a line {name}", lambda: [a_line(runs, stated, line) for stated in large])
    yield row("a line `change`, whole", lambda: [a_whole_change(runs, stated) for stated in large])
    yield row("one OSD down or up", lambda: [a_change(runs, stated, STATES) for stated in large])
    yield row("one pair of a group", lambda: [a_change(runs, stated, moving(runs, stated)) for stated in large])
    yield row(
        "the same in a pool of 32 groups", lambda: [a_change(runs, stated, moving(runs, stated)) for stated in tiny]
    )


def list_rows(runs: Folder) -> Iterator[Any]:
    """What a change of one pair costs beside no other exceptions, and beside the most that there may be."""
    none = runs.map(flat("uniform", MANY, POOLS))
    full, lacking = (runs.map(paired(POOLS, without)) for without in ([], [MIDDLE]))
    yield row(
        "a pair that replaces another", lambda: [a_change(runs, stated, replaced(MIDDLE)) for stated in (none, full)]
    )
    yield row(
        "a key that comes or goes",
        lambda: [a_change(runs, stated, comes_and_goes(MIDDLE)) for stated in (none, lacking)],
    )


def pool_rows(runs: Folder) -> Iterator[Any]:
    """What lines cost that name the last pool, or none, as there are more pools of 16 groups."""
    kinds = [runs.map(few_hosts("straw2", 16, pools)) for pools in POOL_COUNTS]
    lasts = [*zip(kinds, POOL_COUNTS)]
    yield row("a line `up`", lambda: [a_line(runs, stated, f"up {last}.7\n") for stated, last in lasts])
    yield row("one OSD down or up", lambda: [a_change(runs, stated, STATES) for stated in kinds])
    moved = [replaced(f"{last}.3") for last in POOL_COUNTS]
    yield row("one pair of a group", lambda: [a_change(runs, *each) for each in zip(kinds, moved)])
    groups = [[f"{number}.3" for number in range(1, pools + 1)] for pools in POOL_COUNTS]
    named = [[pairs_of(own, osd) for osd in (61, 60)] for own in groups]
    yield row("a pair of a group of each pool", lambda: [a_change(runs, *each) for each in zip(kinds, named)])
    spare = [runs.map(with_spare(few_hosts("straw2", 16, pools))) for pools in POOL_COUNTS]
    yield row("a reweight that no rule reaches", lambda: [a_change(runs, stated, reweights(64)) for stated in spare])
    yield row(
        "a reweight that reaches all pools", lambda: [a_change(runs, stated, reweights(5), 6) for stated in kinds]
    )


def with_spare(stated: Any) -> Any:
    """A map with one OSD more, which stands in no bucket."""
    return {**stated, "max_osd": stated["max_osd"] + 1, "osds": osds(stated["max_osd"] + 1)}


def osd_rows(runs: Folder) -> Iterator[Any]:
    """What lines cost that name a group or an OSD, and a plan of a pool of one group, as there are more OSDs."""
    kinds = [runs.map(hosts(count, 16, 1)) for count in OSD_COUNTS]
    yield row("a line `up`", lambda: [a_line(runs, stated, "up 1.0\n") for stated in kinds])
    yield row("one OSD down or up", lambda: [a_change(runs, stated, STATES) for stated in kinds])
    yield row("one pair of a group", lambda: [a_change(runs, stated, moving(runs, stated)) for stated in kinds])
    yield row("a line `balance`", lambda: [a_line(runs, stated, "balance 1 16\n", 5, 15) for stated in kinds])


def main() -> None:
    path = program(__doc__)
    heading("Single things, in instructions")
    in_folder(path, lambda runs: table(["what", "64 OSDs in one bucket", "1,024 OSDs in 3 levels"], single_rows(runs)))
    heading("A change of one pair among exceptions, in instructions")
    in_folder(path, lambda runs: table(["what", "no other group has one", "131,071 others have one"], list_rows(runs)))
    heading("Lines beside more pools, in instructions")
    in_folder(path, lambda runs: table(["what", *(f"pools: {count}" for count in POOL_COUNTS)], pool_rows(runs)))
    heading("Lines beside more OSDs, over a pool of one group, in instructions")
    in_folder(path, lambda runs: table(["what", *(f"OSDs: {count:,}" for count in OSD_COUNTS)], osd_rows(runs)))


if __name__ == "__main__":
    main()
