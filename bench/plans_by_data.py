#!/usr/bin/env python3
"""Plans by data over whole clusters: how full the fullest OSD is before its plan and after it, and what keeps it there.

    plans_by_data.py PROGRAM [FOLDER..]

The folders are those of `whole_cluster.py`, which also says how the data is drawn: here twice for each cluster. Each
plan is `plan --df --anyway`, with the words of PLAN, if it is given, as `--room`. Sets are those of the program. A
group whose pool is not split evenly (its `pg_num` is no power of two) holds once or twice as much as another, as Ceph
splits groups; *by means* each counts as the mean of its pool. *Less even* is by deviation or fullest, of groups or of
bytes. *Kept by* is what the plan says of the fullest OSD, of the pool of which it has most, and *least* how full the
fullest OSD stays whatever a plan does (`least.py`), both where it is above 1.1. *Processor* is that of the tools and
the program. The second table counts the runs. It is no part of the gate.
"""

from __future__ import annotations

import json
import os
import resource
import sys
from collections import Counter
from collections.abc import Iterator
from typing import Any

from least import Least, Places
from maps import groups_in
from running import Folder, heading, in_folder, program_at, table
from tools import TOOLS, words
from whole_cluster import Cluster, folders, ran

sys.path.insert(0, os.path.dirname(TOOLS))
from rekhuso.plans.blocks import MapBlocks  # noqa: E402

DRAWS = (1, 2)
# From which ratio to its share on an OSD counts as too full.
FULL = 1.1
COLUMNS = [
    "cluster, plan",
    "commands",
    "data moved, %",
    "fullest before",
    "after",
    "after, by means",
    "deviation of bytes before, %",
    "after",
    "of groups before",
    "after",
    "room before",
    "after",
    "less even",
    "processor, s",
    "least",
    "kept by",
]
COUNTED = ["plans by data", "runs", "above 1.1 before", "above 1.1 after", "above 1.1 by any plan", "less even"]
# What the plan says that keeps an OSD, and the column that counts it.
KEPT_BY = {
    "failure domains": "by failure domains",
    "monitor": "by a monitor",
    "sizes": "by sizes",
    "shares": "by shares",
    "evenness": "by evenness",
    "not planned": "by pools without a plan",
    "": "by nothing that is told",
}


def parts_of(count: int) -> list[float]:
    """What a place of each group of a pool of so many groups holds, to the mean: where they are no power of two, the
    groups that are still to be split hold twice as much as the others."""
    half = 1 << (count.bit_length() - 1)
    sizes = [1 if number < count - half or number >= half else 2 for number in range(count)]
    return [size * count / sum(sizes) for size in sizes]


class Filled:
    """What OSDs have of all pools by some sets, and what they are to have, by what each group holds."""

    def __init__(self, cluster: Cluster, sets: Any) -> None:
        self.has: dict[int, float] = {}
        self.want: dict[int, float] = {}
        for number, (_, pool) in cluster.pools.items():
            self.add(cluster.trees[number], held_in(cluster, pool, sets, groups_in(pool)))

    def add(self, trees: Any, own: dict[int, float]) -> None:
        """Adds a pool, of which OSDs have so much, by the weights of its trees."""
        for osd, size in own.items():
            self.has[osd] = self.has.get(osd, 0.0) + size
        for tree in trees:
            whole, weights = sum(own.get(osd, 0.0) for osd in tree), sum(tree.values())
            for osd, weight in tree.items():
                self.want[osd] = self.want.get(osd, 0.0) + whole * weight / weights

    def fullest(self) -> float:
        """The greatest ratio of what an OSD has to its share."""
        return max((self.has.get(osd, 0.0) / own for osd, own in self.want.items() if own > 0), default=0.0)


def held_in(cluster: Cluster, pool: Any, sets: Any, groups: Any) -> dict[int, float]:
    """What each OSD has of some groups of a pool."""
    found: dict[int, float] = {}
    sizes = dict(zip(groups_in(pool), parts_of(pool["pg_num"])))
    for group in groups:
        for osd in set(sets[group]):
            found[osd] = found.get(osd, 0.0) + sizes[group] * cluster.places[pool["id"]]
    return found


def least_of(cluster: Cluster, barred: set[int]) -> float:
    """How full the fullest OSD stays whatever a plan does. Pools of which a monitor takes every exception away stay as
    they are, and so do groups of erasure pools with an empty place, and pools whose rules' blocks have OSDs in common.
    """
    fixed: dict[int, float] = {}
    pools: dict[int, tuple[Places, float]] = {}
    mapped = cluster.sets([], True)
    for number, (value, pool) in cluster.pools.items():
        blocks, groups = MapBlocks(value).of_pool(pool), groups_in(pool)
        free = [group for group in groups if pool["kind"] != "erasure" or len(mapped[group]) == pool["size"]]
        free = [] if number in barred or not blocks else free
        for osd, size in held_in(cluster, pool, cluster.start, set(groups) - set(free)).items():
            fixed[osd] = fixed.get(osd, 0.0) + size
        places = Places(
            blocks, [cluster.start[group] for group in free], [osd for tree in cluster.trees[number] for osd in tree]
        )
        if places.total():
            pools[number] = places, min(parts_of(pool["pg_num"])) * cluster.places[number]
    want = Filled(cluster, cluster.start).want
    return Least(pools, {osd: own for osd, own in want.items() if own > 0}, fixed).bound()


def kept_by(told: Any) -> str:
    """What the plan says that keeps the fullest OSD; nothing where none is too full."""
    stays = told["data"]["stays"] if told["data"] else []
    return str(stays[0]["pools"][0]["by"]) if stays else ""


def barred_in(told: Any) -> set[int]:
    """The pools of which a monitor takes every exception away, as a plan says."""
    return {pool["id"] for pool in told["pools"] if "takes every exception" in (pool["refused"] or "")}


def rows_of(cluster: Cluster, draw: int, more: list[str], counts: Counter[str]) -> Iterator[Any]:
    """The row of one plan, which is counted."""
    name = ", ".join([cluster.name, f"draw {draw}"])
    begin = resource.getrusage(resource.RUSAGE_CHILDREN)
    told, _ = ran(
        words(cluster.runs, "plan", *map(str, cluster.files), "--df", cluster.df(), "--anyway", "--json", *more)
    )
    end = resource.getrusage(resource.RUSAGE_CHILDREN)
    if told is None:
        yield [name, "no plan"]
        return
    found = json.loads(told)
    sets = cluster.sets(found["commands"])
    before, after = cluster.measured(cluster.start)[:5], cluster.measured(sets)[:5]
    fullest = [Filled(cluster, own).fullest() for own in (cluster.start, sets)]
    is_worse = (
        any(now > then * (1 + 1e-9) + 1e-9 for then, now in zip(before[:3], after[:3])) or fullest[1] > fullest[0]
    )
    why = kept_by(found) if fullest[1] > FULL else ""
    least = least_of(cluster, barred_in(found)) if fullest[1] > FULL else 0.0
    counts.update(runs=1, before=fullest[0] > FULL, after=fullest[1] > FULL, least=least > FULL, worse=is_worse)
    counts[KEPT_BY[why]] += fullest[1] > FULL
    spent = end.ru_utime + end.ru_stime - begin.ru_utime - begin.ru_stime
    pairs = [cell for at in (2, 0, 4) for cell in (before[at], after[at])]
    even = "LESS EVEN" if is_worse else "no"
    moved = cluster.moved(sets)[1]
    yield [name, len(found["commands"]), moved, *fullest, after[3], *pairs, even, spent, least or "", why]


def rows(runs: Folder, there: Any, more: list[str], counts: Counter[str]) -> Iterator[Any]:
    """The rows of the first table: each cluster that comes in, once for each draw."""
    for folder in there:
        cluster = Cluster(runs, folder)
        if not cluster.pools:
            yield [folder.name, "does not come in, or has no pools"]
            continue
        for draw in DRAWS:
            cluster.draw(draw)
            yield from rows_of(cluster, draw, more, counts)


def main() -> None:
    if len(sys.argv) < 2:
        sys.exit(__doc__.strip())
    there, more, counts = folders(), os.environ.get("PLAN", "").split(), Counter[str]()
    heading("Plans by data over clusters")
    if not there:
        print("NOT RUN: no folder of clusters is given, as a word or in REKHUSO_CLUSTERS.", flush=True)
        return
    in_folder(program_at(sys.argv[1]), lambda runs: table(COLUMNS, rows(runs, there, more, counts)))
    heading("Plans by data, counted")
    reasons = sorted(KEPT_BY.values())
    row = [" ".join(["plan", "--df", *more]), *(counts[key] for key in ("runs", "before", "after", "least", "worse"))]
    table([*COUNTED, *reasons], [row + [counts[reason] for reason in reasons]])


if __name__ == "__main__":
    main()
