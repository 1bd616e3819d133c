#!/usr/bin/env python3
"""Plans over what plans have made: each plan's commands are given to the cluster, and it is planned again, four times.

    plans_again.py PROGRAM [FOLDER..]

The folders are those of `whole_cluster.py`, which also says how what pools hold is made up; what groups hold varies by
30 % or so, and disks are as their weights. Beside them come RANDOM clusters that are drawn (60, if it is not given),
from the draw FIRST on. Each is planned in each way of WAYS. *Commands* are those of the first plan, then those of each
plan over it until one has none, after which all have none; *told* is with how many commands a plan begins over the
first, as this says. *Amiss* are plans over a first one with commands that it has not told. As many clusters as JOBS
says (2) are planned side by side. The second table counts. It is no part of the gate.
"""

from __future__ import annotations

import json
import math
import os
import pathlib
import random
import re
import subprocess
import sys
from collections import Counter
from collections.abc import Iterator
from concurrent.futures import ThreadPoolExecutor
from typing import Any

from maps import groups_in
from random_clusters import drawn
from running import Folder, heading, in_folder, program_at, table
from tools import commands, words
from whole_cluster import Cluster, folders

WAYS = ("", "--df", "--df --pgs --osds", "--df --room", "--df --pgs --osds --room", "--alone")
PLANS, LIMIT, KIB = 5, 900, 1024
TOLD = re.compile(r"a plan over this one begins with (\d+) command")
COUNTED = ["way", "plans", "with commands", "commands", "empty then", "as told", "amiss", "no plan"]
AMISS = "AMISS"


def given(dump: Any, lines: Any) -> Any:
    """An OSD dump once Ceph's commands for its groups are given."""
    items = {own["pgid"]: own["mappings"] for own in dump["pg_upmap_items"]}
    sets = {own["pgid"]: own["osds"] for own in dump["pg_upmap"]}
    for line in lines:
        _, _, word, group, *numbers = line.split()
        osds, own = list(map(int, numbers)), items if word.endswith("-items") else sets
        own.pop(group, None)
        if word == "pg-upmap-items":
            items[group] = [{"from": one, "to": other} for one, other in zip(osds[::2], osds[1::2])]
        elif word == "pg-upmap":
            sets[group] = osds
    return dict(
        dump,
        pg_upmap_items=[{"pgid": group, "mappings": own} for group, own in items.items()],
        pg_upmap=[{"pgid": group, "osds": own} for group, own in sets.items()],
    )


class Planned:
    """A cluster that is planned again and again: its dumps, and what its pools, groups and disks hold."""

    def __init__(self, runs: Folder, folder: Any) -> None:
        self.cluster = Cluster(runs, folder)
        self.runs, self.name = runs, folder.name
        self.dump = json.loads((folder / "osd_dump.json").read_text())
        self.crush, *self.more = self.cluster.files[1:]
        rng = random.Random(5)
        self.held = {
            group: round(self.cluster.places[number] * rng.gammavariate(10, 0.1))
            for number, (_, pool) in sorted(self.cluster.pools.items())
            for group in groups_in(pool)
        }
        self.df = self.df_of() if self.held else ""

    def df_of(self) -> Any:
        """A file as `ceph df` prints it, by what the groups hold."""
        sums: Counter[int] = Counter()
        for group, size in self.held.items():
            number = int(group.split(".")[0])
            sums[number] += size * self.cluster.pools[number][1]["size"]
        names = self.cluster.names
        stats = [
            {"id": number, "name": names[number], "stats": {"bytes_used": size, "stored": size}}
            for number, size in sums.items()
        ]
        return self.runs.value({"pools": stats})

    def pgs(self) -> Any:
        """A file as `ceph pg dump` prints it."""
        rows = [{"pgid": group, "stat_sum": {"num_bytes": size}} for group, size in self.held.items()]
        return self.runs.value({"pg_stats": rows})

    def osds(self, sets: Any) -> Any:
        """A file as `ceph osd df` prints it, where groups have these sets: some of each disk is in use beside them."""
        own, used = self.cluster.weights, dict[int, float]()
        for group, osds in sets.items():
            for osd in set(osds):
                used[osd] = used.get(osd, 0) + self.held[group]
        rows = []
        for osd in sorted(row["osd"] for row in self.dump["osds"]):
            size = max(own.get(osd, 0.0) * 2**40, 2**36, used.get(osd, 0.0) * 1.3)
            size, has = self.sizes.setdefault(osd, size), used.get(osd, 0.0) + 2**30
            kb, kb_used = math.floor(size / KIB), math.floor(has / KIB)
            rows.append({"id": osd, "kb": kb, "kb_used": kb_used, "kb_avail": max(kb - kb_used, 0)})
        return self.runs.value({"nodes": rows})

    def files_of(self, word: str, lines: Any) -> list[Any]:
        """The file that stands behind a word of a way, once some commands are given; none where none does."""
        if word == "--df":
            return [self.df]
        if word == "--pgs":
            return [self.pgs()]
        return [self.osds(self.cluster.sets(lines))] if word == "--osds" else []

    def plan(self, dump: Any, way: str, lines: Any) -> tuple[Any, int]:
        """The commands of a plan over a dump that some commands have led to, and with how many one over it begins, as
        it says; None where there is no plan."""
        more = [word for own in way.split() for word in [own, *self.files_of(own, lines)]]
        done = subprocess.run(
            list(map(str, words(self.runs, "plan", self.runs.value(dump), self.crush, *self.more, *more, "--anyway"))),
            stdin=subprocess.DEVNULL,
            capture_output=True,
            text=True,
            check=False,
            timeout=LIMIT,
        )
        if done.returncode != 0:
            return None, 0
        told = TOLD.search(done.stderr)
        return commands(done.stdout), int(told[1]) if told else 0

    def row(self, way: str, counts: Counter[str]) -> list[Any]:
        """The row of a way, which is counted."""
        self.sizes: dict[int, float] = {}
        dump, lines, numbers, first = self.dump, list[str](), list[int](), 0
        for at in range(PLANS):
            found, told = self.plan(dump, way, lines)
            if found is None:
                counts["no plan"] += 1
                return [f"{self.name}, plan {way}", "no plan"]
            first = told if at == 0 else first
            numbers.append(len(found))
            if not found:
                break
            dump, lines = given(dump, found), lines + found
        second = numbers[1] if len(numbers) > 1 else 0
        end = AMISS if second != first else "as told" if first else ""
        counts.update({"plans": 1, "with commands": numbers[0] > 0, "commands": numbers[0]})
        counts.update({"empty then": numbers[0] > 0 and not second, "as told": second > 0 and end != AMISS})
        counts.update({"amiss": end == AMISS})
        return [f"{self.name}, plan {way}".rstrip(), ", ".join(map(str, numbers)), first or "", end]


def there(folder: str) -> list[Any]:
    """The folders of all clusters: those that are given, and those that are drawn."""
    found, count = list(folders()), int(os.environ.get("RANDOM", "60"))
    seed, last = int(os.environ.get("FIRST", "1")), 0
    while last < count:
        dumps = drawn(seed)
        if dumps[0]["pools"]:
            path = pathlib.Path(folder, f"drawn-{seed}")
            path.mkdir()
            for name, value in zip(("osd_dump.json", "crush_dump.json"), dumps):
                (path / name).write_text(json.dumps(value))
            found.append(path)
            last += 1
        seed += 1
    return found


def rows(program: Any, folder: str, counts: dict[str, Counter[str]]) -> Iterator[Any]:
    """The rows of the first table: each cluster that comes in, once for each way."""

    def of_one(path: Any) -> list[Any]:
        runs = in_own(program, folder, path.name)
        own = Planned(runs, path)
        if not own.cluster.pools:
            return [[path.name, "does not come in, or has no pools"]]
        return [own.row(way, counts[way]) for way in WAYS]

    with ThreadPoolExecutor(int(os.environ.get("JOBS", "2"))) as pool:
        for found in pool.map(of_one, there(folder)):
            yield from found


def in_own(program: Any, folder: str, name: str) -> Folder:
    """A folder of its own for the runs of a cluster."""
    path = pathlib.Path(folder, f"runs-{name}")
    path.mkdir()
    return Folder(program, str(path))


def main() -> None:
    if len(sys.argv) < 2:
        sys.exit(__doc__.strip())
    counts: dict[str, Counter[str]] = {way: Counter() for way in WAYS}
    heading("Plans over what plans have made")
    columns = ["cluster, plan", "commands", "told", ""]
    program = program_at(sys.argv[1])
    in_folder(program, lambda runs: table(columns, rows(program, runs.folder, counts)))
    heading("Plans over what plans have made, counted")
    table(COUNTED, [[f"plan {way}".rstrip(), *(counts[way][key] for key in COUNTED[1:])] for way in WAYS])


if __name__ == "__main__":
    main()
