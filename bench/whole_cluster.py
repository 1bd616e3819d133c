#!/usr/bin/env python3
"""Plans for whole clusters beside those of Ceph's own balancer, and whether any cluster gets less even by its plan.

    whole_cluster.py PROGRAM [FOLDER..]

A folder has clusters below it, or is one: `osd_dump.json` and `crush_dump.json` as Ceph's tools print them, and where
it is there `osdmap`, the monitor's own map, for `osdmaptool`. Folders may also stand in REKHUSO_CLUSTERS, with colons
between them; none are part of this repository. What the pools hold is made up: a hundredfold apart, some nearly empty,
in all 60 % of the room.

The first table has some clusters of many pools: *moves* are the places that another OSD has, *deviation* the
standard deviation from the shares over all pools, of groups in groups and of data in percent of a share, *fullest*
the greatest ratio of what an OSD has to its share, *room* what the pool with most data may still take (MAX AVAIL),
of what it might if all OSDs were as full as each other, *worst pool* by how many groups a pool's farthest OSD is
farther from its share than by `plan --alone`. `osdmaptool --upmap` makes as many changes as it likes. The second
table has every cluster that comes in, before its plan and after it. Sets are those of the program. It is no part of
the gate.
"""

from __future__ import annotations

import json
import math
import os
import pathlib
import random
import re
import shutil
import subprocess
import sys
import time
from collections.abc import Iterator
from typing import Any

from maps import groups_in, groups_of, reweights_of, trees_of, weights_of, with_all_up, with_commands
from running import Folder, heading, in_folder, output, program_at, table
from tools import commands, words

LIMIT = 600
# The clusters of the first table, in its order.
MANY = ["many_small", "het_many", "classes_many", "tuned", "025-many-pools"]
FULL, UNIT = 0.95, 2**40


def folders() -> Any:
    """The folders of clusters that are given, each with the two dumps."""
    given = sys.argv[2:] or [path for path in os.environ.get("REKHUSO_CLUSTERS", "").split(":") if path]
    found = []
    for path in map(pathlib.Path, given):
        found += [
            own
            for own in [path, *sorted(path.glob("*"))]
            if (own / "osd_dump.json").is_file() and (own / "crush_dump.json").is_file()
        ]
    return found


def ran(command: Any) -> tuple[Any, Any]:
    """What a command puts out, and its seconds; None where it fails."""
    begin = time.perf_counter()
    try:
        done = subprocess.run(
            list(map(str, command)),
            stdin=subprocess.DEVNULL,
            capture_output=True,
            text=True,
            check=False,
            timeout=LIMIT,
        )
    except subprocess.TimeoutExpired:
        return None, LIMIT
    return done.stdout if done.returncode == 0 else None, time.perf_counter() - begin


class Cluster:
    """A cluster with its maps, made-up data, and what of it is measured."""

    def __init__(self, runs: Folder, folder: Any) -> None:
        self.runs, self.name, self.osdmap = runs, folder.name, folder / "osdmap"
        more = (folder / "words").read_text().split() if (folder / "words").is_file() else []
        self.files = [folder / "osd_dump.json", folder / "crush_dump.json", *more]
        self.maps: list[Any] = []
        ways: list[list[str]] = [[], ["--unmatched"]]
        for unmatched in ways:
            if not self.maps:
                self.maps = self.brought(*self.files, *unmatched)
                self.files += unmatched if self.maps else []
        self.names = {
            pool["pool"]: pool["pool_name"] for pool in json.loads((folder / "osd_dump.json").read_text())["pools"]
        }
        self.pools = {pool["id"]: (value, pool) for value in self.maps for pool in value["pools"]}
        self.weights = {
            item: weight / 65536 for value in self.maps for item, weight in weights_of(value).items() if item >= 0
        }
        self.trees = {number: self.trees_of(*own) for number, own in self.pools.items()}
        self.start = self.sets([]) if self.maps else {}
        self.shares = {number: self.shares_of(number) for number in self.pools}
        self.places = self.data(1)

    def brought(self, *given: Any) -> Any:
        """The maps of the cluster: its one map, or all that it takes; none where it does not come in."""
        text, _ = ran(words(self.runs, "import", *map(str, given)))
        if text is not None:
            return [json.loads(text)]
        maps = pathlib.Path(self.runs.folder, f"maps-{self.name}")
        done, _ = ran(words(self.runs, "import", *map(str, given), "--to", str(maps)))
        return [] if done is None else [json.loads(path.read_text()) for path in sorted(maps.iterdir())]

    def trees_of(self, value: Any, pool: Any) -> list[Any]:
        """The weights of the OSDs that may have groups of a pool, tree by tree of its rule."""
        weights = reweights_of(value)
        return [
            {osd: self.weights[osd] * weights[osd] for osd in tree if weights.get(osd)}
            for tree in trees_of(value, pool)
        ]

    def sets(self, lines: Any, is_up: bool = False) -> Any:
        """The up set of each group once commands are given; also as it is where all OSDs are up."""
        found = {}
        for value in self.maps:
            asked = groups_of(value)
            path = self.runs.map(with_commands(with_all_up(value) if is_up else value, lines))
            answers = output(self.runs.words(path, "".join(f"up {group}\n" for group in asked)))
            for group, answer in zip(asked, answers):
                found[group] = [
                    osd for osd in json.loads(answer.split(" ")[3].replace("none", "null")) if osd is not None
                ]
        return found

    def counts(self, sets: Any) -> Any:
        """By pool, how many groups each OSD has."""
        found: dict[int, dict[int, int]] = {number: {} for number in self.pools}
        for group, osds in sets.items():
            own = found[int(group.split(".")[0])]
            for osd in osds:
                own[osd] = own.get(osd, 0) + 1
        return found

    def shares_of(self, number: int) -> Any:
        """The share of each OSD in a pool."""
        counts, found = (
            self.counts({group: self.start[group] for group in groups_in(self.pools[number][1])})[number],
            {},
        )
        for tree in self.trees[number]:
            held = sum(counts.get(osd, 0) for osd in tree)
            found.update({osd: held * weight / sum(tree.values()) for osd, weight in tree.items()})
        return found

    def draw(self, number: int) -> None:
        """Draws what the pools hold anew, the draw of a number."""
        self.places = self.data(number)

    def data(self, draw: int) -> dict[Any, Any]:
        """The bytes of a place of each pool, by the draw of a number."""
        rng, raw = random.Random(draw), {}
        for number in sorted(self.pools):
            raw[number], name = 10 ** rng.uniform(-1, 1), self.names[number].lower()
            if "mgr" in name or "device_health" in name:
                raw[number] = 1e-5
            elif re.search(r"meta|log|control|otp|root|index|non-ec|\.rgw", name) and "data" not in name:
                raw[number] = 1e-3
            elif re.fullmatch(r"[psv]\d+", name) and int(name[1:]) % 4 == 3:
                raw[number] = 1e-3
        of_place = {
            number: own / (self.pools[number][1]["pg_num"] * self.pools[number][1]["size"])
            for number, own in raw.items()
        }
        wanted = {osd: 0.0 for shares in self.shares.values() for osd in shares}
        for number, shares in self.shares.items():
            for osd, share in shares.items():
                wanted[osd] += share * of_place[number]
        scale = 0.6 * sum(self.weights[osd] for osd in wanted) / max(sum(wanted.values()), 1e-12) * UNIT
        return {number: own * scale for number, own in of_place.items()}

    def df(self) -> Any:
        """A file as `ceph df` prints it."""
        held = {
            number: round(place * self.pools[number][1]["pg_num"] * self.pools[number][1]["size"])
            for number, place in self.places.items()
        }
        pools = [
            {"id": number, "name": self.names[number], "stats": {"bytes_used": size, "stored": size}}
            for number, size in held.items()
        ]
        return self.runs.value({"pools": pools})

    # Measures

    def totals(self, counts: Any, places: Any = None) -> list[Any]:
        """What each OSD has that has a share, and its share: over all pools, in groups or in bytes."""
        has: dict[int, float] = {}
        share: dict[int, float] = {}
        for number in self.pools:
            place = 1 if places is None else places[number]
            for osd, own in self.shares[number].items():
                share[osd] = share.get(osd, 0) + own * place
            for osd, own in counts[number].items():
                has[osd] = has.get(osd, 0) + own * place
        return [(has.get(osd, 0), own) for osd, own in share.items() if own > 0]

    def room(self, counts: Any) -> Any:
        """What the pool with most data may still take, of what it might if all were even."""
        several = [number for number, (_, pool) in self.pools.items() if pool["pg_num"] > 1 and self.trees[number]]
        if not several:
            return 0.0
        most = max(
            several,
            key=lambda number: float(
                self.places[number] * self.pools[number][1]["pg_num"] * self.pools[number][1]["size"]
            ),
        )
        used: dict[int, float] = {}
        for number, own in counts.items():
            for osd, count in own.items():
                used[osd] = used.get(osd, 0) + count * self.places[number]
        rooms = []
        for tree in self.trees[most]:
            total = sum(self.weights[osd] for osd in tree)
            even = FULL * total * UNIT - sum(used.get(osd, 0) for osd in tree)
            own = min((FULL * self.weights[osd] * UNIT - used.get(osd, 0)) * total / self.weights[osd] for osd in tree)
            rooms.append(max(own, 0) / even if even > 0 else 0.0)
        return min(rooms, default=0.0)

    def farthest(self, counts: Any) -> dict[Any, Any]:
        """How far each pool of several groups is from its shares at most."""
        return {
            number: max((abs(counts[number].get(osd, 0) - share) for osd, share in shares.items()), default=0.0)
            for number, shares in self.shares.items()
            if self.pools[number][1]["pg_num"] > 1
        }

    def measured(self, sets: Any) -> tuple[Any, Any, Any, Any, Any, Any]:
        """The deviations and the fullest, of groups and of data, the room, and how far each pool is."""
        counts = self.counts(sets)
        groups, data = self.totals(counts), self.totals(counts, self.places)
        deviation = math.sqrt(sum((has - share) ** 2 for has, share in groups) / max(len(groups), 1))
        ratios = [has / share for has, share in data]
        relative = math.sqrt(sum((ratio - 1) ** 2 for ratio in ratios) / max(len(ratios), 1))
        fullest = [max((has / share for has, share in own), default=0.0) for own in (groups, data)]
        return deviation, fullest[0], 100 * relative, fullest[1], self.room(counts), self.farthest(counts)

    # Plans

    def plan(self, *more: Any) -> tuple[Any, Any]:
        """The commands of a plan, and its seconds; None where there is none."""
        told, seconds = ran(words(self.runs, "plan", *map(str, self.files), *more))
        return None if told is None else commands(told), seconds

    def of_ceph(self, deviation: Any) -> tuple[Any, Any]:
        """The commands of `osdmaptool --upmap`, and its seconds; None where there is no such map or no such tool."""
        if not self.osdmap.is_file() or shutil.which("osdmaptool") is None:
            return None, 0.0
        own, plan = os.path.join(self.runs.folder, "osdmap"), os.path.join(self.runs.folder, "upmap")
        shutil.copy(self.osdmap, own)
        os.chmod(own, 0o600)
        done, seconds = ran(
            [
                "osdmaptool",
                own,
                "--upmap",
                plan,
                "--upmap-max",
                "100000",
                "--upmap-deviation",
                deviation,
                "--osd_calc_pg_upmaps_aggressively=false",
            ]
        )
        if done is None:
            return None, seconds
        with open(plan, encoding="utf-8") as file:
            return file.read().splitlines(), seconds

    def moved(self, sets: Any) -> tuple[Any, Any]:
        """How many places another OSD has, and which part of the data that is."""
        places = {group: len(set(osds) - set(self.start[group])) for group, osds in sets.items()}
        size = sum(count * self.places[int(group.split(".")[0])] for group, count in places.items())
        total = sum(
            place * self.pools[number][1]["pg_num"] * self.pools[number][1]["size"]
            for number, place in self.places.items()
        )
        return sum(places.values()), 100 * size / max(total, 1)


COLUMNS = [
    "cluster, plan",
    "moves",
    "commands",
    "of the data, %",
    "groups: deviation",
    "fullest",
    "data: deviation, %",
    "fullest",
    "room",
    "worst pool",
    "s",
]


def cells(cluster: Any, lines: Any, seconds: Any, alone: Any) -> tuple[Any, Any]:
    """What a plan's row has; `alone` is how far each pool is by plans of pools by themselves."""
    sets = cluster.sets(lines)
    moves, share = cluster.moved(sets)
    *found, far = cluster.measured(sets)
    worst = max((own - alone[number] for number, own in far.items()), default=0.0) if alone else ""
    return [moves, len(lines), share, *found, worst, seconds], far


def many_rows(runs: Folder, there: Any) -> Iterator[Any]:
    """The rows of the first table."""
    for name in MANY:
        folder = next((own for own in there if own.name == name), None)
        if folder is None:
            yield [name, "NOT RUN: no such folder is given"]
            continue
        cluster, alone = Cluster(runs, folder), None
        df = cluster.df()
        yield [f"{name}, before", *cells(cluster, [], 0.0, None)[0]]
        ways: list[tuple[str, Any]] = [
            ("each pool by itself (--alone)", lambda: cluster.plan("--alone")),
            ("plan", cluster.plan),
            ("plan --df", lambda: cluster.plan("--df", df)),
            ("plan --df --room", lambda: cluster.plan("--df", df, "--room")),
            ("osdmaptool, deviation 1", lambda: cluster.of_ceph(1)),
            ("osdmaptool, deviation 5", lambda: cluster.of_ceph(5)),
        ]
        for about, plan in ways:
            lines, seconds = plan()
            if lines is None:
                yield [
                    f"{name}, {about}",
                    "NOT RUN: no osdmap, or no osdmaptool" if "osdmaptool" in about else "no plan",
                ]
                continue
            own, far = cells(cluster, lines, seconds, alone)
            alone = alone or far
            yield [f"{name}, {about}", *own]


def even_rows(runs: Folder, there: Any) -> Iterator[Any]:
    """The rows of the second table: each cluster that comes in and has a plan, without data and with it."""
    for folder in there:
        cluster = Cluster(runs, folder)
        if not cluster.pools:
            yield [folder.name, "does not come in, or has no pools"]
            continue
        before = cluster.measured(cluster.start)
        for about, more in (("plan", []), ("plan --df", ["--df", cluster.df()])):
            lines, _ = cluster.plan(*more)
            if lines is None:
                yield [f"{folder.name}, {about}", "no plan"]
                continue
            sets = cluster.sets(lines)
            after = cluster.measured(sets)
            wanted = range(4) if more else range(2)
            worse = [at for at in wanted if after[at] > before[at] * (1 + 1e-9) + 1e-9]
            pairs = [cell for at in range(5) for cell in (before[at], after[at])]
            yield [f"{folder.name}, {about}", cluster.moved(sets)[0], *pairs, "LESS EVEN" if worse else "no"]


def main() -> None:
    if len(sys.argv) < 2:
        sys.exit(__doc__.strip())
    there = folders()
    heading("Plans for whole clusters beside Ceph's balancer")
    if not there:
        print("NOT RUN: no folder of clusters is given, as a word or in REKHUSO_CLUSTERS.", flush=True)
        return
    program = program_at(sys.argv[1])
    in_folder(program, lambda runs: table(COLUMNS, many_rows(runs, there)))
    heading("Clusters before their plans and after them")
    ends = [
        f"{what} {when}"
        for what in ("groups: deviation", "fullest", "data: deviation, %", "fullest", "room")
        for when in ("before", "after")
    ]
    in_folder(program, lambda runs: table(["cluster, plan", "moves", *ends, "less even"], even_rows(runs, there)))


if __name__ == "__main__":
    main()
