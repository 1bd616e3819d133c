#!/usr/bin/env python3
"""Plans of clusters with unequal failure domains, whose rules cannot give OSDs what they weigh.

    unequal.py PROGRAM

The clusters are those of `tests/unequal.json.gz`, and DRAWN ones (40, if it is not given) from the draw FIRST on: few
hosts, or few racks of hosts, some of which weigh far less than others, with pools over hosts and over racks, whose
places hold up to a hundredfold as much. Each is planned by `plan --df` and by `plan`. *Fullest* is that to its share by
weight, as the plan tells of itself and of what else was tried; *goes by* is which shares are the plan's. *Room* is what
the pool with most data may take (MAX AVAIL) before and after, in TiB. *Again* is how many commands the second plan has.
*Worse* counts plans whose fullest OSD, by bytes if they are known and else by groups, is more than 2 % fuller than by
reach or by weight, *less room* those after which a pool may take less, *goes on* those that go on from their end by
other shares. The second table counts. It is no part of the gate.
"""

from __future__ import annotations

import gzip
import json
import os
import pathlib
import random
import subprocess
import sys
from collections import Counter
from collections.abc import Iterator
from typing import Any

import maps
from dumps import crush_dump, osd_dump
from plans_again import given
from random_clusters import HOST, RACK, ROOT, Tree
from running import Folder, heading, in_folder, program_at, table
from tools import words

ONE, TIB, LIMIT = 65536, 2**40, 900
KEPT = pathlib.Path(__file__).resolve().parent.parent / "tests" / "unequal.json.gz"
COLUMNS = [
    "cluster, plan",
    "goes by",
    "fullest, by reach",
    "by weight",
    "by all pools",
    "printed",
    "at least",
    "places, by reach",
    "by weight",
    "by all pools",
    "printed",
    "room before",
    "after",
    "again",
]


def tree_of(rng: random.Random) -> tuple[Tree, list[int]]:
    """A tree of few hosts, or of few racks, of unlike sizes, and the types over which pools may lie."""
    tree, sizes = Tree(rng), [ONE, 2 * ONE, 4 * ONE, 8 * ONE]

    def host() -> list[int]:
        disks = [rng.choice(sizes)] * rng.randint(2, 8)
        return tree.host(disks, ["hdd"] * len(disks))

    if rng.random() < 0.5:
        tree.bucket(ROOT, [host() for _ in range(rng.randint(3, 5))])
        return tree, [HOST]
    counts = [rng.choice((1, 1, 2, 4)) for _ in range(rng.randint(3, 4))]
    tree.bucket(ROOT, [tree.bucket(RACK, [host() for _ in range(count)]) for count in counts])
    return tree, [HOST, RACK]


def drawn_unequal(seed: int) -> dict[str, Any]:
    """A cluster with unequal domains by the number of its draw: its two dumps, and what `ceph df` tells."""
    rng = random.Random(f"unequal {seed}")
    tree, kinds = tree_of(rng)
    root, rules, pools = tree.buckets[-1]["id"], [], []
    for at, kind in enumerate(kinds):
        rules.append(maps.rule([["take", root], ["chooseleaf_firstn", 0, kind], ["emit"]], at, "replicated"))
    for number in range(1, rng.randint(3, 6)):
        rule = rng.randrange(len(rules))
        size = min(rng.choice((2, 3, 3)), tree.counts[kinds[rule]])
        pools.append(maps.pool(number, rng.choice((16, 32, 64, 128)), size, "replicated", rule))
    stated = maps.whole(tree.buckets, rules, pools, maps.osds(len(tree.weights)), epoch=1000)
    osd, crush = osd_dump(stated), crush_dump(stated)
    whole = sum(tree.weights) * TIB // ONE
    heat = {own["id"]: own["pg_num"] * own["size"] * rng.choice((0.1, 1.0, 10.0)) for own in pools}
    names = {own["pool"]: own["pool_name"] for own in osd["pools"]}
    stats = []
    for own in pools:
        used = int(0.25 * whole * heat[own["id"]] / sum(heat.values()))
        stats.append(
            {"id": own["id"], "name": names[own["id"]], "stats": {"bytes_used": used, "stored": used // own["size"]}}
        )
    return {"osd_dump": osd, "crush_dump": crush, "df": {"stats": {"total_bytes": whole}, "pools": stats}}


def clusters() -> Iterator[tuple[str, dict[str, Any]]]:
    """All clusters by their names."""
    yield from json.loads(gzip.decompress(KEPT.read_bytes())).items()
    first = int(os.environ.get("FIRST", "1"))
    for seed in range(first, first + int(os.environ.get("DRAWN", "40"))):
        yield f"drawn-{seed}", drawn_unequal(seed)


def planned(runs: Folder, own: dict[str, Any], *more: Any) -> Any:
    """What a plan of a cluster tells as JSON; None where there is none."""
    files = runs.value(own["osd_dump"]), runs.value(own["crush_dump"])
    command = list(map(str, words(runs, "plan", *files, *more, "--json")))
    done = subprocess.run(command, capture_output=True, text=True, check=False, timeout=LIMIT)
    return json.loads(done.stdout) if done.returncode == 0 else None


def tib(size: int | None) -> str:
    """Bytes in TiB."""
    return "" if size is None else f"{size / TIB:.1f}"


def row(runs: Folder, name: str, own: dict[str, Any], way: str, counts: Counter[str]) -> list[Any]:
    """The row of a plan, which is counted."""
    more = [way, runs.value(own["df"])] if way else []
    told = planned(runs, own, *more)
    if told is None:
        counts["no plan"] += 1
        return [f"{name}, plan {way}".rstrip(), "no plan"]
    again = planned(runs, dict(own, osd_dump=given(own["osd_dump"], told["commands"])), *more)
    second = len(again["commands"]) if again else -1
    before, after = (told["cluster"][key]["room"] for key in ("before", "after"))
    counts.update({"plans": 1, "not empty again": second != 0, "places": told["moving"]["places"]})
    if "shares" not in told:
        counts["by weight anyway"] += 1
        return [f"{name}, plan {way}".rstrip(), "weight alone", *[""] * 9, tib(before), tib(after), second]
    ways = {found["by"]: found for found in told["shares"]["ways"]}
    best, key = ways[told["shares"]["by"]], "bytes" if way else "groups"
    full = [ways[by][key] for by in ("reach", "weight", "all pools")]
    first = best["by"].split(",")[0]
    counts.update({f"by {first}": 1, "goes on": first != best["by"], "less room": not best["keeps_room"]})
    counts["worse"] += best[key] > 1.02 * min(full[:2]) + 1e-3
    places = [ways[by]["places"] for by in ("reach", "weight", "all pools")]
    cells = [*(f"{own:.3f}" for own in (*full, best[key], told["shares"]["least"])), *places, best["places"]]
    return [f"{name}, plan {way}".rstrip(), best["by"], *cells, tib(before), tib(after), second]


def main() -> None:
    if len(sys.argv) < 2:
        sys.exit(__doc__.strip())
    counts: dict[str, Counter[str]] = {way: Counter() for way in ("--df", "")}

    def rows(runs: Folder) -> Iterator[list[Any]]:
        for name, own in clusters():
            for way in counts:
                yield row(runs, name, own, way, counts[way])

    heading("Plans of clusters with unequal failure domains")
    in_folder(program_at(sys.argv[1]), lambda runs: table(COLUMNS, rows(runs)))
    keys = ["plans", "by weight anyway", "by reach", "by weight", "by all pools", "goes on", "worse", "less room"]
    keys += ["not empty again", "places", "no plan"]
    heading("How many of them")
    table(["plan", *keys], [[f"plan {way}".rstrip(), *(own[key] for key in keys)] for way, own in counts.items()])


if __name__ == "__main__":
    main()
