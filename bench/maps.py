"""The maps that the benches run over, and what they read of maps. What a map, an OSD and a pool are made of stands in
tests/whole_maps.py, for tests and benches."""

from __future__ import annotations

import os
import sys
from typing import Any

sys.path.append(os.path.dirname(os.path.dirname(os.path.abspath(__file__))))
from tests import clusters, whole_maps  # noqa: E402

# The kinds that every map may have, and all: straw2 the program takes where it is told to.
PLAIN = ("uniform", "list", "tree")
KINDS = (*PLAIN, "straw2")
# An OSD that is there, a rule, and a map with every OSD up that is there.
osd, rule, with_all_up = whole_maps.osd_of, whole_maps.rule_of, clusters.raised


def osds(count: Any, weight: int = whole_maps.FULL) -> list[Any]:
    """So many OSDs that are up, with a reweight."""
    return [osd(number, weight=weight) for number in range(count)]


def pool(number: int, groups: Any, size: int = 3, kind: str = "replicated", rule: int = 0) -> dict[str, Any]:
    """A pool that places as many groups as it has."""
    return whole_maps.pool_of(number, groups, size, rule, kind)


def whole(buckets: Any, rules: Any, pools: Any, osds: Any, **more: Any) -> dict[str, Any]:
    """A map of an epoch that real clusters have, unless `more` says another."""
    return whole_maps.map_of(buckets, rules, pools, osds, **{"epoch": 100_000, **more})


def a_map(buckets: Any, count: Any, steps: Any, pools: Any, groups: Any) -> dict[Any, Any]:
    """A map of so many devices and pools of so many groups each, under one rule."""
    own = [pool(number, groups) for number in range(1, pools + 1)]
    return whole(buckets, [rule([["take", -1]] + steps + [["emit"]])], own, osds(count))


def flat(kind: str, groups: Any, pools: Any = 1) -> Any:
    """64 devices in one bucket."""
    bucket = {"id": -1, "items": [[i, 65536] for i in range(64)], "kind": kind, "type": 10}
    return a_map([bucket], 64, [["choose_firstn", 0, 0]], pools, groups)


def few_hosts(kind: str, groups: Any, pools: Any = 1) -> Any:
    """64 devices in 8 hosts under one root."""
    buckets = [{"id": -1, "items": [[-2 - h, 524288] for h in range(8)], "kind": kind, "type": 10}]
    buckets += [
        {"id": -2 - h, "items": [[8 * h + i, 65536] for i in range(8)], "kind": kind, "type": 1} for h in range(8)
    ]
    return a_map(buckets, 64, [["chooseleaf_firstn", 0, 1]], pools, groups)


def hosts(count: int, each: int, groups: Any) -> Any:
    """So many devices in straw2 hosts of a number of devices each, and a pool."""
    below = range(count // each)
    buckets: list[Any] = [{"id": -1, "items": [[-2 - h, each * 65536] for h in below], "kind": "straw2", "type": 10}]
    buckets += [
        {"id": -2 - h, "items": [[each * h + i, 65536] for i in range(each)], "kind": "straw2", "type": 1}
        for h in below
    ]
    return a_map(buckets, count, [["chooseleaf_firstn", 0, 1]], 1, groups)


def levels(kind: str, groups: Any, pools: Any = 1, racks: Any = 30, hosts: Any = 480) -> Any:
    """1,024 devices in hosts in racks under one root: 511 buckets as it is, with two devices or three in a host."""
    buckets = [{"id": -1, "items": [[-2 - r, 65536] for r in range(racks)], "kind": kind, "type": 10}]
    for r in range(racks):
        below = range(r * hosts // racks, (r + 1) * hosts // racks)
        buckets.append({"id": -2 - r, "items": [[-2 - racks - h, 65536] for h in below], "kind": kind, "type": 2})
    for h in range(hosts):
        below = range(h * 1024 // hosts, (h + 1) * 1024 // hosts)
        buckets.append({"id": -2 - racks - h, "items": [[d, 65536] for d in below], "kind": kind, "type": 1})
    return a_map(buckets, 1024, [["chooseleaf_firstn", 0, 1]], pools, groups)


def paired(pools: Any, without: Any = (), explicit: Any = False) -> Any:
    """64 devices in one bucket, and pools of 4,096 groups, each group but some with a pair that changes nothing, and
    with an explicit set too."""
    stated = flat("uniform", 4096, pools)
    groups = [
        group for number in range(1, pools + 1) for of in range(4096) if (group := f"{number}.{of:x}") not in without
    ]
    stated["pg_upmap_items"] = [[group, [[62, 63]]] for group in groups]
    if explicit:
        stated["pg_upmap"] = [[group, [0, 1, 2]] for group in groups]
    return stated


def stock(racks: Any, hosts: Any, disks: Any, pools: Any) -> dict[Any, Any]:
    """A cluster as stock Ceph lays it out: straw2 racks of so many straw2 hosts of disks of these weights, and pools
    of so many groups and places, copies over hosts or racks or coded parts over racks."""
    each, count = len(disks), racks * hosts * len(disks)
    below = [
        [[osd, disks[osd % each]] for osd in range(host * each, (host + 1) * each)] for host in range(racks * hosts)
    ]
    buckets = [{"id": -1, "items": [[-2 - r, hosts * sum(disks)] for r in range(racks)], "kind": "straw2", "type": 11}]
    buckets += [
        {
            "id": -2 - r,
            "items": [[-2 - racks - h, sum(disks)] for h in range(r * hosts, (r + 1) * hosts)],
            "kind": "straw2",
            "type": 3,
        }
        for r in range(racks)
    ]
    buckets += [{"id": -2 - racks - h, "items": items, "kind": "straw2", "type": 1} for h, items in enumerate(below)]
    tries = [["set_chooseleaf_tries", 5], ["set_choose_tries", 100]]
    steps = [
        [["take", -1], ["chooseleaf_firstn", 0, 1]],
        [["take", -1], ["chooseleaf_firstn", 0, 3]],
        [*tries, ["take", -1], ["chooseleaf_indep", 0, 3]],
    ]
    kinds = ["replicated", "replicated", "erasure"]
    rules = [rule([*own, ["emit"]], number, kinds[number]) for number, own in enumerate(steps)]
    own = [pool(number, groups, size, kinds[by], by) for number, (groups, size, by) in enumerate(pools, 1)]
    return whole(buckets, rules, own, osds(count), version=2)


SHAPES = (
    ("64 OSDs in 8 hosts", few_hosts),
    ("1,024 OSDs, 511 buckets, 3 levels", levels),
    ("64 OSDs in one bucket", flat),
)


# What benches read of maps


def groups_in(pool: Any) -> list[str]:
    """All groups of a pool."""
    return [f"{pool['id']}.{number:x}" for number in range(pool["pg_num"])]


def groups_of(stated: Any) -> list[str]:
    """All groups of a map, pool by pool."""
    return [group for own in stated["pools"] for group in groups_in(own)]


def weights_of(stated: Any) -> dict[int, int]:
    """The weight of each item of the buckets."""
    return {item: weight for bucket in stated["buckets"] for item, weight in bucket["items"]}


def reweights_of(stated: Any) -> dict[int, int]:
    """The reweight of each OSD that is up."""
    return {own["id"]: own["weight"] for own in stated["osds"] if own["up"]}


def trees_of(stated: Any, pool: Any) -> list[set[int]]:
    """The OSDs below what the rule of a pool takes, tree by tree; trees that have OSDs in common are one."""
    below = {bucket["id"]: [item for item, _ in bucket["items"]] for bucket in stated["buckets"]}

    def reached(number: int) -> set[int]:
        return {number} if number >= 0 else {osd for item in below[number] for osd in reached(item)}

    trees: list[set[int]] = []
    for step in next(own["steps"] for own in stated["rules"] if own["id"] == pool["rule"]):
        if step[0] == "take":
            own = reached(step[1])
            trees = [tree for tree in trees if not tree & own] + [own.union(*(tree for tree in trees if tree & own))]
    return trees


def exceptions_of(stated: Any) -> tuple[list[Any], list[Any]]:
    """The explicit sets and the pairs of a map."""
    return stated.get("pg_upmap", []), stated.get("pg_upmap_items", [])


def with_commands(stated: Any, lines: Any) -> dict[Any, Any]:
    """A map once Ceph's commands for its groups are given, its exceptions in the order of their groups."""
    explicit, items = (dict(entries) for entries in exceptions_of(stated))
    pools = {str(own["id"]) for own in stated["pools"]}
    for line in lines:
        _, _, word, group, *osds = line.split()
        own = items if word.endswith("-items") else explicit
        if group.split(".")[0] in pools:
            own.pop(group, None)
            if not word.startswith("rm-"):
                numbers = list(map(int, osds))
                pairs = [list(pair) for pair in zip(numbers[::2], numbers[1::2])]
                own[group] = numbers if own is explicit else pairs
    sets, pairs_of = ([[group, own[group]] for group in sorted(own, key=place_of)] for own in (explicit, items))
    return dict(stated, pg_upmap=sets, pg_upmap_items=pairs_of)


def place_of(group: str) -> tuple[int, int]:
    """Where a group stands among all."""
    pool, number = group.split(".")
    return int(pool), int(number, 16)
