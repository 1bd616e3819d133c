"""Clusters that Ceph's own tools made and dumped, and what is said of their dumps, maps and sets.

Those of clusters.json.gz are of kinds that every map holds. Those of stock.json.gz have buckets of kind straw2, as
clusters have them since 2016; a real monitor of Ceph 16.2.15 made and dumped them. Keys that nobody reads here were
left out. All up sets are Ceph's.
"""

from __future__ import annotations

import gzip
import json
from collections.abc import Iterable
from typing import Any

from tests.cases import HERE

# What JSON files and answers hold: maps, changes, dumps.
Json = Any
# What a dump says of an empty place.
NOBODY = (None, 2147483647)


def kept(name: str) -> Any:
    """What a packed file beside this one has."""
    return json.loads(gzip.decompress((HERE / name).read_bytes()))


CLUSTERS: dict[str, Json] = kept("clusters.json.gz")
STOCK: dict[str, Json] = kept("stock.json.gz")


def copied(value: Any) -> Any:
    """A value, to be changed."""
    return json.loads(json.dumps(value))


def ceph_set(entry: Any) -> str:
    """A set as Ceph tells it, as the program writes it."""
    osds, primary = entry
    return "[" + ",".join("none" if osd in NOBODY else str(osd) for osd in osds) + f"] {primary}"


def places(answer: str) -> list[int]:
    """The OSDs of a set as the program writes it, without empty places."""
    return [int(osd) for osd in answer.split(" ")[0].strip("[]").split(",") if osd not in ("", "none")]


def raised(value: Json) -> Json:
    """A map with all its OSDs up."""
    return dict(value, osds=[dict(osd, up=osd["exists"]) for osd in value["osds"]])


def object_parts(groups: int) -> list[float]:
    """Which part of a pool's objects each of its groups has: an object's hash goes to the group of its lowest bits, or
    where there is none to that of one bit less (Ceph, `ceph_stable_mod`)."""
    bits = 1
    while bits < groups:
        bits *= 2
    found = [0.0] * groups
    for number in range(bits):
        found[number if number < groups else number & (bits // 2 - 1)] += 1 / bits
    return found


def groups_of(value: Json) -> list[str]:
    """The groups of a map."""
    return [f"{pool['id']}.{number:x}" for pool in value["pools"] for number in range(pool["pg_num"])]


def below(value: Json, number: int) -> set[int]:
    """The OSDs at or below an item of a map."""
    items: list[tuple[int, int]] = next((bucket["items"] for bucket in value["buckets"] if bucket["id"] == number), [])
    return {number} if number >= 0 else {osd for item, _ in items for osd in below(value, item)}


def bucket_of(own: Json, name: str) -> Json:
    """A bucket of a cluster by its name."""
    found: Json = next(bucket for bucket in own["crush_dump"]["buckets"] if bucket["name"] == name)
    return found


def commands(output: str) -> list[str]:
    """The commands of a script, without what stands round them."""
    return [line for line in output.splitlines() if line.startswith("ceph ")]


def group_of(command: str) -> str:
    """The group of a command."""
    return command.split(" ")[3]


def of_groups(lines: Iterable[str]) -> dict[str, list[str]]:
    """The commands of each group, in their order."""
    found: dict[str, list[str]] = {}
    for line in lines:
        found.setdefault(group_of(line), []).append(line.split(" ")[2])
    return found


def with_commands(value: Json, lines: Iterable[str]) -> Json:
    """A map once some commands are given."""
    explicit: dict[str, Any] = dict(value["pg_upmap"])
    items: dict[str, Any] = dict(value["pg_upmap_items"])
    for line in lines:
        _, _, word, group, *given = line.split(" ")
        osds = list(map(int, given))
        if word == "pg-upmap-items":
            items[group] = [list(pair) for pair in zip(osds[::2], osds[1::2])]
        elif word == "rm-pg-upmap-items":
            del items[group]
        elif word == "pg-upmap":
            explicit[group] = osds
        else:
            del explicit[group]
    return dict(value, pg_upmap=sorted(map(list, explicit.items())), pg_upmap_items=sorted(map(list, items.items())))


def exceptions_told(pg_upmap: Iterable[Json] = (), pg_upmap_items: Iterable[Json] = ()) -> dict[str, list[Json]]:
    """Explicit sets and pairs as an OSD dump tells them."""
    pairs = [(group, [{"from": was, "to": now} for was, now in own]) for group, own in pg_upmap_items]
    return {
        "pg_upmap": [{"pgid": group, "osds": osds} for group, osds in pg_upmap],
        "pg_upmap_items": [{"pgid": group, "mappings": own} for group, own in pairs],
    }


def exceptions_in(dump: Json) -> dict[str, list[Json]]:
    """The explicit sets and the pairs of an OSD dump, as a map has them."""
    pairs = [(own["pgid"], [[one["from"], one["to"]] for one in own["mappings"]]) for own in dump["pg_upmap_items"]]
    return {
        "pg_upmap": [[own["pgid"], own["osds"]] for own in dump["pg_upmap"]],
        "pg_upmap_items": [[group, own] for group, own in pairs],
    }


def pool_lines(error: str) -> list[str]:
    """What a plan tells of pools, behind what it tells of an outage and of the cluster."""
    return [line for line in error.splitlines() if not line.startswith(("cluster ", "an outage: "))]


def uneven(name: str = "002-built", hosts: int = 3) -> tuple[Json, Json]:
    """The dumps of a cluster, 40 of whose groups have explicit sets that lie on the first OSD of some hosts."""
    own = copied(CLUSTERS[name])
    items = [
        [item["id"] for item in bucket["items"]] for bucket in own["crush_dump"]["buckets"] if bucket["type_id"] == 1
    ]
    heavy = [host[0] for host in items[:hosts]]
    own["osd_dump"]["pg_upmap"] = [{"pgid": f"1.{group:x}", "osds": heavy} for group in range(40)]
    return own["osd_dump"], own["crush_dump"]


def with_groups(pool: Json, groups: int) -> Json:
    """A pool of an OSD dump that has so many groups, and is to keep them."""
    targets = dict.fromkeys(("pg_num_pending", "pg_num_target", "pg_placement_num_target"), groups)
    return dict(pool, pg_num=groups, pg_placement_num=groups, **targets)


def pooled(count: int) -> tuple[Json, Json]:
    """The dumps of a cluster with so many pools of different sizes, by one rule."""
    own = copied(CLUSTERS["002-built"])
    pool = own["osd_dump"]["pools"][0]
    own["osd_dump"]["pools"] = [
        dict(with_groups(pool, groups), pool=number, pool_name=f"pool{number}", size=size)
        for number, groups, size in ((1, 96, 3), (7, 64, 2), (40, 48, 3))[:count]
    ]
    return own["osd_dump"], own["crush_dump"]


def named_pools(count: int) -> tuple[Json, Json]:
    """The same, each pool named by its number."""
    osd_dump, crush_dump = pooled(count)
    osd_dump["pools"] = [dict(pool, pool_name=f"p{pool['pool']}") for pool in osd_dump["pools"]]
    return osd_dump, crush_dump


def with_old_pairs() -> tuple[Json, Json]:
    """The dumps of a cluster in which some groups have explicit sets, some pairs, one a pair that does nothing, and one
    pairs in a chain."""
    osd_dump, crush_dump = uneven()
    pairs = [{"from": osd, "to": (osd + 5) % 12} for osd in range(12)]
    osd_dump["pg_upmap_items"] = [{"pgid": f"1.{group:x}", "mappings": [pairs[group % 12]]} for group in range(30, 60)]
    osd_dump["pg_upmap_items"][20]["mappings"] = [{"from": 0, "to": 5}, {"from": 5, "to": 10}]
    return osd_dump, crush_dump
