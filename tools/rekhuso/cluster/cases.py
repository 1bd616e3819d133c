"""A group of a cluster as a case: all that places it, and where the cluster says that it lies, without names."""

from __future__ import annotations

from typing import Any

from ..files import JsonObject
from ..program.map_forms import EXCEPTIONS
from ..program.maps import altered, entries_of, group_key
from .cluster import Cluster
from .dump_forms import CRUSH_DUMP, OSD_DUMP
from .dump_types import DumpBucket
from .shadows import SIGN
from .told_sets import ToldSet


def pruned(value: object, shape: object) -> Any:
    """What of a value the form of a dump tells of, and nothing else: no address, no id, no name of anything beside."""
    if isinstance(shape, list) and isinstance(value, list):
        return [pruned(entry, shape[0]) for entry in value]
    if isinstance(shape, dict) and shape and isinstance(value, dict):
        names = {key.removeprefix("?"): own for key, own in shape.items()}
        return {key: pruned(value[key], own) for key, own in names.items() if key in value}
    return value


def kept_buckets(part: Cluster) -> list[DumpBucket]:
    """The buckets below what the rule takes, and those above the same OSDs that are no shadows."""
    devices, own = set(part.devices), {number for number in part.stands if number < 0}

    def holds(number: int) -> bool:
        """Whether an OSD of the pool stands below a bucket."""
        return bool(devices & part.reached(number, part.listed_in))

    return [
        bucket
        for number, bucket in part.buckets.items()
        if number in own or SIGN not in bucket["name"] and holds(number)
    ]


def plain_names(part: Cluster, buckets: list[DumpBucket]) -> dict[int, str]:
    """A name for each bucket, which says its type and number alone; a shadow has that of its bucket, and its class."""
    base = {own["name"]: f"{part.type_name(own['type_id'])}{-own['id']}" for own in part.buckets.values()}
    found = {}
    for own in buckets:
        name, sign, kind = own["name"].partition(SIGN)
        found[own["id"]] = base.get(name, f"bucket{-own['id']}") + sign + kind
    return found


def crush_case(part: Cluster) -> JsonObject:
    """The CRUSH dump of a case."""
    buckets = kept_buckets(part)
    names, there = plain_names(part, buckets), {bucket["id"] for bucket in buckets}
    rules = []
    for rule in part.rules:
        steps = [
            altered(step, item_name=names[step["item"]]) if step["op"] == "take" else step for step in rule["steps"]
        ]
        rules.append(altered(rule, rule_name=f"rule{rule['rule_id']}", steps=steps))
    sets = {
        key: [entry for entry in entries if entry.get("bucket_id") in there]
        for key, entries in part.choose_args.items()
    }
    kept = [
        altered(
            bucket,
            name=names[bucket["id"]],
            items=[own for own in bucket["items"] if own["id"] >= 0 or own["id"] in there],
        )
        for bucket in buckets
    ]
    devices = {item["id"] for bucket in kept for item in bucket["items"]}
    return {
        "devices": [own for own in part.crush["devices"] if own["id"] in devices],
        "types": part.crush["types"],
        "buckets": kept,
        "rules": rules,
        "tunables": part.crush["tunables"],
        "choose_args": sets,
    }


def case_of(cluster: Cluster, group: str, said: ToldSet) -> JsonObject:
    """A group of a cluster with its rule, the tree below what that takes, the OSDs and the exceptions of the group, and
    what the cluster says of it.
    """
    part = cluster.of_pools({group_key(group)[0]})
    keys = (*EXCEPTIONS, "pg_upmap_primaries")
    own = {key: [entry for entry in entries_of(part.osd_dump, key) if entry["pgid"] == group] for key in keys}
    pools = [altered(pool, pool_name=f"pool{pool['pool']}", erasure_code_profile="") for pool in part.pools]
    kept: JsonObject = {key: value for key, value in part.osd_dump.items() if key in ("epoch", "max_osd", "osds")}
    return {
        "group": group,
        "up": said.places,
        "up_primary": said.primary,
        "osd_dump": pruned({**kept, "pools": pools, **own}, OSD_DUMP),
        "crush_dump": pruned(crush_case(part), CRUSH_DUMP),
    }
