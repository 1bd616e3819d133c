"""A map of the program in the form of a cluster's dumps, so that what is done to a cluster can be done to it."""

from __future__ import annotations

from ..program.maps import Map, Rule, altered, devices_in
from .cluster import Cluster
from .dump_types import CrushDump, DumpRule, DumpStep, OsdDump
from .entry_forms import TYPES_BY_KIND, dump_osd, dump_pool, told_exceptions
from .names import Names, named
from .tunables import TUNABLES


def osd_dump_of(value: Map, names: Names) -> OsdDump:
    """What `ceph osd dump` would print of a map's pools, OSDs and exceptions."""
    dump: OsdDump = {
        "epoch": value["epoch"],
        "max_osd": value["max_osd"],
        "pools": [dump_pool(pool, named(names, "pools", pool["id"])) for pool in value["pools"]],
        "osds": [dump_osd(osd) for osd in value["osds"] if osd["exists"]],
    }
    return altered(dump, **told_exceptions(value))


def rule_of(rule: Rule, names: Names) -> DumpRule:
    """A rule as a CRUSH dump has it."""
    steps: list[DumpStep] = []
    for op, *numbers in rule["steps"]:
        if op == "take":
            steps.append({"op": op, "item": numbers[0], "item_name": named(names, "buckets", numbers[0])})
        elif op.startswith("choose"):
            steps.append({"op": op, "num": numbers[0], "type": str(numbers[1])})
        else:
            steps.append({"op": op, "num": numbers[0]} if numbers else {"op": op})
    return {
        "rule_id": rule["id"],
        "rule_name": named(names, "rules", rule["id"]),
        "type": TYPES_BY_KIND[rule["kind"]],
        "steps": steps,
    }


def crush_dump_of(value: Map, names: Names) -> CrushDump:
    """What `ceph osd crush dump` would print of a map, whose types go by their numbers."""
    devices = {osd["id"] for osd in value["osds"]} | devices_in(value)
    return {
        "devices": [{"id": device, "name": f"osd.{device}"} for device in sorted(devices)],
        "types": [{"type_id": number, "name": str(number)} for number in range(16)],
        "buckets": [
            {
                "id": bucket["id"],
                "name": named(names, "buckets", bucket["id"]),
                "type_id": bucket["type"],
                "alg": bucket["kind"],
                "items": [{"id": item, "weight": weight} for item, weight in bucket["items"]],
            }
            for bucket in value["buckets"]
        ],
        "rules": [rule_of(rule, names) for rule in value["rules"]],
        "tunables": dict(TUNABLES),
        "choose_args": {},
    }


def cluster_of_map(value: Map, names: Names) -> Cluster:
    """A lawful map as the cluster that two dumps would tell of."""
    gone = {osd["id"]: osd["weight"] for osd in value["osds"] if not osd["exists"]}
    return Cluster(osd_dump_of(value, names), crush_dump_of(value, names), gone=gone)
