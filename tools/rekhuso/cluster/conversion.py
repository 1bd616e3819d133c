"""A cluster's dumps in the form of a map, and a session over it."""

from __future__ import annotations

from ..faults import Fault, Refused
from ..program.defects import map_defects
from ..program.map_forms import FULL_WEIGHT, SETTING
from ..program.maps import Bucket, Map, Program, Rule, needs_stock, osd_gone
from ..program.monitor import Monitor
from .cluster import Cluster
from .entry_forms import KINDS_BY_TYPE, osd_of, pool_of


def bucket_of(cluster: Cluster, number: int, is_own: bool = False) -> Bucket:
    """A bucket in the map's form; with its own weights where those in force are of a weight set, and these are asked
    for.
    """
    bucket, items = cluster.buckets[number], [list(item) for item in cluster.held[number]]
    if is_own and cluster.has_weight_set:
        own = dict(zip(cluster.listed_in(number), map(cluster.weight, bucket["items"])))
        items = [[item, own[item]] for item, _ in items]
    return {"id": number, "items": items, "kind": bucket["alg"], "type": bucket["type_id"]}


def map_of(cluster: Cluster) -> Map:
    """The map of a cluster that is in the profile."""
    rules: list[Rule] = [
        {"id": rule["rule_id"], "kind": KINDS_BY_TYPE[rule["type"]], "steps": cluster.steps_of(rule)}
        for rule in cluster.rules
    ]
    is_second = any(step[0] in SETTING for rule in rules for step in rule["steps"])
    explicit, items = cluster.exceptions
    gone = [osd_gone(osd, min(weight, FULL_WEIGHT)) for osd, weight in cluster.gone.items() if osd < cluster.max_osd]
    return {
        "buckets": [bucket_of(cluster, number) for number in cluster.kept],
        "epoch": cluster.epoch,
        "max_osd": cluster.max_osd,
        "osds": [osd_of(osd) for osd in cluster.osds.values()] + gone,
        "pg_upmap": explicit,
        "pg_upmap_items": items,
        "pools": [pool_of(pool) for pool in cluster.pools],
        "rules": rules,
        "version": 2 if is_second else 1,
    }


def monitor_of(value: Map, program: Program, stock: bool | None = None, store: str | None = None) -> Monitor:
    """A session over a map that nothing was found against; with the path of a store, over the store that begins with
    it. A fault where the program refuses the map: its own name for it, and the places.
    """
    try:
        return Monitor(value, program, stock=stock, store=store)
    except Refused as refused:
        raise Fault(
            f"the program refuses the map: {refused.name}", *map(str, map_defects(value, needs_stock(value)))
        ) from None
