"""Reasons by pools and OSDs."""

from __future__ import annotations

from ...words import some
from ..cluster import Cluster, GREATEST_POOL
from ..dump_types import DumpPool
from ..entry_forms import HASHPSPOOL, KINDS_BY_TYPE
from .counts import FEW, doubles, groups_reason, pools_reason, range_reason
from .kinds import Against, bare

# Pools and OSDs


def pool_rule_reasons(cluster: Cluster, pool: DumpPool) -> list[Against]:
    """A pool whose rule is not there, or is for pools of the other kind."""
    name, rule = f"pool {pool['pool']}", next(
        (own for own in cluster.rules if own["rule_id"] == pool["crush_rule"]), None
    )
    if rule is None:
        line = f"{name} uses rule {pool['crush_rule']}, which is not there"
        return [] if "rules" in cluster.torn else [Against("pool-rule", line)]
    kinds = KINDS_BY_TYPE.get(pool["type"]), KINDS_BY_TYPE.get(rule["type"])
    if None in kinds or kinds[0] == kinds[1]:
        return []
    line = f"{name} is {kinds[0]}, but its rule {rule['rule_name']} is for {kinds[1]} pools"
    return [Against("pool-rule-kind", line)]


def pool_reasons(cluster: Cluster) -> list[Against]:
    """Pools that are too large or too small, of another type, or without hashpspool."""
    found: list[Against] = []
    for pool in cluster.pools:
        name, size = f"pool {pool['pool']}", pool["size"]
        found += pool_rule_reasons(cluster, pool)
        found += groups_reason(cluster, pool)
        found += range_reason(bare(cluster, "pool-size"), f"{name} has size {size}", size, 1, cluster.limits.size)
        if pool["type"] not in KINDS_BY_TYPE:
            line = f"{name} is of type {pool['type']}, neither replicated (1) nor erasure (3)"
            found.append(Against("pool-kind", line))
        if not pool.get("flags", HASHPSPOOL) & HASHPSPOOL:
            found.append(Against("pool-hashpspool", f"{name} is without hashpspool"))
        if pool.get("object_hash", 2) != 2:
            found.append(Against("pool-hash", f"{name} hashes objects by {pool['object_hash']}, not by rjenkins (2)"))
        found += number_reasons(name, pool)
    twice = doubles(pool["pool"] for pool in cluster.pools)
    found += [Against("pool-twice", f"pool {number} is listed twice") for number in twice]
    return found if cluster.is_stock else found + pools_reason(cluster)


def number_reasons(name: str, pool: DumpPool) -> list[Against]:
    """An id that no pool has, and a number of groups by which none can be placed."""
    own, groups, placed = pool["pool"], pool["pg_num"], pool["pg_placement_num"]
    found = [Against("pool-id", f"{name} has an id above {GREATEST_POOL}")] if own > GREATEST_POOL else []
    found += range_reason("pool-id", f"{name} has the id {own}", own, 1, max(own, 1))
    if placed > groups:
        found.append(Against("pool-placed", f"{name} places {placed} groups, more than it has, {groups}"))
    return found + range_reason("pool-placed", f"{name} places {placed} groups", placed, 1, max(placed, 1))


def high_reasons(cluster: Cluster) -> list[Against]:
    """OSDs of numbers that no map has, of a stock cluster many in one line."""
    numbers, limit, code = sorted(set(cluster.osds) | set(cluster.devices)), cluster.limits.osds, "osd-id"
    high = [f"osd.{osd}" for osd in numbers if osd >= limit]
    if cluster.is_stock and len(high) > FEW:
        return [Against(bare(cluster, code), f"{len(high)} OSDs are at or above osd.{limit}: {some(high)}")]
    return [Against(bare(cluster, code), f"{osd} is at or above osd.{limit}") for osd in high]


def osd_reasons(cluster: Cluster) -> list[Against]:
    """The epoch, OSDs that no map has or that are listed twice, and reweights that are no part of 1."""
    found = range_reason("epoch", f"the epoch is {cluster.epoch}", cluster.epoch, 1, 2**31)
    most, twice = cluster.osd_dump["max_osd"], doubles(own["osd"] for own in cluster.osd_dump["osds"])
    found += high_reasons(cluster)
    if "max_osd" not in cluster.torn:
        above = [osd for osd in sorted(cluster.osds) if most <= osd < cluster.limits.osds]
        found += [Against("osd-max", f"osd.{osd} is not below max_osd, {most}") for osd in above]
    found += [Against("osd-twice", f"osd.{osd} is listed twice in the OSD dump") for osd in twice]
    for osd, own in cluster.osds.items():
        if osd < 0:
            found.append(Against("osd-id", f"osd.{osd} has a number below 0"))
        if "exists" not in own.get("state", ["exists"]) and own["state"]:
            found.append(Against("osd-absent", f"osd.{osd} is listed in the OSD dump, but does not exist"))
        if own["weight"] < 0 or own["weight"] > 1 and not cluster.is_stock:
            which = "above 1" if own["weight"] > 1 else "below 0"
            found.append(Against("osd-reweight", f"osd.{osd} has reweight {own['weight']}, {which}"))
    return found
