"""A CRUSH map in place of a cluster's, and other rules, sizes and numbers of groups of its pools."""

from __future__ import annotations

from dataclasses import dataclass

from ..faults import Fault, Trouble
from ..files import json_of
from ..program.maps import altered
from ..values import SLOTS
from .cluster import Cluster
from .dump_forms import CRUSH_DUMP, is_crush_dump
from .dump_types import CrushDump, DumpPool
from .dumps import first_lines, read_dump
from .effects import counts_at_rest


@dataclass(frozen=True, **SLOTS)
class NewCrush:
    """`ceph osd setcrushmap`: the CRUSH map that is then in force."""

    crush: CrushDump


@dataclass(frozen=True, **SLOTS)
class PoolChange:
    """`ceph osd pool set` of a pool, by its id: its rule by name or number, its size, its numbers of groups; None where
    it keeps what it has.
    """

    pool: int
    rule: str | None
    size: int | None
    pg_num: int | None
    pgp_num: int | None


def crush_in(path: str) -> CrushDump:
    """The CRUSH map in a file, as `crushtool -i FILE --dump` prints it. A fault for each place of another form."""
    value = json_of(path)
    if not is_crush_dump(value):
        raise Trouble(f"{path}: no CRUSH map as crushtool --dump prints it")
    found, _, faults = read_dump(path, value, CRUSH_DUMP)
    if faults:
        raise Fault(*first_lines(faults))
    crush: CrushDump = altered(found, choose_args=found.get("choose_args", {}))  # type: ignore[assignment]
    return crush


def rule_named(cluster: Cluster, word: str, pool: DumpPool) -> int:
    """The number of a rule by its name or its number, which is one for such pools. A fault where there is none."""
    rules = {rule["rule_name"]: rule for rule in cluster.crush["rules"]}
    rules.update({str(rule["rule_id"]): rule for rule in cluster.crush["rules"]})
    if word not in rules:
        there = ", ".join(rule["rule_name"] for rule in cluster.crush["rules"])
        raise Fault(f"{pool['pool_name']}: no rule {word}; there are {there}")
    if rules[word]["type"] != pool["type"]:
        raise Fault(f"{pool['pool_name']}: rule {rules[word]['rule_name']} is for pools of the other kind")
    return rules[word]["rule_id"]


def pool_after(cluster: Cluster, pool: DumpPool, change: PoolChange) -> DumpPool:
    """A pool after a change. A fault where Ceph refuses that, or no tool can tell what becomes of the groups."""
    name, parts = pool["pool_name"], dict[str, int]()
    if change.rule is not None:
        parts["crush_rule"] = rule_named(cluster, change.rule, pool)
    if change.size is not None and change.size != pool["size"]:
        if pool["type"] != 1:
            raise Fault(f"{name}: the size of an erasure pool cannot be changed")
        parts.update(size=change.size, min_size=change.size - change.size // 2)
    count, placed = change.pg_num or pool["pg_num"], change.pgp_num or pool["pg_placement_num"]
    if count < pool["pg_num"]:
        raise Fault(f"{name}: {count} groups are fewer than its {pool['pg_num']}: where merged groups go is not told")
    if placed > count:
        raise Fault(f"{name}: pgp_num={placed} is more than its {count} groups")
    if (count, placed) != (pool["pg_num"], pool["pg_placement_num"]):
        parts.update(counts_at_rest(count, placed))
    return altered(pool, **parts)


def with_pool_change(cluster: Cluster, change: PoolChange) -> Cluster:
    """A cluster after a change of one of its pools."""
    pools = [pool_after(cluster, pool, change) if pool["pool"] == change.pool else pool for pool in cluster.pools]
    return Cluster(altered(cluster.osd_dump, pools=pools), cluster.crush, cluster.torn, cluster.gone)


def with_new_crush(cluster: Cluster, change: NewCrush) -> Cluster:
    """A cluster with another CRUSH map."""
    return Cluster(cluster.osd_dump, change.crush, cluster.torn, cluster.gone)
