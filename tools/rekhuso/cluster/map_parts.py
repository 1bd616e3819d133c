"""Which pools of a cluster one map holds, where the cluster takes several maps.

A map holds an item once and a rule for one size. So pools whose rules reach an item in different buckets are in two
maps, and so are pools of two sizes whose rule has a negative count. Pools beyond those that a map holds, and beyond
those whose groups it holds together, are in further maps.
"""

from __future__ import annotations

from collections.abc import Mapping
from typing import NamedTuple

from .cluster import Cluster
from .dump_types import DumpRule, DumpStep


class Demand(NamedTuple):
    """What a pool demands of its map: a rule, and a size where the rule has a negative count, else 0."""

    rule: int
    size: int


def counted_steps(cluster: Cluster) -> dict[int, list[DumpStep]]:
    """The rules with negative counts, each with the steps that have them, by which pools of other sizes go by other
    steps.
    """
    found = {
        rule["rule_id"]: [step for step in rule["steps"] if step["op"].startswith("choose") and step.get("num", 0) < 0]
        for rule in cluster.rules
    }
    return {number: steps for number, steps in found.items() if steps and cluster.is_stock}


def holders_by_item(cluster: Cluster, rule: DumpRule) -> dict[int, int]:
    """In which bucket each item stands that a rule may reach."""
    return {item: number for number in cluster.below_rule(rule) for item in cluster.holds(number)}


def demands_of(cluster: Cluster) -> dict[int, Demand]:
    """What each pool demands of its map."""
    counted = counted_steps(cluster)
    return {
        pool["pool"]: Demand(pool["crush_rule"], pool["size"] if pool["crush_rule"] in counted else 0)
        for pool in cluster.pools
    }


def clash(one: Mapping[int, int], other: Mapping[int, int]) -> bool:
    """Whether an item stands in two buckets, by the holders of one rule and of another."""
    return any(other.get(item, holder) != holder for item, holder in one.items())


def clashes(cluster: Cluster, demands: list[Demand]) -> dict[Demand, set[Demand]]:
    """With which others each demand cannot be met by one map."""
    rules = {rule["rule_id"]: holders_by_item(cluster, rule) for rule in cluster.rules}
    holders = {demand: rules.get(demand.rule, {}) for demand in demands}
    return {
        one: {
            other
            for other in demands
            if one != other and (one.rule == other.rule or clash(holders[one], holders[other]))
        }
        for one in demands
    }


def numbered(apart: Mapping[Demand, set[Demand]]) -> dict[Demand, int]:
    """The number of a map for each demand, where no map meets two that clash. What fewest maps are left for comes
    first, so that two maps are found wherever two suffice.
    """
    found: dict[Demand, int] = {}
    while len(found) < len(apart):
        taken = {one: {found[other] for other in apart[one] if other in found} for one in apart if one not in found}
        first = max(taken, key=lambda one: (len(taken[one]), len(apart[one]), -one.rule, -one.size))
        found[first] = next(number for number in range(len(apart)) if number not in taken[first])
    return found


def within_limits(cluster: Cluster, pools: set[int]) -> list[set[int]]:
    """Pools that do not clash, by the maps that they take: as many in each as it holds, and as it holds groups of
    them, by their ids. Without straw2 buckets a cluster takes one map.
    """
    if not cluster.is_stock:
        return [pools]
    most, found, total = cluster.of_pools(pools).limits, [set[int]()], 0
    for pool in sorted(pools):
        total += cluster.sizes[pool]
        if len(found[-1]) == most.pools or (found[-1] and total > most.total):
            found.append(set())
            total = cluster.sizes[pool]
        found[-1].add(pool)
    return found


def pools_by_map(cluster: Cluster) -> list[set[int]]:
    """The pools of each map that a cluster takes, those of the lowest pool first; one without pools where there is
    none.
    """
    demands = demands_of(cluster)
    maps = numbered(clashes(cluster, sorted(set(demands.values()))))
    found: dict[int, set[int]] = {}
    for pool, demand in demands.items():
        found.setdefault(maps[demand], set()).add(pool)
    return sorted((part for own in found.values() for part in within_limits(cluster, own)), key=min) or [set()]


def map_clusters(cluster: Cluster) -> list[Cluster]:
    """The cluster of each map that one takes."""
    pools = pools_by_map(cluster)
    return [cluster] if len(pools) == 1 else [cluster.of_pools(own) for own in pools]
