"""Reasons by numbers: what is outside its range, stands twice, or is too many for a map."""

from __future__ import annotations

from collections import Counter
from typing import Iterable

from ..cluster import Cluster
from ..dump_types import DumpPool
from .kinds import BARE, Against, bare

# How many things of one kind are told one by one; of more, their number.
FEW = 3


def range_reason(code: str, what: str, number: int, low: int, high: int) -> list[Against]:
    """The reason of a number outside its range, as `the epoch is 0, less than 1`; none inside."""
    if number < low:
        return [Against(code.removesuffix(BARE), f"{what}, less than {low}")]
    return [Against(code, f"{what}, more than {high}")] if number > high else []


def doubles(numbers: Iterable[int]) -> list[int]:
    """The numbers that stand twice or more, ascending."""
    return sorted(number for number, count in Counter(numbers).items() if count > 1)


# How many there are


def buckets_reason(cluster: Cluster) -> list[Against]:
    """More buckets than a map has."""
    code, count = bare(cluster, "buckets"), len(cluster.kept)
    return range_reason(code, f"{count} buckets that pools use", count, 0, cluster.limits.buckets)


def rules_reason(cluster: Cluster) -> list[Against]:
    """More rules than a map has."""
    code, count = bare(cluster, "rules"), len(cluster.rules)
    return range_reason(code, f"{count} rules that pools use", count, 0, cluster.limits.rules)


def pools_reason(cluster: Cluster) -> list[Against]:
    """More pools than a map has."""
    code, count = bare(cluster, "pools"), len(cluster.pools)
    return range_reason(code, f"{count} pools", count, 0, cluster.limits.pools)


def total_reason(cluster: Cluster) -> list[Against]:
    """More groups of all pools than a map has."""
    total = sum(cluster.sizes.values())
    return range_reason("groups", f"its pools have {total} groups together", total, 0, cluster.limits.total)


def groups_reason(cluster: Cluster, pool: DumpPool) -> list[Against]:
    """More groups than a pool has in a map, or none."""
    code, count = bare(cluster, "pool-groups"), pool["pg_num"]
    return range_reason(code, f"pool {pool['pool']} has {count} groups", count, 1, cluster.limits.groups)


def count_reasons(cluster: Cluster) -> list[Against]:
    """More of anything than a map has whose limits depend on its buckets."""
    groups = [own for pool in cluster.pools if pool["pg_num"] > 0 for own in groups_reason(cluster, pool)]
    return buckets_reason(cluster) + rules_reason(cluster) + groups
