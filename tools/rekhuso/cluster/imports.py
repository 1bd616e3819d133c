"""Clusters of two dumps with the maps that they take, or all that keeps them out."""

from __future__ import annotations

from collections.abc import Iterable
from dataclasses import dataclass

from ..faults import Fault
from ..program.map_forms import PLAIN
from ..program.maps import Map
from ..running import tell
from ..values import SLOTS
from ..words import listed
from .advice import Advised, advised
from .cluster import Cluster
from .conversion import map_of
from .dumps import Misfit, chosen_cluster, first_reasons
from .map_parts import map_clusters
from .names import with_pool_names
from .reasons import reasons
from .reasons.buckets import root_reasons
from .reasons.counts import count_reasons, pools_reason, total_reason
from .reasons.kinds import Against
from .reasons.matches import unmatched
from .reasons.rules import size_reasons
from .sources import DumpFiles

# The longest list of pools in the name of a file, and on the way to a map.
LONGEST = 200


@dataclass(frozen=True, **SLOTS)
class ImportedCluster:
    """A cluster of two dumps, the cluster of each map that it takes, and these maps, which the program has not seen
    yet.
    """

    cluster: Cluster
    parts: list[Cluster]
    maps: list[Map]


def pool_ids(part: Cluster) -> str:
    """The pools of a map, by their ids."""
    return ",".join(str(pool["pool"]) for pool in part.pools)


def map_file(part: Cluster) -> str:
    """The name of the file of a map: all its pools by their ids, or where these are too many the first and how many
    more.
    """
    found = pool_ids(part)
    if len(found) > LONGEST:
        found = f"{part.pools[0]['pool']}-and-{len(part.pools) - 1}-more"
    return f"pools-{found}.json"


def several_words(parts: list[Cluster]) -> str:
    """How a cluster comes in that takes several maps."""
    pools, all_words = list(map(pool_ids, parts)), f"it takes {len(parts)} maps: --to FOLDER writes all"
    if max(map(len, pools)) > LONGEST:
        return f"{all_words}, which have {listed([str(len(part.pools)) for part in parts])} pools"
    return f"{all_words}, {listed([f'--pools {own}' for own in pools])} one each"


def plain_reasons(cluster: Cluster) -> list[Advised]:
    """What keeps those maps of a cluster out that have no straw2 bucket, where others have one: such a map has the
    limits of plain ones, by which the program reads it. Each with what is done about it.
    """
    kinds = {cluster.buckets[number]["alg"] for number in cluster.kept}
    parts = map_clusters(cluster) if "straw2" in kinds and len(kinds) > 1 else []
    told = {pool_ids(part): count_reasons(part) if part.limits == PLAIN else [] for part in parts}
    free = ",".join(pools for pools, found in told.items() if not found)
    return [
        Advised(own.code, f"the map of the pools {pools} has no straw2 bucket: {own.why}", own.done)
        for pools, found in told.items()
        for own in advised(found, free)
    ]


def free_pools(cluster: Cluster, faults: list[Misfit], is_unmatched: bool) -> str:
    """The pools of a cluster that stays out that come in without the others, by their ids; none where these are all
    that it has, or too many for one another.
    """

    def against_these(pools: Iterable[int]) -> set[Against]:
        """What keeps some pools out without the others."""
        part = cluster.of_pools(set(pools))
        found = {fault.reason for fault in faults if fault.concerns(part, True)}
        return found | set(reasons(part, is_unmatched, False))

    def free_among(pools: list[int]) -> list[int]:
        """Those of some pools that come in, by halves of them."""
        if not against_these(pools):
            return pools
        half = len(pools) // 2
        return free_among(pools[:half]) + free_among(pools[half:]) if half else []

    of_rule: dict[int, list[int]] = {}
    for pool in cluster.pools:
        of_rule.setdefault(pool["crush_rule"], []).append(pool["pool"])
    found: list[int] = []
    for first, *more in of_rule.values():
        # What keeps out the one and the other is of their rule, and so of all of its pools.
        is_barred = more and against_these([first]) & against_these(more[:1])
        found += [] if is_barred else free_among([first, *more])
    is_part = 0 < len(found) < len(cluster.pools)
    return ",".join(map(str, sorted(found))) if is_part and not against_these(found) else ""


def with_advice(cluster: Cluster, faults: list[Misfit], found: list[Against], files: DumpFiles) -> list[Advised]:
    """Each reason with what is done about it, and what that moves, which few clusters need."""
    if not found:
        return plain_reasons(cluster)
    from .moving_advice import import_moves

    told = [import_moves(cluster, own.code, files.program) for own in found]
    return advised(found, free_pools(cluster, faults, files.is_unmatched), told) + plain_reasons(cluster)


def against(cluster: Cluster, faults: list[Misfit], files: DumpFiles, is_one: bool) -> list[str]:
    """All that is told against a cluster; where one map is asked for, what it takes several for too."""
    found = first_reasons(faults) + reasons(cluster, files.is_unmatched, False)
    several = root_reasons(cluster, True) + size_reasons(cluster)
    several += [] if found else pools_reason(cluster) + total_reason(cluster)
    apart = [own.line for own in several if own not in found] if is_one else []
    if cluster.is_stock:
        lines = [own.line() for own in with_advice(cluster, faults, found, files)]
    else:
        lines = [own.line for own in found]
    if apart:
        apart[-1] += f"; {several_words(map_clusters(cluster))}"
    return lines + apart


def names_of_pools(cluster: Cluster) -> dict[int, str]:
    """The names of pools by their numbers."""
    return {pool["pool"]: pool["pool_name"] for pool in cluster.pools}


def imported(files: DumpFiles, is_one: bool = False) -> ImportedCluster:
    """The cluster of two dumps and its maps, or its one map; a fault that says all that keeps it out. What only one
    of the dumps has is no fault where it is to be taken so, and is told on standard error.
    """
    cluster, faults = chosen_cluster(files)
    found = against(cluster, faults, files, is_one)
    if found:
        names = names_of_pools(cluster)
        raise Fault(*(with_pool_names(line, names) for line in found))
    for own in unmatched(cluster):
        tell(own.told())
    parts = map_clusters(cluster)
    return ImportedCluster(cluster, parts, [map_of(part) for part in parts])
