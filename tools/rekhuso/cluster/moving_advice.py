"""How much of a cluster's data advised commands move: the places of groups that come to other OSDs, by the program over
the map before and the map after, where it can hold both.
"""

from __future__ import annotations

from typing import Any

from ..faults import Fault
from ..program.answers import Up
from ..program.maps import Program, altered
from ..words import counted, share_words
from .aftermath import cleaned_at, with_exceptions
from .cluster import Cluster
from .conversion import map_of, monitor_of
from .difference import moved_parts
from .entry_forms import KINDS_BY_TYPE
from .map_parts import map_clusters
from .moving import other_sets
from .reasons import reasons

# The key of a compat weight set.
COMPAT = "-1"


def with_sets(cluster: Cluster, sets: dict[str, Any]) -> Cluster:
    """A cluster with other weight sets."""
    return Cluster(cluster.osd_dump, altered(cluster.crush, choose_args=sets), cluster.torn, cluster.gone)


def ups_of(cluster: Cluster, program: Program) -> dict[str, Up]:
    """The up set of each group of a cluster that comes in."""
    found: dict[str, Up] = {}
    for value in map(map_of, map_clusters(cluster)):
        with monitor_of(value, program) as monitor:
            found.update(monitor.pool_ups(value["pools"]))
    return found


def moved_places(old: Cluster, new: Cluster, program: Program) -> tuple[int, int] | None:
    """How many places of how many come to other OSDs where one cluster becomes the other, whose exceptions a monitor
    then looks at; None where one of the two does not come in, or no program is found.
    """
    if any(reasons(cluster, True, False) for cluster in (old, new)):
        return None
    try:
        kept = cleaned_at(new, program)[0].kept
        before, after = ups_of(old, program), ups_of(with_exceptions(new, kept), program)
    except Fault:
        return None
    erasure = {pool["pool"] for pool in old.pools if KINDS_BY_TYPE[pool["type"]] == "erasure"}
    return moved_parts(other_sets(before, after), erasure)["places"], sum(
        len(up.places) - up.places.count(None) for up in before.values()
    )


def places_words(moved: int, places: int) -> str:
    """How many places move, of how many."""
    return f"{moved} of {counted(places, 'place')} of groups, {share_words(moved / max(places, 1))}"


def compat_words(cluster: Cluster, program: Program) -> str:
    """What taking a compat weight set away moves, behind a word; nothing where that is not known."""
    found = moved_places(cluster, with_sets(cluster, {}), program)
    return "" if found is None else f" ({places_words(*found)})"


def pool_sets_words(cluster: Cluster, program: Program) -> str:
    """What taking the weight sets of pools away moves: each pool by itself, as the weights of a map are those of all
    its pools. Nothing where it is not known of one of them.
    """
    moved = places = 0
    compat = {key: own for key, own in cluster.choose_args.items() if key == COMPAT}
    for key in cluster.choose_args.keys() - compat.keys():
        own = cluster.of_pools({int(key)}) if key.isdecimal() else cluster
        found = moved_places(with_sets(own, {COMPAT: cluster.choose_args[key]}), with_sets(own, compat), program)
        if found is None:
            return ""
        moved, places = moved + found[0], places + found[1]
    return f", which moves data: {places_words(moved, places)} of these pools"


def import_moves(cluster: Cluster, code: str, program: Program) -> str:
    """What the advice about a reason moves, behind it; nothing where it is not known, or moves nothing."""
    return pool_sets_words(cluster, program) if code == "weight-sets-of-pools" else ""
