"""What a cluster says of its groups beside what its maps say, as a command works on them."""

from __future__ import annotations

from collections.abc import Mapping, Sequence
from operator import eq

from ..program.answers import Up
from ..program.maps import Pool, group_key
from .affinity import with_affinity
from .told_sets import Verified, told_sets_in, verified
from .view import ClusterView


def verified_view(view: ClusterView, sets: Mapping[str, Up], path: str, is_whole: bool) -> Verified | None:
    """Whether the sets of a cluster are those that a dump of its groups tells; None where it tells none. A fault where
    the dump is of another cluster; `is_whole` says whether these are all pools of the cluster.
    """
    told = None if view.found is None else told_sets_in(path, view.found.cluster, is_whole)
    return None if view.found is None or told is None else verified(view.pools, sets, told, view.found.cluster)


def orders_of(told: Sequence[int | None]) -> list[list[int | None]]:
    """The orders of a set whose first OSD may have come to the front from any of its places."""
    first, rest = list(told[:1]), list(told[1:])
    return [rest[:at] + first + rest[at:] for at in range(len(told))] or [[]]


def in_placed_order(
    view: ClusterView, told: Mapping[str, list[int | None]], ups: Mapping[str, Up]
) -> dict[str, list[int | None]]:
    """The sets that act for the groups of a cluster in an order of before affinities chose primaries, each of which is
    told at the front of a replicated set: of several orders that nearest to where the maps place the group.
    """
    found, by_id = dict(told), {pool["id"]: pool for pool in view.pools if pool["kind"] == "replicated"}
    for group, own in told.items() if view.affinities else ():
        (number, at), places = group_key(group), ups[group].places if group in ups else []
        if number in by_id:
            orders = [order for order in orders_of(own) if led(by_id[number], at, order, view.affinities) == own]
            found[group] = max(orders or [own], key=lambda order: same_places(order, places))
    return found


def same_places(one: Sequence[int | None], other: Sequence[int | None]) -> int:
    """How many places of two sets have the same OSD."""
    return sum(map(eq, one, other))


def led(pool: Pool, number: int, places: list[int | None], affinities: Mapping[int, int]) -> list[int | None]:
    """A set with the primary that affinities choose at its front."""
    return with_affinity(pool, number, Up(0, places, None), affinities).places
