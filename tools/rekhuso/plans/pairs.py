"""The fewest pairs that lead each group to the set that it has now."""

from __future__ import annotations

from collections.abc import Sequence
from typing import cast

from ..faults import Fault
from ..program.answers import Up
from ..program.maps import Map, altered, entries_of, exceptions_where, group_key
from ..program.session import Session
from ..words import counted


def ordered_pairs(base: Sequence[int | None], wanted: Sequence[int | None]) -> list[list[int]] | None:
    """One pair for each place that differs, in an order in which each leads to an OSD that is not in the set, or has
    left it by then. None where there is none: a place that differs is empty in one of them, OSDs change places in a
    ring, or one stands in a set twice.
    """
    places, found = list(base), cast("list[list[int]]", [])
    left = [at for at, (was, now) in enumerate(zip(base, wanted)) if was != now]
    if len(base) != len(wanted) or any(base[at] is None or wanted[at] is None for at in left):
        return None
    while left:
        free = (at for at in left if wanted[at] not in places and places.index(places[at]) == at)
        at = next(free, None)
        if at is None:
            return None
        found.append([cast(int, places[at]), cast(int, wanted[at])])
        places[at] = wanted[at]
        left.remove(at)
    return found


def is_same(old: list[list[int]] | None, new: list[list[int]]) -> bool:
    """Whether a group's pairs are others in another order alone, which none of them needs."""
    has_order = bool({pair[0] for pair in new} & {pair[1] for pair in new})
    return old == new or not has_order and sorted(old or []) == sorted(new)


def netted(value: Map, wanted: dict[str, Up], base: dict[str, Up]) -> Map:
    """The map with the fewest pairs, where some groups want these sets and have those by their rule alone."""
    explicit: dict[str, list[int | None]] = dict(entries_of(value, "pg_upmap"))
    items: dict[str, list[list[int]]] = {}
    for group, pairs in value.get("pg_upmap_items", []):
        places = wanted[group].places
        found = ordered_pairs(base[group].places, places)
        if found is not None:
            explicit.pop(group, None)
            items.update({group: pairs if is_same(pairs, found) else found} if found else {})
        elif None not in places and len(set(places)) == len(places):
            explicit[group] = places
        else:
            items[group] = pairs
    return altered(
        value,
        pg_upmap=[[group, explicit[group]] for group in sorted(explicit, key=group_key)],
        pg_upmap_items=[[group, items[group]] for group in sorted(items, key=group_key)],
    )


def settled(session: Session, value: Map) -> Map:
    """A session's map with the fewest pairs, once the program has answered that the set of each group with pairs is
    as it was. All OSDs of the session's map are up afterwards. A fault where a group would move.
    """
    groups = [group for group, _ in value.get("pg_upmap_items", [])]
    if not groups:
        return value
    session.change(up=[osd["id"] for osd in value["osds"] if osd["exists"] and not osd["up"]])
    wanted = session.ups(groups)
    session.change(old_upmap=groups, old_items=groups)
    new = netted(value, wanted, session.ups(groups))
    own = exceptions_where(new, set(groups).__contains__)
    session.change(new_upmap=own["pg_upmap"], new_items=own["pg_upmap_items"])
    after = session.ups(groups)
    unlike = [group for group in groups if wanted[group].places != after[group].places]
    if unlike:
        raise Fault(f"{counted(len(unlike), 'group')} would move, the first {unlike[0]}: nothing is put out")
    return new
