"""What differs between two maps: as a change where a change can say it, as Ceph's commands, and what moves."""

from __future__ import annotations

from collections.abc import Iterable
from typing import Any

from ..program.map_forms import CRUSH_KEYS, EXCEPTIONS, FIXED, GROWING
from ..program.maps import Change, Entry, Exceptions, Map, altered, entries_of, group_key, osd_gone
from .json_forms import MovedParts
from .moving import OtherSet, coming, has_moved, leaving


def by_key(entries: list[Any], key: Any) -> dict[Any, Any]:
    """The entries of a list by their key."""
    return {entry[key]: entry for entry in entries}


def pool_changes(old: Map, new: Map) -> Change:
    """The pools that go, come and grow. A pool that differs otherwise goes and comes, which no one change can say."""
    before, after = by_key(old["pools"], "id"), by_key(new["pools"], "id")
    grown, other = [], []
    for number in sorted(before.keys() & after.keys()):
        was, now = before[number], after[number]
        numbers: dict[str, int] = {key: now[key] for key in GROWING}
        if was != now and altered(was, **numbers) == now and all(was[key] <= now[key] for key in GROWING):
            grown.append([number, *numbers.values()])
        elif was != now:
            other.append(number)
    return {
        "old_pools": sorted(before.keys() - after.keys()),
        "new_pools": [after[n] for n in sorted(after.keys() - before.keys())],
        "grow_pool": grown,
        "other": other,
    }


def exception_parts(old: Map, new: Map, key: str, gone: list[int]) -> tuple[list[str], list[Entry]]:
    """The groups whose exception goes, pools that go aside, and the exceptions that come or change."""
    before, after = by_key(entries_of(old, key), 0), by_key(entries_of(new, key), 0)
    lost = [group for group in before.keys() - after.keys() if group_key(group)[0] not in gone]
    return sorted(lost, key=group_key), [
        after[group] for group in sorted(after, key=group_key) if before.get(group) != after[group]
    ]


def change_of(old: Map, new: Map) -> tuple[Change, list[str]]:
    """The change that makes the one map of the other, and what no change can say."""
    change: Change = {"base": old["epoch"]}
    pools = pool_changes(old, new)
    unsaid = [f"pool {number} differs in more than its numbers of groups" for number in pools.pop("other")]
    change.update({key: value for key, value in pools.items() if value})
    if any(by_key(entries_of(old, key), "id") != by_key(entries_of(new, key), "id") for key in CRUSH_KEYS):
        change["new_crush"] = {key: new[key] for key in CRUSH_KEYS}
    before, after = by_key(old["osds"], "id"), by_key(new["osds"], "id")
    parts: Change = {"down": [], "up": [], "weight": []}
    for osd in sorted(before.keys() | after.keys()):
        was, now = before.get(osd) or osd_gone(osd), after.get(osd) or osd_gone(osd)
        if was["exists"] != now["exists"]:
            unsaid.append(f"osd.{osd} {'comes' if now['exists'] else 'goes'}")
            continue
        if was["up"] != now["up"]:
            parts["up" if now["up"] else "down"].append(osd)
        if was["weight"] != now["weight"]:
            parts["weight"].append([osd, now["weight"]])
    for table, kind in EXCEPTIONS.items():
        parts[kind.old], parts[kind.new] = exception_parts(old, new, table, change.get("old_pools", []))
    change.update({key: value for key, value in parts.items() if value})
    unsaid += [f"{key} is {old[key]}, then {new[key]}" for key in FIXED if old[key] != new[key]]
    return change, unsaid


def exception_commands(old: Exceptions, new: Exceptions, kept: Exceptions | None = None) -> list[str]:
    """What Ceph is told so that the exceptions of one map become those of the other, group by group; what goes, goes
    first. `kept` is what Ceph has, where the old map has not all of it: an explicit set that did nothing would keep
    pairs that come from acting.
    """
    tables = {key: [dict(entries_of(value, key)) for value in (old, new, kept or old)] for key in EXCEPTIONS}
    groups = {
        group
        for before, after, _ in tables.values()
        for group in before.keys() | after.keys()
        if before.get(group) != after.get(group)
    }
    found = []
    for group in sorted(groups, key=group_key):
        gone, come = [], []
        for key, (_, after, own) in tables.items():
            kind = EXCEPTIONS[key]
            if group in own and group not in after:
                gone.append(f"ceph osd rm-{kind.word} {group}")
            elif group in after and own.get(group) != after[group]:
                osds = after[group] if kind.is_set else [osd for pair in after[group] for osd in pair]
                come.append(f"ceph osd {kind.word} {group} {' '.join(map(str, osds))}")
        found += gone + come
    return found


def moved_parts(moved: Iterable[OtherSet], erasure: set[int]) -> MovedParts:
    """How many groups and places move, and which OSDs take part, by the groups that have other places (`other_sets`);
    `erasure` has the pools whose places each hold a part of their own.
    """
    groups, places = 0, 0
    osds: set[int] = set()
    for group, was, now in moved:
        is_erasure = group_key(group)[0] in erasure
        come = coming(was, now, is_erasure)
        groups += has_moved(was, now, is_erasure)
        places += len(come)
        osds.update(come, leaving(was, now, is_erasure))
    return {"groups": groups, "places": places, "osds": sorted(osds)}
