"""Flows between OSDs by the sets before and after a change, groups left short, and the fullest OSDs."""

from __future__ import annotations

from collections.abc import Iterable, Mapping

from ..program.answers import Up
from ..program.maps import group_key
from .json_forms import FullestParts
from .moving import OtherSet, passed_on
from .outage import filled
from .shares import Shares


def flows(moved: Iterable[OtherSet], erasure: set[int]) -> dict[tuple[int, int], int]:
    """How many places go from each OSD to each other, by the groups that have other places (`other_sets`); `erasure`
    has the pools whose places each hold a part of their own.
    """
    found: dict[tuple[int, int], int] = {}
    for group, was, now in moved:
        for pair in passed_on(was, now, group_key(group)[0] in erasure):
            found[pair] = found.get(pair, 0) + 1
    return found


def thin_sets(ups: Mapping[str, Up], most: int) -> dict[str, Up]:
    """The sets with fewer places than so many: of many few, which are looked at more closely."""
    return {group: up for group, up in ups.items() if len(up.places) < most or None in up.places}


def short_in(ups: Mapping[str, Up], least: Mapping[int, int]) -> list[str]:
    """The groups with fewer places than a number that their pool has; pools that have none aside."""
    return [group for group, up in ups.items() if filled(up) < least.get(group_key(group)[0], 0)]


def fewer_in(groups: list[str], before: Mapping[str, Up], ups: Mapping[str, Up], least: Mapping[int, int]) -> list[str]:
    """Those of some groups that had as many places as their pool's number before, or were not there."""
    was = set(short_in({group: before[group] for group in groups if group in before}, least))
    return [group for group in groups if group not in was]


def fullest_by_count(counts: Mapping[int, int]) -> FullestParts:
    """The OSD with the most groups; the first of several."""
    found = max(counts, key=lambda osd: (counts[osd], -osd), default=None)
    return {"osd": found, "groups": 0 if found is None else counts[found], "share": None}


def fullest_by_share(shares: Shares) -> FullestParts:
    """The OSD that has the most groups beside its share; the first of several."""
    wanted, counts = {osd: share for osd, share in shares.wanted.items() if share > 0}, shares.counts
    found = max(wanted, key=lambda osd: (counts.get(osd, 0) / wanted[osd], -osd), default=None)
    if found is None:
        return {"osd": None, "groups": 0, "share": None}
    return {"osd": found, "groups": counts.get(found, 0), "share": round(wanted[found], 2)}
