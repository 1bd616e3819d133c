"""What each group holds, as `ceph pg dump -f json` tells it."""

from __future__ import annotations

from collections.abc import Iterable, Mapping
from dataclasses import dataclass

from ..faults import Fault
from ..program.maps import Pool, group_key, groups_in
from ..values import SLOTS
from .dump_forms import PG_STATS, misfits
from .group_dumps import pg_dump_in


@dataclass(frozen=True, **SLOTS)
class GroupSizes:
    """Where they were read, and the bytes that are stored in each group."""

    path: str
    of_group: dict[str, int]

    def check(self, pools: Iterable[Pool], is_whole: bool) -> None:
        """A fault for each pool of which groups are missing there, or stand there that it does not have; and, where
        these are all pools of the cluster, for each pool that is not there.
        """
        faults, there = [], set[int]()
        own: dict[int, set[str]] = {}
        for group in self.of_group:
            own.setdefault(group_key(group)[0], set()).add(group)
        for pool in pools:
            there.add(pool["id"])
            wanted, found = set(groups_in(pool)), own.get(pool["id"], set())
            faults += [f"no group {group}" for group in first_of(wanted - found)]
            faults += [f"the cluster has no group {group}" for group in first_of(found - wanted)]
        if is_whole:
            faults += [f"the cluster has no pool {number}" for number in sorted(own.keys() - there)]
        if faults:
            raise Fault(*(f"{self.path}: {fault}" for fault in faults))

    def parts(self, pools: Iterable[Pool]) -> dict[int, list[int]]:
        """What the groups of some pools hold."""
        return {pool["id"]: [self.of_group[group] for group in groups_in(pool)] for pool in pools}

    def data(self, pools: Iterable[Pool], rates: Mapping[int, float]) -> dict[int, int]:
        """The bytes that pools take, by what their groups hold: each copy as many, and of an erasure pool by its rate.
        A fault for each erasure pool whose rate is not known, as no group tells how many parts hold its data.
        """
        found, faults = {}, []
        for pool in pools:
            is_copied = pool["kind"] == "replicated"
            rate = pool["size"] if is_copied else rates.get(pool["id"])
            found[pool["id"]] = round(sum(self.of_group[group] for group in groups_in(pool)) * (rate or pool["size"]))
            if rate is None and found[pool["id"]]:
                faults.append(f"pool {pool['id']} is an erasure pool: what it takes on OSDs --df tells")
        if faults:
            raise Fault(*(f"{self.path}: {fault}" for fault in faults))
        return found


def first_of(groups: set[str]) -> list[str]:
    """The first of some groups, and how many more there are."""
    found = sorted(groups, key=group_key)
    return [found[0] + (f", and {len(found) - 1} more" if len(found) > 1 else "")] if found else []


def group_sizes_in(path: str) -> GroupSizes:
    """What a file with the output of `ceph pg dump -f json` tells. A fault for each place that has another form, for a
    group that stands there twice, and for one that is none.
    """
    value = pg_dump_in(path)
    inside = value.get("pg_map", value)
    stats = inside.get("pg_stats") if isinstance(inside, dict) else None
    if stats is None:
        raise Fault(f"{path}: no pg_stats in it")
    faults = misfits(stats, PG_STATS, "pg_stats")
    if faults:
        raise Fault(*(f"{path}: {fault}" for fault in faults[:10]))
    found: dict[str, int] = {}
    for own in stats:
        group, held = own["pgid"], own["stat_sum"]
        if group in found:
            raise Fault(f"{path}: {group} stands there twice")
        found[group] = max(held["num_bytes"], 0) + max(held.get("num_omap_bytes", 0), 0)
    return GroupSizes(path, found)
