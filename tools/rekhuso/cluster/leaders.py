"""Who leads the groups of a cluster, now and once other entries name primaries, and what OSDs are to lead."""

from __future__ import annotations

from collections.abc import Iterable, Mapping
from fractions import Fraction

from ..program.answers import Up
from ..program.maps import Pool, Program, altered, entries_of, group_key, groups_in, rule_for, with_all_up
from .affinity import FULL_AFFINITY, all_with_affinity, with_affinity
from .conversion import monitor_of
from .judge import present_of
from .primaries import NamedPrimaries, explicit_sets, idle_words, named_primaries, with_first
from .shares import Shares
from .view import ClusterView

# What serves a group in place of its up set: by that a monitor judges a command that names a primary.
TEMPORARY = "pg_temp", "primary_temp"


def temporary_groups(dump: Mapping[str, object]) -> set[str]:
    """The groups that something temporary serves. Of temporary primaries Ceph's dump is one list in which each group
    stands before its OSD.
    """
    entries = [entry for key in TEMPORARY for entry in entries_of(dump, key)]
    found = [entry.get("pgid") if isinstance(entry, dict) else entry for entry in entries]
    return {group for group in found if isinstance(group, str)}


class Leaders:
    """The groups of some replicated pools of a cluster: their sets with all OSDs up, their up sets as they are, the
    entries that name primaries, and the groups that something temporary serves.
    """

    def __init__(self, view: ClusterView, pools: Iterable[Pool], program: Program) -> None:
        """Asks the program for the sets."""
        self.dump: Mapping[str, object] = {} if view.found is None else view.found.cluster.osd_dump
        self.pools, self.affinities = {pool["id"]: pool for pool in pools}, view.affinities
        self.named, self.explicit = named_primaries(self.dump), explicit_sets(self.dump)
        self.temporary = temporary_groups(self.dump)
        self.up = {osd["id"] for value in view.maps for osd in value["osds"] if osd["up"]}
        self.sets: dict[str, list[int | None]] = {}
        for value in view.maps:
            own = [pool for pool in value["pools"] if pool["id"] in self.pools]
            if own:
                with monitor_of(with_all_up(value), program) as monitor:
                    self.sets.update(monitor.pool_sets(own))
        self.present = {number: present_of(view.map_of(number)) for number in self.pools}
        self.now = {group: self.up_with(group, self.named.get(group)) for group in self.sets}

    def acts(self, group: str, osd: int) -> bool:
        """Whether an entry that names an OSD for a group has that come first, or stay so."""
        present = self.present[group_key(group)[0]]
        return idle_words(osd, self.sets[group], self.explicit.get(group), present) is None

    def up_with(self, group: str, osd: int | None) -> Up:
        """The up set of a group with an entry that names an OSD, or without one."""
        (number, at), places = group_key(group), self.sets[group]
        if osd is not None and self.acts(group, osd):
            places = with_first(places, osd)
        left: list[int | None] = [own for own in places if own in self.up]
        return with_affinity(self.pools[number], at, Up(0, left, left[0] if left else None), self.affinities)

    def plain(self, group: str) -> int | None:
        """Who leads a group without an entry."""
        return self.up_with(group, None).primary

    def may_lead(self, group: str) -> list[int]:
        """The OSDs, but for the leader of now, that lead a group once an entry names them, or none does any more; no
        OSD where a monitor judges by something temporary.
        """
        now, plain = self.now[group], self.plain(group)
        others = [osd for osd in now.places if osd is not None and osd != now.primary]
        if group in self.temporary:
            return []
        return [osd for osd in others if osd == plain or self.up_with(group, osd).primary == osd]

    def shares(self, pool: Pool) -> dict[int, Fraction]:
        """What each OSD is to lead of a pool: a part of each of its groups, by primary affinity."""
        found: dict[int, Fraction] = {}
        for group in groups_in(pool):
            osds = [osd for osd in self.now[group].places if osd is not None]
            parts = [self.affinities.get(osd, FULL_AFFINITY) for osd in osds]
            parts = parts if any(parts) else [1] * len(parts)
            for osd, part in zip(osds, parts):
                found[osd] = found.get(osd, Fraction(0)) + Fraction(part, sum(parts))
        return found


def mixes_classes(view: ClusterView, pool: Pool) -> bool:
    """Whether the rule of a pool takes OSDs of other device classes for some places than for others, as one does that
    has a pool led by fast disks.
    """
    value = view.map_of(pool["id"])
    own, classes = Shares(altered(value, pools=[]), {}), view.names.get("classes", {})
    taken = [own.below(step[1]) for step in rule_for(value, pool)["steps"] if step[0] == "take"]
    return len({frozenset(classes.get(str(osd), "") for osd in osds) for osds in taken}) > 1


def read_again(view: ClusterView, ups: Mapping[str, Up], entries: Mapping[str, int], program: Program) -> dict[str, Up]:
    """Up sets of a cluster, of before entries name primaries, once these entries do, as the dumps would be read."""
    dump: Mapping[str, object] = {} if view.found is None else view.found.cluster.osd_dump
    named = [{"pgid": group, "primary_osd": osd} for group, osd in entries.items()]
    primaries = NamedPrimaries({**dump, "pg_upmap_primaries": named}, view.maps, program)
    return all_with_affinity(view.pools, primaries.applied(ups), view.affinities)
