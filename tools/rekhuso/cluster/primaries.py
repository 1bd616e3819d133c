"""Primaries that are named for groups, as an operator or the balancer's read mode does (`pg_upmap_primaries`, since
Ceph 18.2): the OSD that an entry names and the first of the group's set change places (OSDMap.cc `_apply_upmap`). No
map has such entries; the dumps of a cluster do.
"""

from __future__ import annotations

from collections.abc import Mapping, Sequence

from ..files import JsonObject
from ..program.answers import Up
from ..program.maps import Map, Program, entries_of, group_key, groups_of, with_all_up
from ..program.questions import up_sets
from ..words import some
from .cleanup import explicit_of
from .judge import Places, Present, present_of


def named_primaries(dump: Mapping[str, object]) -> dict[str, int]:
    """The OSD that is named for each group."""
    return {entry["pgid"]: entry["primary_osd"] for entry in entries_of(dump, "pg_upmap_primaries")}


def primaries_in(dump: Mapping[str, object], group: str | None = None) -> dict[str, list[JsonObject]]:
    """What of a dump tells which primaries are named and act, for all groups or for one of them."""
    return {
        key: [entry for entry in entries_of(dump, key) if group in (None, entry["pgid"])]
        for key in ("pg_upmap", "pg_upmap_primaries")
    }


def explicit_sets(dump: Mapping[str, object]) -> dict[str, Places]:
    """The explicit set of each group that has one, also one that does nothing."""
    return {entry["pgid"]: explicit_of([entry["pgid"], entry["osds"]]) for entry in entries_of(dump, "pg_upmap")}


def idle_words(osd: int, places: Places, explicit: Places | None, present: Present) -> str | None:
    """Why an entry that names an OSD does nothing to a mapped set; None where that OSD comes first by it, or is the
    first without it. None of a group's exceptions acts where its explicit set has an OSD that is out.
    """
    out = next((other for other in explicit or [] if present.is_out(other)), None)
    if out is not None:
        return f"osd.{out} of its explicit set is out"
    if osd not in places:
        return f"osd.{osd} does not stand in the set"
    return f"osd.{osd} is out" if present.is_out(osd) else None


def with_first(places: Places, osd: int) -> list[int | None]:
    """A set in which an OSD of it and the first have changed places."""
    found, at = list(places), list(places).index(osd)
    found[0], found[at] = found[at], found[0]
    return found


class NamedPrimaries:
    """The primaries that are named for groups of a cluster: the OSD of each entry; of the groups that are there the
    mapped sets; and why an entry does nothing, where it does nothing.
    """

    def __init__(self, dump: Mapping[str, object], maps: Sequence[Map], program: Program) -> None:
        """Asks the program for the mapped sets."""
        self.osds, explicit = named_primaries(dump), explicit_sets(dump)
        self.up = {osd["id"] for value in maps for osd in value["osds"] if osd["up"]}
        self.erasure = {pool["id"] for value in maps for pool in value["pools"] if pool["kind"] == "erasure"}
        self.mapped: dict[str, Places] = {}
        self.idle: dict[str, str] = {}
        for value in maps if self.osds else []:
            groups, present = [group for group in groups_of(value) if group in self.osds], present_of(value)
            for group, up in (up_sets(program, with_all_up(value), groups) if groups else {}).items():
                self.mapped[group] = up.places
                why = idle_words(self.osds[group], up.places, explicit.get(group), present)
                self.idle.update({group: why} if why else {})

    def led(self, group: str) -> list[int | None]:
        """The up set of a group whose entry acts: its OSD comes first, and only then OSDs that are down leave."""
        found = [osd if osd in self.up else None for osd in with_first(self.mapped[group], self.osds[group])]
        return found if group_key(group)[0] in self.erasure else [osd for osd in found if osd is not None]

    def applied(self, ups: Mapping[str, Up]) -> dict[str, Up]:
        """Up sets with these primaries, before affinities choose."""
        found = dict(ups)
        for group in self.mapped.keys() - self.idle.keys():
            places = self.led(group)
            primary = next((osd for osd in places if osd is not None), None)
            found[group] = found[group]._replace(places=places, primary=primary)
        return found

    def rested(self, later: NamedPrimaries) -> list[str]:
        """The groups whose entries do something and do nothing later; those of pools that go then aside."""
        return sorted((self.mapped.keys() - self.idle.keys()) & later.idle.keys(), key=group_key)


def rested_words(groups: list[str]) -> str:
    """That the entries of some groups do nothing any more."""
    count = (
        "1 primary named by pg_upmap_primaries does"
        if len(groups) == 1
        else f"{len(groups)} primaries named by pg_upmap_primaries do"
    )
    return f"{count} nothing then: {some(groups)}"


def other_primaries(old: Mapping[str, int], new: Mapping[str, int]) -> list[str]:
    """That some groups have other primaries named for them, in a line; none where none has."""
    groups = [group for group in {**old, **new} if old.get(group) != new.get(group)]
    count = "1 group has" if len(groups) == 1 else f"{len(groups)} groups have"
    found = sorted(groups, key=group_key)
    return [f"{count} another entry in pg_upmap_primaries, or none: {some(found)}"] if groups else []
