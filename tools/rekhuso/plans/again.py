"""What a plan has left, as a second plan over it would find it: the same maps and sessions once its commands are given.

A plan goes on until a plan over what it has made is empty. What all of them have made is told as one.
"""

from __future__ import annotations

from collections.abc import Mapping
from dataclasses import replace
from typing import Any

from ..cluster.disks import Disk
from ..cluster.followed import KEYS, exceptions_between
from ..cluster.pool_data import Data
from ..program.answers import Up
from ..program.maps import Change, Exceptions, Map, altered, entries_of, group_key
from .rounds import Live
from .step_order import has_after
from .steps import PlanStep, change_by, in_old_order, steps_of


def excepted(value: Exceptions, change: Change) -> Exceptions:
    """The exceptions of a map once a change is made."""
    found: dict[str, Any] = {}
    for word, key in KEYS:
        own = {group: entry for group, entry in entries_of(value, key) if group not in change[f"old_{word}"]}
        own.update(dict(change[f"new_{word}"]))
        found[key] = [[group, own[group]] for group in sorted(own, key=group_key)]
    return altered(value, **found)


def bring(live: Live, value: Map) -> None:
    """Brings a session to a map that has other exceptions, or other OSDs that are down."""
    now = live.session.dump()
    change = exceptions_between(now, value)
    is_up = {osd["id"]: osd["up"] for osd in now["osds"]}
    change["down"] = [osd["id"] for osd in value["osds"] if is_up[osd["id"]] and not osd["up"]]
    live.session.change(None, **change)


def up_at(places: list[int | None]) -> Up:
    """An up set of these places, at an epoch that nobody asks for."""
    return Up(0, places, next((osd for osd in places if osd is not None), None))


def after(live: Live, steps: list[PlanStep]) -> Live:
    """A map with its session once the commands of those of some steps are given that are for its groups, which have
    the sets then that the program has told of the steps.
    """
    own = [step for step in steps if step.pool in live.pools]
    change = change_by([line for step in own for line in step.commands])
    value = altered(live.value, **excepted(live.value, change))
    bring(live, value)
    moved = [step for step in own if step.was != step.now]
    ups = {**live.before.ups, **{step.group: up_at(step.now) for step in moved}}
    before = live.before.after(value, ups, {step.pool for step in moved})
    return live.after(value, excepted(live.kept, change), before)


def moved_data(data: Data, sizes: Mapping[str, float] | None, steps: list[PlanStep]) -> Data:
    """What a cluster holds once some steps are taken: its disks, where they are known, have other bytes in use."""
    if not data.disks:
        return data
    has = has_after({osd: disk.used for osd, disk in data.disks.items()}, sizes, steps)
    disks = {
        osd: Disk(disk.size, round(has[osd]), disk.free + disk.used - round(has[osd]))
        for osd, disk in data.disks.items()
    }
    return replace(data, disks=disks)


def steps_between(first: Live, last: Live) -> list[PlanStep]:
    """The steps from a map to what it is after several plans."""
    new = in_old_order(first.value, last.value)
    return steps_of(first.value, first.kept, new, first.before.ups, last.before.ups)
