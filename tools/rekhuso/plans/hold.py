"""What holds the groups of a cluster behind a change: the exceptions as Ceph's commands, and what they leave.

The program is asked for the set of each group behind the change and under these exceptions, and nothing is put out
where one is not what is told.
"""

from __future__ import annotations

from collections.abc import Iterable, Mapping
from dataclasses import dataclass

from ..cluster.aftermath import Command, after_command, aftermath, cleaned_at, raw_sets, with_exceptions
from ..cluster.cluster import Cluster
from ..cluster.conversion import map_of, monitor_of
from ..cluster.difference import exception_commands
from ..cluster.entry_forms import exceptions_in, pool_of
from ..cluster.judge import Places
from ..cluster.map_parts import map_clusters
from ..cluster.moving import coming, has_moved, split_group
from ..cluster.names import set_words
from ..cluster.pools_beside import PoolsBeside, beside
from ..cluster.reasons import reasons
from ..cluster.releases import least_client
from ..cluster.unrest import Unrest, losing, unrest_of
from ..faults import Misjudged
from ..program.map_forms import EXCEPTIONS
from ..program.maps import Exceptions, Map, Program, entries_of, exceptions_where, group_key, groups_in, with_all_up
from ..values import SLOTS
from ..words import counted
from .group_filter import ALL_GROUPS, GroupFilter
from .holding import Held, Holder, NOT_CHOSEN, Way, exceptions_of
from .json_forms import HoldParts
from .printed import Asked, Printed


@dataclass(frozen=True, **SLOTS)
class Sides:
    """What stands on both sides of a change: the set that each group had; how many groups each pool had; the cluster
    behind the change, with the exceptions that it has before anything is held; the groups whose exceptions the monitor
    takes away on the way; the cluster before the change, where it is known; and what it is between its commands.
    """

    has: Mapping[str, list[int | None]]
    counts: Mapping[int, int]
    new: Cluster
    lost: frozenset[str]
    old: Cluster | None
    between: tuple[Cluster, ...] = ()

    def beside(self) -> PoolsBeside:
        """The pools that are left out, with what may move of them by the change."""
        if self.old is None:
            return beside(self.new, (), True)
        return beside(self.old, [*self.between, self.new])


@dataclass(frozen=True, **SLOTS)
class Hold:
    """What holds groups: the maps behind the change, and of which groups exceptions are to stay there; the release that
    clients must have, if the dump tells it; each group that was there, the set that it would have by the change alone,
    the commands, those that take them back, and the pools that are not at rest.
    """

    epoch: int
    maps: list[Map]
    asked: Asked
    client: str | None
    groups: list[Held]
    would: Mapping[str, Places]
    commands: list[str]
    undo: list[str]
    unrest: Mapping[int, Unrest]

    def printed(self, program: Program) -> Printed:
        """By what the commands are judged before they are put out."""
        return Printed(self.maps, program, {own.group: own.now for own in self.groups}, None, frozenset(), self.asked)

    def moving(self) -> list[Held]:
        """The groups that would move by the change alone."""
        return [own for own in self.groups if has_moved(own.was, self.would[own.group], own.is_erasure)]

    @property
    def is_idle(self) -> bool:
        """Whether groups would move, and none of them is held."""
        return bool(self.moving()) and not any(own.is_held for own in self.moving())

    @property
    def is_beside(self) -> bool:
        """Whether none of the groups that would move is chosen."""
        return all(own.why is NOT_CHOSEN for own in self.moving())

    def left(self) -> list[Held]:
        """The groups that cannot be held, or only in part."""
        return [own for own in self.groups if not own.is_held]

    def losing(self) -> list[str]:
        """The groups that are held and lose their exceptions again, as their pools shrink."""
        return losing(self.unrest, [own.group for own in self.groups if own.way.pairs or own.way.explicit is not None])

    def told(self) -> HoldParts:
        """What is told of it as JSON, its commands aside."""
        moving, filled = self.moving(), [own for own in self.groups if own.filled()]
        return {
            "groups": len(moving),
            "places": sum(len(coming(own.was, self.would[own.group], own.is_erasure)) for own in moving),
            "held": sum(own.is_held for own in moving),
            "left": [
                {
                    "group": own.group,
                    "was": own.was,
                    "now": own.now,
                    "places": len(own.lost()),
                    "code": own.why.code if own.why else None,
                    "step": own.why.step if own.why else "",
                    "why": own.why.why if own.why else "",
                }
                for own in self.left()
            ],
            "filled": {"groups": len(filled), "places": sum(len(own.filled()) for own in filled)},
            "other_primary": [own.group for own in self.groups if own.has_other_primary()],
            "losing": self.losing(),
            "unrest": [own.parts() for own in self.unrest.values()],
            "explicit": [own.group for own in self.groups if own.is_held and own.way.explicit is not None],
        }


def mapped_sets(cluster: Cluster, program: Program) -> dict[str, list[int | None]]:
    """What each group of a cluster has, as if all OSDs were up, by the program."""
    found: dict[str, list[int | None]] = {}
    for part in map_clusters(cluster):
        value = with_all_up(map_of(part))
        with monitor_of(value, program) as monitor:
            found.update(monitor.pool_sets(value["pools"]))
    return found


def counts_in(cluster: Cluster) -> dict[int, int]:
    """How many groups each pool of a cluster has."""
    return dict(cluster.sizes)


def sides_of_change(cluster: Cluster, steps: list[Command], program: Program) -> Sides:
    """Both sides of a change that commands make. A fault where the cluster then stays out."""
    new, known, between = cluster, set(reasons(cluster, True, False)), list[Cluster]()
    for step in steps:
        new = after_command(new, step, known)
        between.append(new)
    course = aftermath(cluster, steps, program) if len(steps) > 1 else None
    lost = frozenset() if course is None else frozenset(course.gone.keys() | set(course.fewer))
    return Sides(mapped_sets(cluster, program), counts_in(cluster), new, lost, cluster, tuple(between))


def check_held(new: Cluster, held: Iterable[Held], goal: Exceptions, program: Program) -> None:
    """Asks the program for the set of each group behind the change and under its exceptions. A fault where one is
    another than what is told.
    """
    sets = mapped_sets(with_exceptions(new, goal), program)
    unlike = [own for own in held if sets[own.group] != own.now]
    if unlike:
        first = unlike[0]
        raise Misjudged(
            f"{counted(len(unlike), 'group')} would not have what is told, the first {first.group}: "
            f"{set_words(sets[first.group])} and not {set_words(first.now)}: a defect of the tools; nothing is put out"
        )


def of_groups(exceptions: Exceptions, groups: Iterable[str]) -> Exceptions:
    """The exceptions of some groups."""
    return exceptions_where(exceptions, set(groups).__contains__)


def kept_apart(now: Exceptions, goal: Exceptions, lost: frozenset[str]) -> Exceptions:
    """Exceptions without those that the monitor takes away on the way to a change and that are to be given again."""

    tables: dict[str, dict[str, object]] = {key: dict(entries_of(goal, key)) for key in EXCEPTIONS}

    def stays(key: str, group: str, own: object) -> bool:
        """Whether an exception stays, or becomes another."""
        return group not in lost or group not in tables[key] or tables[key][group] != own

    explicit, items = entries_of(now, "pg_upmap"), entries_of(now, "pg_upmap_items")
    return {
        "pg_upmap": [entry for entry in explicit if stays("pg_upmap", *entry)],
        "pg_upmap_items": [entry for entry in items if stays("pg_upmap_items", *entry)],
    }


def ways_in(kept: Exceptions, groups: Iterable[str]) -> dict[str, Way]:
    """The exceptions of some groups, each by itself."""
    explicit, items = dict(entries_of(kept, "pg_upmap")), dict(entries_of(kept, "pg_upmap_items"))
    return {group: Way(items.get(group, []), explicit.get(group)) for group in groups}


def hold_of(sides: Sides, program: Program, chosen: GroupFilter = ALL_GROUPS) -> Hold:
    """How the groups of a cluster, or those that are chosen, are held behind a change. A fault where the program does
    not say so.
    """
    new = sides.new
    groups = [group for pool in new.pools for group in groups_in(pool_of(pool))]
    there = [group for group in groups if group_key(group)[0] in sides.counts]
    maps = [map_of(part) for part in map_clusters(new)]
    raw = raw_sets(maps, set(groups), program)
    kept = cleaned_at(new, program, raw)[0].kept
    holder, found, ways = Holder(new, raw), [], ways_in(kept, there)
    for group in sorted(there, key=group_key):
        source = group if group in sides.has else split_group(group, sides.counts[group_key(group)[0]])
        was, is_chosen = list(sides.has[source]), chosen.lets(group, sides.has[source])
        found.append(holder.hold(group, was) if is_chosen else holder.passed_over(group, was, ways[group]))
    goal, now = exceptions_of(found), of_groups(exceptions_in(new.osd_dump), there)
    check_held(new, found, goal, program)
    would = mapped_sets(with_exceptions(new, kept), program)
    explicit, items = new.exceptions
    undo = exception_commands(goal, of_groups({"pg_upmap": explicit, "pg_upmap_items": items}, there))
    lines = exception_commands(kept_apart(now, goal, sides.lost), goal)
    asked = Asked.NONE if new.has_weight_set else Asked.ALL
    return Hold(new.epoch, maps, asked, least_client(new.osd_dump), found, would, lines, undo, unrest_of(new))


def hold_of_change(cluster: Cluster, steps: list[Command], program: Program) -> Hold:
    """How the groups of a cluster are held behind a change that commands make."""
    return hold_of(sides_of_change(cluster, steps, program), program)
