"""The way from held groups to what the rules alone give, or to a plan, in the order of plans: each group moves once.

The program is asked for the sets before and at the end, and nothing is put out where a group would end elsewhere.
"""

from __future__ import annotations

from collections import Counter
from collections.abc import Container, Iterable, Mapping
from contextlib import ExitStack
from dataclasses import dataclass
from typing import Literal

from ..cluster.aftermath import cleaned_at, with_exceptions
from ..cluster.cluster import Cluster
from ..cluster.difference import exception_commands
from ..cluster.entry_forms import exceptions_in, pool_of
from ..cluster.moving import erasure_pools, leaving
from ..cluster.names import set_words
from ..cluster.pool_data import Data
from ..cluster.unrest import Unrest, unrest_of
from ..cluster.view import ClusterView, view_of_cluster
from ..faults import Misjudged
from ..program.answers import Up
from ..program.maps import Entry, Exceptions, Pool, Program, entries_of, excepted_groups, group_key, with_all_up
from ..values import SLOTS
from ..words import counted
from .busy import PartSize
from .byte_spread import ByteFill, byte_shares, groups_by_osd, measure_between, places_by_group
from .group_filter import ALL_GROUPS, GroupFilter
from .json_forms import PeakParts
from .plan import DEFAULT_WISH, opened, planned
from .printed import Asked, Printed
from .question import sets_of_maps
from .step_order import StepOrder, parts_in_order
from .steps import PlanStep, by_group


@dataclass(frozen=True, **SLOTS)
class Release:
    """How held groups are let go: the epoch, the pools, the groups that stay held as they would get fewer places, the
    steps in their parts, how many groups the fullest OSD has before all of them, while each of them moves, and at the
    end; by what the commands are judged, in parts of so many; the pools that are left alone; and how full OSDs are by
    bytes, where it is known what pools hold.
    """

    epoch: int
    pools: list[Pool]
    stay: list[str]
    parts: list[list[PlanStep]]
    peaks: list[PeakParts]
    before: int
    after: int
    printed: Printed
    lengths: list[int]
    alone: Mapping[int, Unrest]
    fill: ByteFill | None

    @property
    def steps(self) -> list[PlanStep]:
        """All steps in their order."""
        return [step for part in self.parts for step in part]


@dataclass(frozen=True, **SLOTS)
class Goal:
    """To where held groups are let go: to what the rules give beside exceptions that are kept, or on to the plan for
    that. Then pools that are not at rest are left alone, unless they are planned nonetheless. And which groups are let
    go, where these are not all, and what the pools hold, where that is known.
    """

    kept: Exceptions
    is_planned: bool
    is_anyway: bool
    chosen: GroupFilter = ALL_GROUPS
    data: Data | None = None

    def alone(self, cluster: Cluster) -> dict[int, Unrest]:
        """The pools of a cluster that are left alone."""
        return unrest_of(cluster) if self.is_planned and not self.is_anyway else {}


def exceptions_after(now: Exceptions, lines: Iterable[str]) -> Exceptions:
    """Exceptions once commands are given."""
    explicit, items = dict(entries_of(now, "pg_upmap")), dict(entries_of(now, "pg_upmap_items"))
    for line in lines:
        word, group, *named = line.split(" ")[2:]
        osds, table = list(map(int, named)), items if word.endswith("-items") else explicit
        if word.startswith("rm-"):
            table.pop(group, None)
        else:
            table[group] = [list(pair) for pair in zip(osds[::2], osds[1::2])] if table is items else osds
    return {
        "pg_upmap": [[group, explicit[group]] for group in sorted(explicit, key=group_key)],
        "pg_upmap_items": [[group, items[group]] for group in sorted(items, key=group_key)],
    }


def planned_end(
    view: ClusterView, plain: Exceptions, program: Program, is_anyway: bool
) -> tuple[Exceptions, dict[str, list[int | None]]]:
    """The exceptions to which the plan of a cluster leads, and the sets of the groups that it moves."""
    with ExitStack() as stack:
        outcome = planned(opened(stack, view, program, is_anyway), DEFAULT_WISH)
    lines = [line for step in outcome.steps for line in step.commands]
    return exceptions_after(plain, lines), {step.group: step.now for step in outcome.steps}


def check_end(ups: Mapping[str, Up], wanted: Mapping[str, list[int | None]]) -> None:
    """A fault where a group would end elsewhere than the plan says, by the program."""
    unlike = [group for group, places in wanted.items() if ups[group].places != places]
    if unlike:
        first = unlike[0]
        raise Misjudged(
            f"{counted(len(unlike), 'group')} would end elsewhere, the first {first}: "
            f"{set_words(ups[first].places)} and "
            f"not {set_words(wanted[first])}: a defect of the tools; nothing is put out"
        )


def counts_of(ups: Mapping[str, Up]) -> Counter[int]:
    """How many groups each OSD has."""
    return groups_by_osd(places_by_group(ups))


def most_of(counts: Counter[int]) -> int:
    """How many groups the fullest OSD has."""
    return max(counts.values(), default=0)


def peaks_of(has: Counter[int], parts: list[list[PlanStep]]) -> list[PeakParts]:
    """How full the fullest OSD gets to which places come, part by part, where all that comes in a part counts and
    nothing that goes.
    """
    found: list[PeakParts] = []
    for part in parts:
        high = Counter(has)
        for step in part:
            high.update(step.places_come())
            has.update(step.places_come())
        for step in part:
            has.subtract(step.places_leave())
        osd = max({osd for step in part for osd in step.places_come()}, key=lambda osd: (high[osd], -osd), default=None)
        found.append({"osd": osd, "groups": 0 if osd is None else high[osd]})
    return found


def shorter_groups(cluster: Cluster, plain: Cluster, program: Program) -> list[str]:
    """The groups that have fewer places without their exceptions, whichever OSDs are down: where a rule finds too few,
    a held set is whole.
    """
    was, to = (
        sets_of_maps([with_all_up(value) for value in view_of_cluster(own).maps], program) for own in (cluster, plain)
    )
    counts = {group: len(up.places) - up.places.count(None) for group, up in was.items()}
    return [group for group, up in to.items() if len(up.places) - up.places.count(None) < counts.get(group, 0)]


def with_those_of(then: Exceptions, now: Exceptions, groups: Container[str]) -> Exceptions:
    """Exceptions, but those of some groups as they are now."""

    def entries(key: Literal["pg_upmap", "pg_upmap_items"]) -> list[Entry]:
        """The entries of one kind."""
        own = [entry for entry in then.get(key, []) if entry[0] not in groups]
        own += [entry for entry in now.get(key, []) if entry[0] in groups]
        return sorted(own, key=lambda entry: group_key(entry[0]))

    return {"pg_upmap": entries("pg_upmap"), "pg_upmap_items": entries("pg_upmap_items")}


def held_on(now: Exceptions, stay: list[str], alone: Container[int]) -> set[str]:
    """The groups that keep the exceptions that they have: those that stay held, and those of pools left alone."""
    return {*stay, *(group for group in excepted_groups(now) if group_key(group)[0] in alone)}


def passed_over(chosen: GroupFilter, was: Mapping[str, Up], to: Mapping[str, Up]) -> set[str]:
    """The groups that are not let go."""
    return {
        group
        for group, up in was.items()
        if not chosen.lets(group, up.places) or not chosen.lets_leave(leaving(up.places, to[group].places, False))
    }


def release_of(cluster: Cluster, goal: Goal, size: PartSize, program: Program) -> Release:
    """How the held groups of a cluster are let go. Groups that would get fewer places stay held. A fault where the
    program says that a group would end elsewhere.
    """
    now, plain, alone = exceptions_in(cluster.osd_dump), with_exceptions(cluster, goal.kept), goal.alone(cluster)
    then = cleaned_at(plain, program)[0].kept
    stay = shorter_groups(cluster, with_exceptions(cluster, then), program)
    then = with_those_of(then, now, held_on(now, stay, alone)) if stay or alone else then
    plain, wanted = with_exceptions(cluster, then), dict[str, list["int | None"]]()
    if goal.is_planned:
        then, wanted = planned_end(view_of_cluster(plain), then, program, goal.is_anyway)
    before, end = view_of_cluster(cluster), view_of_cluster(with_exceptions(cluster, then))
    was, to = sets_of_maps(before.maps, program), sets_of_maps(end.maps, program)
    check_end(to, wanted)
    if goal.chosen.is_any:
        then = with_those_of(then, now, passed_over(goal.chosen, was, to))
        end = view_of_cluster(with_exceptions(cluster, then))
        to = sets_of_maps(end.maps, program)
    pools = [pool_of(pool) for pool in cluster.pools]
    explicit, items = cluster.exceptions
    back, erasure = by_group(exception_commands(then, {"pg_upmap": explicit, "pg_upmap_items": items})), erasure_pools(
        pools
    )
    steps = [
        PlanStep(group, lines, back.get(group, []), was[group].places, to[group].places, group_key(group)[0] in erasure)
        for group, lines in by_group(exception_commands(now, then)).items()
        if group in was
    ]
    shares, ends = end.shares(to), (places_by_group(was), places_by_group(to))
    own = None if goal.data is None else byte_shares(pools, goal.data, ends[1], shares.reach_by)
    measure = measure_between(own, ends, shares.reached)
    order = StepOrder(measure.spread, measure.sizes, steps)
    order.limit(size.busy)
    parts = parts_in_order(order, size.commands, False)
    lengths = [sum(len(step.commands) for step in part) for part in parts]
    if size.is_whole and parts:
        parts = [[step for part in parts for step in part]]
    has, after, down = counts_of(was), counts_of(to), frozenset(osd for osd, of in cluster.osds.items() if not of["up"])
    asked = Asked.NONE if cluster.has_weight_set else Asked.NAMED
    printed = Printed(before.maps, program, {step.group: step.now for step in steps}, measure, down, asked)
    told = peaks_of(Counter(has), parts), most_of(has), most_of(after), printed, lengths, alone
    return Release(cluster.epoch, pools, stay, parts, *told, None if own is None else own.fill(*ends, parts))
