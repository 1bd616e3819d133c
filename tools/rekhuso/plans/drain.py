"""How OSDs are emptied: their weights become next to nothing, with every group held where it is; then the groups that
lie on them go part by part, each once and straight to where it can stay; and in the end they weigh nothing and are out,
which moves nothing any more.

The program is asked for the sets at each of these, and nothing is put out where a group would be elsewhere than told.
"""

from __future__ import annotations

from collections import Counter
from collections.abc import Callable, Iterable, Mapping, Sequence
from contextlib import ExitStack
from dataclasses import dataclass, replace
from typing import List, Tuple

from ..cluster.aftermath import raw_sets, with_exceptions
from ..cluster.cluster import Cluster
from ..cluster.conversion import map_of
from ..cluster.difference import exception_commands
from ..cluster.evenness import Spread, sums_by_osd
from ..cluster.entry_forms import exceptions_in, pool_of
from ..cluster.judge import Places, Reason
from ..cluster.map_parts import map_clusters
from ..cluster.moving import erasure_pools
from ..cluster.names import set_words
from ..cluster.pool_data import Data
from ..cluster.view import view_of_cluster
from ..faults import Misjudged
from ..program.answers import Up
from ..program.maps import (
    Exceptions,
    Map,
    Pool,
    Program,
    entries_of,
    excepted_groups,
    group_key,
    groups_of,
    with_all_up,
)
from ..values import SLOTS
from .bounds import Measure
from .busy import PartSize
from .byte_spread import ByteFill, byte_shares, measure_between, places_by_group
from .drain_checks import check_each_once, check_round, check_rules, check_short, check_weights
from .drain_stages import Stage, after_all, back_change, back_commands, ending, first_stage, last_stage
from .drain_targets import Chooser, Emptied, lying_on
from .holding import Holder, Way
from .json_forms import PeakParts
from .measures import Measures
from .mend import mended
from .plan import DEFAULT_WISH, opened, planned
from .printed import Asked, Printed
from .printed_commands import commands_in, defect
from .question import sets_of_maps
from .release import counts_of, peaks_of
from .step_order import StepOrder, parts_in_order
from .steps import PlanStep, by_group

# The lines before and behind the commands of a script that makes a change, by the commands of that change.
Around = Callable[[List[str]], Tuple[List[str], List[str]]]
# What an OSD that is emptied counts as having beyond what it has, so that it is the fullest.
FIRST = 1e9


@dataclass(frozen=True, **SLOTS)
class DrainWish:
    """What is asked for: the OSDs that are emptied, whether places keep their device class, whether groups go to where
    a plan has them, how large a part is, and what the pools hold, where that is known.
    """

    osds: list[int]
    is_kept: bool
    is_even: bool
    size: PartSize
    data: Data | None = None


@dataclass(frozen=True, **SLOTS)
class Undo:
    """The way back: the commands that give the OSDs what they had, those on exceptions, and by what these are judged:
    the maps as they are, and with all exceptions that a drain leaves.
    """

    change: list[str]
    commands: list[str]
    printed: Printed
    after: list[Map]

    def check(self, script: str, around: Around) -> None:
        """Has the program judge the way back as printed. A fault where it does not lead back."""
        before, behind = around(self.change)
        check_round(script, before, behind)
        self.printed.check_undo(commands_in(script, [*before, *behind]), self.after)


@dataclass(frozen=True, **SLOTS)
class Drain:
    """How OSDs are emptied: these, how many places lie on them, and the pools; the change with which it begins; the
    steps in their parts, how full the fullest OSD gets while each of them moves, and by what they are judged, in parts
    of so many commands; the change with which it ends, and why groups wait for that; what the OSDs have before and
    after, beside their shares once these are gone; the way back; and the same by bytes, where these are known.
    """

    epoch: int
    osds: list[int]
    places: int
    pools: list[Pool]
    begin: Stage
    parts: list[list[PlanStep]]
    peaks: list[PeakParts]
    printed: Printed
    lengths: list[int]
    end: Stage
    waiting: dict[str, Reason]
    before: Spread
    after: Spread
    undo: Undo
    fill: ByteFill | None

    @property
    def steps(self) -> list[PlanStep]:
        """All steps in their order."""
        return [step for part in self.parts for step in part]

    def check_stage(self, stage: Stage, script: str, around: Around, program: Program) -> None:
        """Has the program judge the script of a change. A fault where it does not hold what it is told to hold, or
        lacks what stands round that.
        """
        before, behind = around(stage.change)
        check_round(script, before, behind)
        stage.hold.printed(program).check_scripts([script], [], [], [*before, *behind])

    def check_parts(self, scripts: Sequence[str]) -> None:
        """Has the program judge the scripts of the parts. A fault where they are not what is told, bring a place to an
        OSD that is emptied, or name a group twice.
        """
        self.printed.check_scripts(scripts, self.lengths, [])
        gone, parts = set(self.osds), [commands_in(text) for text in scripts]
        check_each_once(parts)
        for command in (own for part in parts for own in part):
            targets = command.osds[1::2] if " pg-upmap-items " in command.line else command.osds
            if not gone.isdisjoint(targets):
                raise defect(command.line, "a place comes to an OSD that is drained")


class DrainOrder(StepOrder):
    """The order of steps where the OSDs that are emptied are the fullest, first the one that has most."""

    def __init__(self, measure: Measure, steps: list[PlanStep], emptied: Iterable[int]) -> None:
        """Takes what the OSDs have and their shares, the steps, and which are emptied."""
        self.emptied = frozenset(emptied)
        super().__init__(measure.spread, measure.sizes, steps)

    def full(self, osd: int) -> float:
        """How full an OSD is."""
        return FIRST + self.has.get(osd, 0) if osd in self.emptied else super().full(osd)


# Where groups go


def emptied_in(cluster: Cluster, wish: DrainWish, program: Program) -> Emptied:
    """What is known of a cluster once OSDs are emptied."""
    steps, _ = ending(cluster, wish.osds)
    view = view_of_cluster(with_exceptions(after_all(cluster, steps), {}))
    ups = sets_of_maps([with_all_up(value) for value in view.maps], program)
    shares = view.shares(ups)
    classes = {device["id"]: device.get("class") for device in cluster.crush["devices"]} if wish.is_kept else None
    raw, pools = places_by_group(ups), [pool_of(pool) for pool in cluster.pools]
    reach = shares.whole_reach()
    data = None if wish.data is None else byte_shares(pools, wish.data, raw, reach)
    return Emptied(frozenset(wish.osds), sums_by_osd(reach), reach, raw, classes, data)


def chooser_of(held: Cluster, sets: Mapping[str, Places], emptied: Emptied, program: Program) -> Chooser:
    """What gives the groups of a cluster their places."""
    maps = [map_of(part) for part in map_clusters(held)]
    raw = raw_sets(maps, {group for value in maps for group in groups_of(value)}, program)
    return Chooser(held, Holder(held, raw), sets, emptied)


def with_ways(now: Exceptions, ways: Mapping[str, Way]) -> Exceptions:
    """Exceptions where some groups have others."""
    explicit = {group: own for group, own in entries_of(now, "pg_upmap") if group not in ways}
    items = {group: own for group, own in entries_of(now, "pg_upmap_items") if group not in ways}
    explicit.update({group: way.explicit for group, way in ways.items() if way.explicit is not None})
    items.update({group: way.pairs for group, way in ways.items() if way.pairs})
    return {
        "pg_upmap": [[group, explicit[group]] for group in sorted(explicit, key=group_key)],
        "pg_upmap_items": [[group, items[group]] for group in sorted(items, key=group_key)],
    }


def targets_of(chooser: Chooser, lying: Mapping[str, list[int | None]]) -> dict[str, list[int | None]]:
    """Where groups go, as far as there is a place for them."""
    found = {group: chooser.target(group, was) for group, was in lying.items()}
    return {group: places for group, places in found.items() if places is not None}


def planned_targets(
    chooser: Chooser, end: Cluster, targets: Mapping[str, list[int | None]], program: Program
) -> dict[str, list[int | None]]:
    """Where a plan of the cluster without the emptied OSDs has those groups that go anyway."""
    with ExitStack() as stack:
        lives = opened(stack, view_of_cluster(end), program)
        outcome = planned(lives, replace(DEFAULT_WISH, is_by_reach=True, is_free=True))
        steps = [step for step in outcome.steps if step.group in targets]
        kept = mended(Measures(lives, None, None).gauges(), steps)
    moved = {step.group: step.now for step in kept if chooser.way_of(step.group, step.now) is not None}
    return {group: moved.get(group, places) for group, places in targets.items()}


def led(held: Cluster, chooser: Chooser, targets: Mapping[str, list[int | None]]) -> Exceptions:
    """The exceptions that lead groups to their sets."""
    ways = {group: chooser.way_of(group, places) for group, places in targets.items()}
    return with_ways(exceptions_in(held.osd_dump), {group: way for group, way in ways.items() if way is not None})


# All of it


def as_had(places: Places, wanted: Places, is_erasure: bool) -> bool:
    """Whether a set is another one as its data sees it: place by place, or the same OSDs."""
    return list(places) == list(wanted) if is_erasure else set(places) == set(wanted)


def check_targets(end: Stage, targets: Mapping[str, list[int | None]]) -> None:
    """A fault where the program says that a group goes elsewhere than to its set."""
    for own in end.hold.groups:
        wanted = targets.get(own.group, own.was)
        if not as_had(own.was, wanted, own.is_erasure):
            raise Misjudged(
                f"{own.group} would have {set_words(own.was)} and not {set_words(wanted)}: a defect of the tools; "
                f"nothing is put out"
            )


def undo_of(
    cluster: Cluster, wish: DrainWish, stages: Sequence[Exceptions], lost: Iterable[str], program: Program
) -> Undo:
    """The way back from a drain."""
    maps = [map_of(part) for part in map_clusters(cluster)]
    after = [map_of(part) for part in map_clusters(with_exceptions(cluster, stages[-1]))]
    printed = Printed(maps, program, {}, None, frozenset(), Asked.NONE)
    return Undo(back_change(cluster, wish.osds), back_commands(cluster, stages, lost), printed, after)


@dataclass(frozen=True, **SLOTS)
class DrainCourse:
    """A cluster on the way: as it is held once the OSDs have next to no weight, with the groups that then lie on them;
    where these go, and why others wait; and the end.
    """

    begin: Stage
    chooser: Chooser
    targets: dict[str, list[int | None]]
    waiting: dict[str, Reason]
    end: Stage

    @property
    def then(self) -> Exceptions:
        """The exceptions once all groups have gone."""
        return led(self.begin.cluster, self.chooser, self.targets)


def ended(
    begin: Stage, chooser: Chooser, targets: Mapping[str, list[int | None]], osds: list[int], program: Program
) -> Stage:
    """The end, once groups have gone to their sets."""
    return last_stage(with_exceptions(begin.cluster, led(begin.cluster, chooser, targets)), osds, program)


def course_of(cluster: Cluster, wish: DrainWish, program: Program) -> DrainCourse:
    """The way of a cluster whose OSDs are emptied. A fault where a pool would be short."""
    begin, gone = first_stage(cluster, wish.osds, program), frozenset(wish.osds)
    sets: dict[str, Places] = {own.group: own.now for own in begin.hold.groups}
    lying = lying_on(sets, gone)
    chooser = chooser_of(begin.cluster, sets, emptied_in(cluster, wish, program), program)
    targets = targets_of(chooser, lying)
    waiting = {group: chooser.hindrance(group, was) for group, was in lying.items() if group not in targets}
    end = ended(begin, chooser, targets, wish.osds, program)
    had: dict[str, Places] = {own.group: own.was for own in begin.hold.groups}
    then: dict[str, Places] = {own.group: own.now for own in end.hold.groups}
    check_short(cluster, gone, had, then)
    if wish.is_even:
        targets = planned_targets(chooser, end.cluster, targets, program)
        end = ended(begin, chooser, targets, wish.osds, program)
    check_targets(end, targets)
    return DrainCourse(begin, chooser, targets, waiting, end)


def drain_of(cluster: Cluster, wish: DrainWish, program: Program) -> Drain:
    """How OSDs of a cluster are emptied. A fault where they cannot be, or where the program says that a group would be
    elsewhere than told.
    """
    gone = frozenset(wish.osds)
    check_weights(cluster, gone)
    check_rules(cluster, gone)
    course = course_of(cluster, wish, program)
    held, then = course.begin.cluster, course.then
    before, end = view_of_cluster(held), view_of_cluster(with_exceptions(held, then))
    was, to = sets_of_maps(before.maps, program), sets_of_maps(end.maps, program)
    steps = steps_to(held, then, was, to)
    has, after, share = counts_of(was), counts_of(to), course.chooser.emptied.share
    ends, own = (places_by_group(was), places_by_group(to)), course.chooser.emptied.data
    measure = measure_between(own, ends, share)
    order = DrainOrder(measure, steps, gone)
    order.limit(wish.size.busy)
    parts = parts_in_order(order, wish.size.commands, False)
    lengths = [sum(len(step.commands) for step in part) for part in parts]
    if wish.size.is_whole and parts:
        parts = [[step for part in parts for step in part]]
    down = frozenset(osd for osd, of in cluster.osds.items() if not of["up"])
    sets = {step.group: step.now for step in steps}
    printed = Printed(before.maps, program, sets, measure, down, Asked.NAMED)
    stages = [
        exceptions_in(at) for at in (held.osd_dump, with_exceptions(held, then).osd_dump, course.end.cluster.osd_dump)
    ]
    return Drain(
        cluster.epoch,
        wish.osds,
        sum(osd in gone for own in course.begin.hold.groups for osd in own.was),
        [pool_of(pool) for pool in cluster.pools],
        course.begin,
        parts,
        peaks_of(Counter(has), parts),
        printed,
        lengths,
        course.end,
        course.waiting,
        Spread(dict(has), share),
        Spread(dict(after), share),
        undo_of(cluster, wish, stages, lost_on_the_way(cluster, course), program),
        None if own is None else own.fill(*ends, parts),
    )


def lost_on_the_way(cluster: Cluster, course: DrainCourse) -> set[str]:
    """The groups that may lose exceptions while OSDs get other weights one after the other: all that have some."""
    is_one = len(course.begin.change) < 2 and len(course.end.change) < 3
    return set(course.begin.lost | course.end.lost) if is_one else excepted_groups(exceptions_in(cluster.osd_dump))


def steps_to(held: Cluster, then: Exceptions, was: Mapping[str, Up], to: Mapping[str, Up]) -> list[PlanStep]:
    """The steps from a cluster to other exceptions, and so from sets to others."""
    now = exceptions_in(held.osd_dump)
    back, erasure = by_group(exception_commands(then, now)), erasure_pools([pool_of(pool) for pool in held.pools])
    return [
        PlanStep(group, lines, back.get(group, []), was[group].places, to[group].places, group_key(group)[0] in erasure)
        for group, lines in by_group(exception_commands(now, then)).items()
    ]
