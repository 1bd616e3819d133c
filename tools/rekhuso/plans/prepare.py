"""What can be moved before a change so that a hold then covers it.

A group that a hold would leave has a set that the rules forbid behind the change. Before the change, part by part, it
goes to another set, by as few places as will do: one that both the rules of today and those behind the change allow,
where exceptions lead to it on both sides that Ceph's monitor lets stay. Of several sets it is the one on the emptiest
OSDs, by the shares that the rules can reach behind the change.
"""

from __future__ import annotations

from collections import Counter
from collections.abc import Iterator, Mapping, Sequence
from dataclasses import dataclass
from itertools import combinations, product

from ..cluster.aftermath import Command, raw_sets, with_exceptions
from ..cluster.cluster import Cluster
from ..cluster.conversion import map_of
from ..cluster.evenness import Spread
from ..cluster.entry_forms import exceptions_in, pool_of
from ..cluster.judge import Places
from ..cluster.map_parts import map_clusters
from ..cluster.view import view_of_cluster
from ..program.maps import Pool, Program, group_key, groups_of, with_all_up
from ..values import SLOTS
from .bounds import Measure
from .busy import PartSize
from .drain import steps_to, with_ways
from .drain_stages import light_osds
from .hold import Hold, hold_of, sides_of_change
from .holding import Held, Holder, Way, way_to
from .json_forms import PeakParts
from .printed import Asked, Printed
from .question import sets_of_maps
from .release import counts_of, peaks_of
from .step_order import StepOrder, parts_in_order
from .steps import PlanStep

# How many of the emptiest OSDs are tried for each of two places that go together.
TRIED = 32


@dataclass(frozen=True, **SLOTS)
class Prepared:
    """What goes before a change: the epoch and the pools; the groups that a hold would leave, and those that it leaves
    then; the steps in their parts, how full the fullest OSD gets while each of them moves, and by what they are judged,
    in parts of so many commands; and the hold behind the change, once all of them have gone.
    """

    epoch: int
    pools: list[Pool]
    before: list[Held]
    after: list[Held]
    parts: list[list[PlanStep]]
    peaks: list[PeakParts]
    printed: Printed
    lengths: list[int]
    hold: Hold

    @property
    def steps(self) -> list[PlanStep]:
        """All steps in their order."""
        return [step for part in self.parts for step in part]


def holder_of(cluster: Cluster, program: Program) -> Holder:
    """How the monitor of a cluster reads it, and what its rules give."""
    maps = [map_of(part) for part in map_clusters(cluster)]
    return Holder(cluster, raw_sets(maps, {group for value in maps for group in groups_of(value)}, program))


class Preparer:
    """A cluster before a change and behind it, while groups are given sets that both allow."""

    def __init__(self, holders: tuple[Holder, Holder], share: Mapping[int, float], has: Mapping[int, int]) -> None:
        """Takes how both sides are read, the shares behind the change, and what the OSDs have."""
        self.old, self.new = holders
        self.share, self.has = share, Counter(has)
        self.up = {osd for osd in self.old.there & self.new.there if not self.old.present.is_out(osd)}
        self._able: dict[tuple[int, int], list[int]] = {}

    def able(self, group: str) -> list[int]:
        """The OSDs that the rules of both sides may give a group, the emptiest first."""
        rules = tuple(holder.pools[group_key(group)[0]]["rule"] for holder in (self.old, self.new))
        key = rules[0], rules[1]
        if key not in self._able:
            weights = [holder.judge.weights(rule) for holder, rule in zip((self.old, self.new), key)]
            self._able[key] = [osd for osd in sorted(self.up) if all(own.get(osd, 0.0) > 0 for own in weights)]
        return sorted(self._able[key], key=lambda osd: (self.full(osd), osd))

    def full(self, osd: int) -> float:
        """How full an OSD would be with one place more."""
        share = self.share.get(osd, 0.0)
        return (self.has[osd] + 1) / share if share > 0 else float("inf")

    @staticmethod
    def way(holder: Holder, group: str, places: Places) -> Way | None:
        """The exceptions by which a group has a set on one side, where they stay; None where there are none."""
        pool = holder.pools[group_key(group)[0]]
        if len(places) != len(holder.raw[group]) or holder.judge.fault(pool, places, holder.present) is not None:
            return None
        found = way_to(list(holder.raw[group]), places, pool["kind"] == "erasure")
        if not isinstance(found, Way) or not found.pairs and found.explicit is None:
            return found if isinstance(found, Way) else None
        return found if holder.fault(group, found.explicit, found.pairs) is None else None

    def sets(self, group: str, was: Sequence[int | None]) -> Iterator[list[int | None]]:
        """Sets with one other place, and then with two."""
        able = [osd for osd in self.able(group) if osd not in was]
        for count, few in ((1, able), (2, able[:TRIED])):
            for ats in combinations(range(len(was)), count):
                for osds in product(few, repeat=count):
                    if len(set(osds)) == count:
                        now = list(was)
                        for at, osd in zip(ats, osds):
                            now[at] = osd
                        yield now

    def target(self, group: str, was: Sequence[int | None]) -> Way | None:
        """The exceptions of today that lead a group to a set which both sides allow; None where there is none."""
        if None in was:
            return None
        for now in self.sets(group, was):
            way = self.way(self.old, group, now) if self.way(self.new, group, now) is not None else None
            if way is not None:
                self.has.subtract(osd for osd in was if osd is not None and osd not in now)
                self.has.update(osd for osd in now if osd is not None and osd not in was)
                return way
        return None


def preparer_of(old: Cluster, new: Cluster, sets: Mapping[str, Places], program: Program) -> Preparer:
    """What gives groups of a cluster sets that a change leaves lawful."""
    view = view_of_cluster(with_exceptions(new, {}))
    ups = sets_of_maps([with_all_up(value) for value in view.maps], program)
    has: Counter[int] = Counter(osd for places in sets.values() for osd in set(places) if osd is not None)
    found = Preparer((holder_of(old, program), holder_of(new, program)), view.shares(ups).reached, has)
    found.up -= {osd for osd, own in old.osds.items() if not own["up"]} | light_osds(old) | light_osds(new)
    return found


def prepare_of(cluster: Cluster, steps: list[Command], size: PartSize, program: Program) -> Prepared:
    """What goes before a change that commands make. A fault where the program says that a group would be elsewhere than
    told, or that the hold would not cover it.
    """
    sides = sides_of_change(cluster, steps, program)
    before = [own for own in hold_of(sides, program).left() if own.lost()]
    preparer = preparer_of(cluster, sides.new, sides.has, program)
    there = [own for own in before if own.group in sides.has]
    found = {own.group: preparer.target(own.group, own.was) for own in there}
    then = with_ways(exceptions_in(cluster.osd_dump), {group: way for group, way in found.items() if way is not None})
    now, end = view_of_cluster(cluster), view_of_cluster(with_exceptions(cluster, then))
    was, to = sets_of_maps(now.maps, program), sets_of_maps(end.maps, program)
    own_steps = steps_to(cluster, then, was, to)
    share, has = end.shares(to).reached, counts_of(was)
    order = StepOrder(Spread(dict(has), share), None, own_steps)
    order.limit(size.busy)
    parts = parts_in_order(order, size.commands, False)
    lengths = [sum(len(step.commands) for step in part) for part in parts]
    if size.is_whole and parts:
        parts = [[step for part in parts for step in part]]
    hold = hold_of(sides_of_change(with_exceptions(cluster, then), steps, program), program)
    hold.printed(program).check_scripts(["\n".join(hold.commands)], [], [])
    measure = Measure(Spread({}, share), None, dict(counts_of(to)), {})
    down = frozenset(osd for osd, own in cluster.osds.items() if not own["up"])
    wanted = {step.group: step.now for step in own_steps}
    return Prepared(
        cluster.epoch,
        [pool_of(pool) for pool in cluster.pools],
        before,
        [own for own in hold.left() if own.lost()],
        parts,
        peaks_of(Counter(has), parts),
        Printed(now.maps, program, wanted, measure, down, Asked.NAMED),
        lengths,
        hold,
    )
