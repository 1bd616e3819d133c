"""How much may still come to each disk by a plan of one part, so that none gets nearly full while nothing has gone yet.

All commands of a part are given at once, and nothing tells when its groups have moved. So to an OSD may come what it
has left up to the nearfull ratio, whatever goes from it. A place that a group had before the plan takes nothing of
that, as its data is there still. The passes of a plan by data ask before each move, so that no step is chosen which
would be left afterwards.
"""

from __future__ import annotations

import math
from collections import Counter
from collections.abc import Iterable, Mapping, Sequence

from ..cluster.moving import erasure_pools
from ..cluster.pool_data import BYTE_PARTS
from .byte_aims import ByteAims
from .pool_places import PoolPlaces
from .rounds import Live, Planner
from .busy import ALL
from .step_order import StepOrder, parts_in_order
from .steps import PlanStep

# What is no more than rounding, in parts of a byte.
ROUNDING = 64 * BYTE_PARTS
# In which ways a plan is made beside nearly full disks: the scheme first, and then the last pass; the last pass before
# it too, so that what room there is serves data first; or a whole plan as though there were room, of which steps are
# left, and then others that fit.
SCHEME_FIRST, DATA_FIRST, FITTED = range(3)
Places = Sequence["int | None"]


def places_in(lives: Iterable[Live]) -> dict[int, list[Places]]:
    """The sets of each pool's groups."""
    return {
        number: [up.places for up in live.before.ups_in(pool)] for live in lives for number, pool in live.pools.items()
    }


class Rooms:
    """What may still come to each OSD: in all, and as a pass begins; where groups were before the plan and before the
    pass; and what is left for the sake of disks since something has moved.
    """

    def __init__(self, lives: Sequence[Live], aims: ByteAims, nearfull: float, way: int) -> None:
        """Takes the maps before the plan, what OSDs have, up to which part a disk may be filled, and the way in which a
        plan is made beside disks.
        """
        self.way = way
        self.first = places_in(lives)
        self.erasure = {number for live in lives for number in erasure_pools(live.value["pools"])}
        self.most = {
            osd: math.floor((most - aims.has[osd]) * BYTE_PARTS) - ROUNDING
            for osd, most in aims.limits(nearfull).items()
            if osd in aims.has
        }
        self.homes = {number: [(own, own) for own in places] for number, places in self.first.items()}
        self.left, self.given = dict(self.most), dict(self.most)
        self.kept: dict[tuple[int, int], dict[int, set[int]]] = {}
        self.by_moves = set[int]()
        self.by_scheme = Counter[int]()
        self.has_stopped = False

    def begin(self, lives: Iterable[Live], aims: ByteAims) -> None:
        """A pass begins where the ones before it have led."""
        now = places_in(lives)
        self.homes = {number: [(own, own) for own in places] for number, places in self.first.items()}
        self.given = self.left_by(now, aims.sizes, self.most)
        self.homes = {number: list(zip(self.first[number], places)) for number, places in now.items()}
        self.left, self.by_scheme, self.has_stopped = dict(self.given), Counter(), False
        self.moved()

    def left_by(
        self, places: Mapping[int, Sequence[Places]], sizes: Mapping[int, Sequence[int]], most: Mapping[int, int]
    ) -> dict[int, int]:
        """What may still come of so much, where groups have these sets."""
        left = dict(most)
        for number, own in places.items():
            for group, (osds, size) in enumerate(zip(own, sizes[number])):
                for at, osd in enumerate(osds):
                    if osd in left and osd is not None and not self.is_home(number, group, at, osd):
                        left[osd] -= size
        return left

    def is_home(self, number: int, group: int, at: int, osd: int) -> bool:
        """Whether a group has had a place on an OSD before the plan or the pass, of an erasure pool the same."""
        first, start = self.homes[number][group]
        if number in self.erasure:
            return osd in (*first[at : at + 1], *start[at : at + 1])
        return osd in first or osd in start

    def lay(self, pools: Mapping[int, PoolPlaces]) -> None:
        """Counts what has come where pools lie so."""
        self.left = self.left_by(
            {number: own.sets for number, own in pools.items()},
            {number: own.sizes for number, own in pools.items()},
            self.given,
        )
        self.moved()

    def moved(self) -> None:
        """Something has moved: what was left before may go now."""
        self.kept.clear()
        self.by_moves.clear()

    def returning(self, own: PoolPlaces, leaves: int) -> dict[int, set[int]]:
        """The OSDs to which groups of a pool would return from another, with what these hold. It is kept until
        something moves.
        """
        key = own.number, leaves
        if key not in self.kept:
            found = self.kept[key] = dict[int, set[int]]()
            for group in own.on.get(leaves, ()):
                first, start = self.homes[own.number][group]
                at = own.sets[group].index(leaves)
                there = (
                    {*first, *start} if own.number not in self.erasure else {*first[at : at + 1], *start[at : at + 1]}
                )
                for osd in there.difference(own.sets[group]):
                    if osd is not None:
                        found.setdefault(osd, set()).add(own.sizes[group])
        return self.kept[key]

    def lets(self, own: PoolPlaces, size: int, leaves: int, comes: int) -> bool:
        """Whether a place that holds so much may go from an OSD to another; it is noted where it may not."""
        if self.may_go(own, size, leaves, comes):
            return True
        self.by_moves.add(comes)
        self.has_stopped = True
        return False

    def may_go(self, own: PoolPlaces, size: int, leaves: int, comes: int) -> bool:
        """The same, without a note."""
        return size <= self.left.get(comes, size) or size in self.returning(own, leaves).get(comes, ())

    def may_come(self, own: PoolPlaces, group: int, leaves: int, comes: int) -> bool:
        """The same of a group."""
        size = own.sizes[group]
        return size <= self.left.get(comes, size) or self.is_home(
            own.number, group, own.sets[group].index(leaves), comes
        )

    def count(self, own: PoolPlaces, group: int, leaves: int, comes: int) -> None:
        """Counts a group where it has gone."""
        at, size = own.sets[group].index(comes), own.sizes[group]
        for osd, more in ((leaves, size), (comes, -size)):
            if osd in self.left and not self.is_home(own.number, group, at, osd):
                self.left[osd] += more
        self.moved()

    def stopped(self) -> dict[int, int]:
        """The OSDs for whose sake steps are left, each with how many of these at least."""
        return {**dict.fromkeys(self.by_moves, 1), **self.by_scheme}


def take_back_unfit(planner: Planner, aims: ByteAims, rooms: Rooms) -> None:
    """Takes moves of the scheme back that would fill disks too far: those that an order of all moves leaves."""
    steps = list[PlanStep]()
    for live in planner.lives:
        for group, up in live.session.ups(live.changed()).items():
            was = live.before.ups[group].places
            if was != up.places:
                steps.append(PlanStep(group, [], [], was, up.places, int(group.split(".")[0]) in rooms.erasure))
    spread = aims.spread()
    limits = {osd: has + rooms.given[osd] / BYTE_PARTS for osd, has in spread.has.items() if osd in rooms.given}
    order = StepOrder(spread, aims.groups, steps, limits=limits)
    parts_in_order(order, ALL, True)
    rooms.by_scheme, left = Counter(order.stopped()), {steps[at].group: steps[at] for at in order.left}
    rooms.has_stopped |= bool(left)
    for live in planner.lives:
        own = [group for group in left if int(group.split(".")[0]) in live.pools]
        if own:
            live.take_back(own)
            for group in own:
                planner.come_back(live, group, left[group].now, left[group].was)
