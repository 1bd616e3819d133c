"""What is left out of a plan by data as it gains no more than the least move that is made.

The scheme lowers one sum: that of the squares of all deviations of the pools, of the groups over all pools, and ten
times those of the data, in places of the mean size. A move is made only between OSDs that differ by more than twice a
deviation D, and so lowers the sum by more than 4 D - 2. Later moves, of other pools, may leave an earlier one worth
less. Such steps are left out, the one that gains least first, where by it no OSD gets fuller than the fullest is, or
by data than the last pass leaves one that it need not leave, and nothing is less even than before the plan.
"""

from __future__ import annotations

from collections.abc import Collection, Sequence
from heapq import heappop

from ..cluster.evenness import Spread
from .last_pass import FAR, NEAR
from .loads import SUM_WEIGHT, WEIGHT
from .max_avail import RoomGauge
from .measures import Measures
from .mend import Mender, ROUNDING, Squares
from .steps import PlanStep


class Spare(Mender):
    """Leaves steps out of a plan by data, one by one: always the one that gains least. Beside the groups and the data
    of the cluster the groups of each pool count.
    """

    def __init__(self, measures: Measures, used: Spread, steps: Sequence[PlanStep], first: Collection[str]) -> None:
        """Takes the measures before the plan, what OSDs have in bytes then, the steps, and groups whose steps stay."""
        super().__init__(measures.gauges(), steps)
        self.first = first
        self.data, self.weight = Squares(used, measures.sizes, False), WEIGHT / measures.mean_place() ** 2
        self.pools = {number: Squares(measures.groups_in(number), None, False) for number in measures.pools}
        for step in steps:
            self.data.take(step, 1)
            self.pools[step.pool].take(step, 1)
        groups, data = (gauge.worst() for gauge in self.gauges[:2])
        self.rooms = [gauge for gauge in self.gauges if isinstance(gauge, RoomGauge)]
        self.most = [groups, min(max(data, 1 + NEAR), 1 + FAR)]
        self.rank(self.left)

    def harm(self, group: str) -> float:
        """By how much the sum rises where a group's step is taken out."""
        step = self.left[group]
        groups, data = self.gauges[0].gain(step, -1), self.data.gain(step, -1)
        return self.pools[step.pool].gain(step, -1) + SUM_WEIGHT * groups + self.weight * data

    def may_go(self, step: PlanStep) -> bool:
        """Whether no OSD gets too full where a step is taken out, and nothing less even than before the plan."""
        if step.group in self.first or any(own.fills(step.leaves(), own.size(step)) for own in self.rooms):
            return False
        return all(
            gauge.squares + gauge.gain(step, -1) <= gauge.before * (1 + ROUNDING)
            and gauge.worst_of(step.leaves(), gauge.size(step)) <= most
            for gauge, most in zip(self.gauges, self.most)
        )

    def least(self, bound: float) -> str | None:
        """The group whose step gains least, of those that gain no more than a bound and may go; None where there is
        none. One that may not go is not asked again unless something near it goes.
        """
        while self.heap and self.heap[0][0] <= bound:
            harm, group = heappop(self.heap)
            if group in self.left and harm == self.harms[group] and self.may_go(self.left[group]):
                return group
        return None

    def take_out(self, group: str) -> None:
        """Takes a group's step out."""
        step = self.left[group]
        self.data.take(step, -1)
        self.pools[step.pool].take(step, -1)
        super().take_out(group)


def spared(measures: Measures, steps: list[PlanStep], first: Collection[str], deviation: float) -> list[PlanStep]:
    """The steps of a plan by data without those that gain no more than a move between OSDs that differ by twice a
    deviation. Some groups keep theirs.
    """
    used = measures.bytes()
    if used is None or not measures.mean_place():
        return steps
    spare, bound = Spare(measures, used, steps, first), 4 * deviation - 2
    while (group := spare.least(bound)) is not None:
        spare.take_out(group)
    return list(spare.left.values())
