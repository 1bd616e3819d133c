"""Whether a plan gains anything: what gains nothing is not printed, or the next plan would take it back, and so on.

A plan for the whole cluster gains where the fullest OSD gets less full, by groups or by bytes, by as much as is told of
it. Else it gains where the sum that plans lower falls by one for each place that moves: that of the squares of how
far OSDs are from their shares, of each pool, of all groups, and ten times those of the data. The fullest gets no fuller
by a plan, so no row of plans goes on for ever.
"""

from __future__ import annotations

from collections.abc import Iterable, Mapping, Sequence

from ..cluster.evenness import Spread
from .loads import WEIGHT
from .measures import Measures, counts_after
from .steps import PlanStep, steps_by_pool

# What is told of a ratio, and the part of a share by which an OSD has as much as before.
TOLD, ALIKE = 0.01, 0.0005
# By how much the squares fall at least for each place, and all together of a pool by itself.
LEAST, LEAST_ALONE = 1.0, 1e-6


def squares(spread: Spread) -> float:
    """The sum of the squares of how far OSDs are from their shares."""
    return sum((spread.has.get(osd, 0) - share) ** 2 for osd, share in spread.share.items())


def is_alike(before: Spread, after: Spread, most: float) -> bool:
    """Whether each OSD has what it had, but for a part of its share."""
    osds = before.has.keys() | after.has.keys()
    return all(abs(before.has.get(osd, 0) - after.has.get(osd, 0)) <= most * before.share.get(osd, 0.0) for osd in osds)


class Gain:
    """What some steps do to the measures of a cluster."""

    def __init__(self, measures: Measures, steps: Sequence[PlanStep]) -> None:
        """Takes the measures before the steps, and the steps."""
        self.measures, self.steps, self.by_pool = measures, steps, steps_by_pool(list(steps))
        self.after = {number: counts_after(measures.counts[number], own) for number, own in self.by_pool.items()}
        self.places = sum(len(step.comes()) for step in steps)

    def fall(self) -> float:
        """By how much the squares of the pools fall."""
        return sum(
            squares(self.measures.groups_in(number)) - squares(Spread(own, self.measures.shares[number]))
            for number, own in self.after.items()
        )

    def groups(self) -> tuple[Spread, Spread]:
        """What OSDs have in groups, before and after."""
        counts: Mapping[int, Mapping[int, int]] = {**self.measures.counts, **self.after}
        return self.measures.groups(self.measures.counts), self.measures.groups(counts)

    def data(self) -> tuple[Spread, Spread] | None:
        """The same in bytes, where it is known of all."""
        before, after = self.measures.bytes(), self.measures.bytes(self.steps)
        aims = self.measures.aims
        return None if before is None or after is None or aims is None or not aims.is_whole else (before, after)

    def is_for_cluster(self) -> bool:
        """Whether the cluster gains."""
        groups, data = self.groups(), self.data()
        if data is not None and is_alike(*data, ALIKE) and is_alike(*groups, 0.0):
            return False
        measured, mean = [groups] if data is None else [groups, data], self.measures.mean_place()
        if any(before.fullest() - after.fullest() >= TOLD for before, after in measured):
            return True
        fall = self.fall() + squares(groups[0]) - squares(groups[1])
        if data is not None and mean:
            fall += WEIGHT / mean**2 * (squares(data[0]) - squares(data[1]))
        return fall >= LEAST * self.places


def gains(measures: Measures, steps: Sequence[PlanStep], is_alone: bool) -> bool:
    """Whether anything is gained by some steps, which plan each pool by itself or the whole cluster."""
    found = Gain(measures, steps)
    if not found.places:
        return False
    return found.fall() > LEAST_ALONE if is_alone else found.is_for_cluster()


def command_count(steps: Iterable[PlanStep]) -> int:
    """How many commands steps have."""
    return sum(len(step.commands) for step in steps)
