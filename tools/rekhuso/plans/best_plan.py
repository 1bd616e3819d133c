"""Which of several plans is printed: they go by other shares, where rules cannot give OSDs what they weigh."""

from __future__ import annotations

from collections.abc import Mapping, Sequence
from dataclasses import dataclass, replace

from ..cluster.evenness import Spread, sums_by_osd
from ..cluster.pool_data import Data
from ..values import SLOTS
from .byte_aims import ByteAims
from .shared_by import SharedBy
from .json_forms import ChosenParts, WayParts
from .measures import Measures
from .rounds import Live
from .step_order import has_after
from .steps import PlanStep

# How near the best a plan is that counts as good: by the fullest OSD, and by that of groups where bytes come first.
NEAR, NEAR_GROUPS = 1.02, 1.01


@dataclass(frozen=True, **SLOTS)
class TriedPlan:
    """A plan by what it goes by, one after the other: how full the fullest OSD is afterwards to what it weighs for, by
    bytes if they are known, and by groups; how many places move; and whether no pool may take less than before.
    """

    goals: Sequence[SharedBy]
    bytes: float | None
    groups: float
    places: int
    keeps_room: bool

    def by(self) -> str:
        """What it goes by, in words."""
        return ", then ".join(goal.value for goal in self.goals)

    def parts(self) -> WayParts:
        """The same as it is told."""
        return {
            "by": self.by(),
            "bytes": None if self.bytes is None else round(self.bytes, 4),
            "groups": round(self.groups, 4),
            "places": self.places,
            "keeps_room": self.keeps_room,
        }


@dataclass(frozen=True, **SLOTS)
class Chosen:
    """The best of some plans, and all of them; and how full any plan leaves the fullest OSD at least, to its weight,
    where nobody tells the disks.
    """

    best: TriedPlan
    ways: Sequence[TriedPlan]
    least: float | None

    def with_best(self, best: TriedPlan) -> Chosen:
        """The same, where another is the best, in place of one that goes by the same."""
        ways = [own for own in self.ways if own.goals != best.goals]
        return replace(self, best=best, ways=[*ways, best])

    def parts(self) -> ChosenParts:
        """The same as it is told."""
        least = None if self.least is None else round(self.least, 4)
        return {"by": self.best.by(), "ways": [way.parts() for way in self.ways], "least": least}


class BesideWeights:
    """A cluster beside what its OSDs weigh, whatever plans go by. OSDs of next to no weight do not count."""

    def __init__(self, lives: list[Live], data: Data | None) -> None:
        """Takes the maps of a cluster before a plan, and what its pools hold, if that is known."""
        self.closed = frozenset().union(*(live.closed for live in lives))
        counts = {number: own for live in lives for number, own in live.before.counts_in.items()}
        shares = {number: own for live in lives for number, own in live.before.shares_by.items()}
        aims = None if data is None else ByteAims(lives, data, True)
        self.aims = aims if aims is not None and aims.is_whole else None
        self.groups = Spread(sums_by_osd(counts), self.of_open(sums_by_osd(shares)))
        self.measures = Measures(lives, data, aims)

    def of_open(self, shares: Mapping[int, float]) -> dict[int, float]:
        """The shares of the OSDs that count."""
        return {osd: share for osd, share in shares.items() if osd not in self.closed}

    def fullest_by_bytes(self, steps: Sequence[PlanStep]) -> float | None:
        """How full the fullest OSD is by bytes once steps are taken, if it is known."""
        if self.aims is None:
            return None
        return Spread(has_after(self.aims.has, self.aims.groups, steps), self.of_open(self.aims.want)).fullest()

    def way(self, goals: Sequence[SharedBy], steps: Sequence[PlanStep]) -> TriedPlan:
        """What a plan is worth."""
        return TriedPlan(
            goals,
            self.fullest_by_bytes(steps),
            Spread(has_after(self.groups.has, None, steps), self.groups.share).fullest(),
            sum(len(step.places_come()) for step in steps),
            self.measures.keeps_room(steps),
        )

    def ways(self, goals: Sequence[SharedBy], plans: Sequence[Sequence[PlanStep]]) -> list[TriedPlan]:
        """What plans are worth."""
        return [self.way([goal], steps) for goal, steps in zip(goals, plans)]


def near(ways: Sequence[TriedPlan], sizes: Sequence[float], ratio: float) -> list[TriedPlan]:
    """Those that are no greater than the least by more than a ratio."""
    return [way for way, size in zip(ways, sizes) if size <= ratio * min(sizes)]


def best_of(ways: Sequence[TriedPlan]) -> TriedPlan:
    """The plan that is printed, of those after which no pool may take less, if there are such: those near the least
    full by bytes, of these those near the least full by groups, and of these the one that moves least, or the first.
    """
    left = [way for way in ways if way.keeps_room] or list(ways)
    used = [way.bytes for way in left if way.bytes is not None]
    if used:
        left = near(left, used, NEAR)
    left = near(left, [way.groups for way in left], NEAR_GROUPS if used else NEAR)
    return min(left, key=lambda way: way.places)
