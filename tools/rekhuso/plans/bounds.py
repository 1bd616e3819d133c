"""The bounds within which OSDs stay while the commands of a plan are given, as `step_order` has them."""

from __future__ import annotations

from collections.abc import Callable, Mapping, Sequence
from dataclasses import dataclass
from itertools import repeat
from operator import truediv

from ..cluster.evenness import Spread
from ..values import SLOTS
from .falling_order import Levels
from .step_order import EVEN

# What is no more than rounding, as a part of a number.
ROUNDING = 1e-9


@dataclass(frozen=True, **SLOTS)
class Measure:
    """By what OSDs are full: what they have and their shares, in bytes or else in groups; what a place of each group
    counts (else 1); what they have once all of a plan is done, of which the commands may be the first alone; and up to
    where OSDs may be filled, if that is known.
    """

    spread: Spread
    sizes: Mapping[str, float] | None
    end: Mapping[int, float]
    limits: Mapping[int, float]

    def size(self, group: str) -> float:
        """What a place of a group counts."""
        return 1.0 if self.sizes is None else self.sizes[group]


@dataclass(frozen=True, **SLOTS)
class Step:
    """What the commands of a group do: its last command, the OSDs to which places come and from which they go, and what
    each place counts.
    """

    line: str
    come: Sequence[int]
    go: Sequence[int]
    size: float


def is_above(size: float, most: float) -> bool:
    """Whether a number is above another by more than rounding."""
    return size > most * (1 + ROUNDING) + ROUNDING


class Filling:
    """What OSDs have while the steps of a plan are taken, part by part."""

    def __init__(self, measure: Measure, has: Mapping[int, float]) -> None:
        """Takes what the OSDs have before the plan."""
        self.measure, self.levels = measure, Levels(has, measure.spread.share, 0.0)
        self.most = {osd: max(has.get(osd, 0), measure.end.get(osd, 0)) for osd in {*has, *measure.end}}
        self.osds = measure.spread.osds()
        self.shares = [measure.spread.share[osd] for osd in self.osds]
        self.end = self.fullest(measure.end)

    def fullest(self, has: Mapping[int, float]) -> float:
        """The greatest ratio of what an OSD has to its share."""
        own: Callable[[int, float], float] = has.get
        return max(map(truediv, map(own, self.osds, repeat(0.0)), self.shares), default=0.0)

    def fault(self, step: Step, high: Mapping[int, float], bound: float) -> str | None:
        """Why a step may not come into a part; None where it may."""
        spread, limits = Spread(high, self.measure.spread.share), self.measure.limits
        for osd in step.come:
            if osd in limits and is_above(high[osd], limits[osd]):
                return f"osd.{osd} would get nearfull"
            if limits:
                continue
            if is_above(spread.ratio(osd), bound):
                return f"osd.{osd} would get to {spread.ratio(osd):.4f} of its share, where {bound:.4f} is the bound"
            if is_above(high[osd], self.most.get(osd, 0) + step.size):
                return f"osd.{osd} would get more than a place above the most that it has before the plan or after it"
        return None

    def is_within(self, step: Step, high: Mapping[int, float], bound: float) -> bool:
        """Whether it is seen at once that a step may come into a part, as most may: no disk is known then."""
        if self.measure.limits:
            return False
        share, most, size = self.measure.spread.share, self.most, step.size
        ends = [(high[osd], bound * share.get(osd, 0.0), most.get(osd, 0) + size) for osd in step.come]
        return all([own <= by_share and own <= by_most for own, by_share, by_most in ends])

    def part(self, steps: Sequence[Step]) -> tuple[str, str] | None:
        """Takes a part: all that comes in it counts, and nothing that goes. The line of the first step by which an OSD
        passes a bound, and how; None where there is none. One step alone may pass it, where no disk is known, and steps
        from which no OSD gets emptier.
        """
        bound, high = max(self.levels.top(), self.end, EVEN), dict(self.levels.has)
        found: tuple[str, str] | None = None
        for step in steps:
            for osd in step.come:
                high[osd] = high.get(osd, 0) + step.size
            self.levels.put(step.come, step.size)
            why = None if found or self.is_within(step, high, bound) else self.fault(step, high, bound)
            found = found if why is None else (step.line, why)
        for step in steps:
            self.levels.put(step.go, -step.size)
        is_free = not any(step.go for step in steps) or len(steps) < 2 and not self.measure.limits
        return None if is_free else found
