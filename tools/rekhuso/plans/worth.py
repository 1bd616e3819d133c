"""What the commands of a plan cost and gain in their order: how full the fullest OSD is after each step."""

from __future__ import annotations

from collections.abc import Sequence
from dataclasses import dataclass

from ..values import SLOTS
from .bounds import Measure
from .falling_order import Levels, Shift, tops_of
from .json_forms import WorthParts
from .steps import PlanStep

# After how many places it is told how full the fullest OSD is, and for which part of all that is gained it is told how
# many commands bring it.
PLACES, MOST = 100, 0.9
# What is no more than rounding.
ROUNDING = 1e-9


@dataclass(frozen=True, **SLOTS)
class Worth:
    """What a plan is worth: whether OSDs are full by bytes or by groups, how full the fullest is before it and after
    each hundred places that have come, the last ones fewer; and after how many commands most of it is gained, with how
    full the fullest is then.
    """

    is_by_bytes: bool
    fullest: list[tuple[int, float]]
    first: tuple[int, float]

    def parts(self) -> WorthParts:
        """The same as it is told."""
        return {
            "by": "bytes" if self.is_by_bytes else "groups",
            "fullest": [[places, round(ratio, 4)] for places, ratio in self.fullest],
            "first": {"commands": self.first[0], "fullest": round(self.first[1], 4)},
        }


def fullest_after(measure: Measure, steps: Sequence[PlanStep]) -> list[float]:
    """How full the fullest OSD is before some steps, and after each of them; 0 where no OSD has a share."""
    levels = Levels(measure.spread.has, measure.spread.share, 0.0)
    return tops_of(levels, [Shift(own.places_come(), own.places_leave(), measure.size(own.group)) for own in steps])


def reached(full: Sequence[float], ratio: float) -> int | None:
    """After how many steps the fullest OSD is no fuller than a ratio to its share; None where it is never."""
    return next((count for count, own in enumerate(full) if own <= ratio + ROUNDING), None)


def until(parts: list[list[PlanStep]], measure: Measure, ratio: float) -> list[list[PlanStep]]:
    """The first steps of some parts, by which the fullest OSD comes to a ratio; all where it never does."""
    steps = [step for part in parts for step in part]
    left, found = reached(fullest_after(measure, steps), ratio), list[list[PlanStep]]()
    for part in parts:
        own = part if left is None else part[:left]
        left = None if left is None else left - len(own)
        found += [own] if own else []
    return found


def kept_until(parts: list[list[PlanStep]], count: int) -> list[list[PlanStep]]:
    """The first steps of some parts, so many."""
    found = list[list[PlanStep]]()
    for part in parts:
        own = part[:count]
        count -= len(own)
        found += [own] if own else []
    return found


def worth_of(measure: Measure, steps: Sequence[PlanStep]) -> Worth | None:
    """What some steps are worth in their order; None where there is none."""
    if not steps:
        return None
    full, places, found = fullest_after(measure, steps), 0, list[tuple[int, float]]()
    for step, ratio in zip(steps, full[1:]):
        if places // PLACES != (places + len(step.places_come())) // PLACES:
            found.append((places + len(step.places_come()), ratio))
        places += len(step.places_come())
    rows = [(0, full[0]), *found[: len(found) - bool(found and found[-1][0] == places)], (places, full[-1])]
    most = reached(full, full[0] - MOST * (full[0] - full[-1])) or 0
    return Worth(measure.sizes is not None, rows, (sum(len(step.commands) for step in steps[:most]), full[most]))
