"""What is left of a plan so that no cluster gets less even by it.

A plan evens pools, groups and data together, and one may gain at the cost of another: a small OSD that gets one more
group may become the fullest. So steps are taken out of a plan until by groups, and by bytes where these are known, no
OSD is fuller to its share than the fullest was before, and the deviations are no greater than before.
"""

from __future__ import annotations

from collections.abc import Iterable, Mapping, Sequence
from heapq import heappop, heappush

from ..cluster.evenness import Spread
from .steps import PlanStep

# What is no more than rounding, of a ratio and of a sum of squares.
ROUNDING = 1e-9


class Squares:
    """What OSDs have while steps are taken out, and the squares of how far they are from their shares, each by its
    scale.
    """

    def __init__(self, before: Spread, sizes: Mapping[str, float] | None, is_relative: bool) -> None:
        """Takes what OSDs have before the plan, what a place of each group counts (else 1), and whether how far an OSD
        is counts as a part of its share.
        """
        self.has, self.share, self.sizes = dict(before.has), before.share, sizes
        self.scale = {osd: 1 / own if is_relative else 1.0 for osd, own in before.share.items() if own > 0}

    def size(self, step: PlanStep) -> float:
        """What a place of a step's group counts."""
        return 1.0 if self.sizes is None else self.sizes[step.group]

    def rise(self, pairs: Iterable[tuple[int, float]]) -> float:
        """By how much the sum of squares rises where so much more is on OSDs."""
        total = 0.0
        for osd, more in pairs:
            scale = self.scale.get(osd)
            if scale is not None:
                has, share = self.has.get(osd, 0), self.share[osd]
                total += ((has + more - share) * scale) ** 2 - ((has - share) * scale) ** 2
        return total

    def gain(self, step: PlanStep, sign: int) -> float:
        """By how much the sum of squares rises where a step is taken (1), or taken out (-1)."""
        size = sign * self.size(step)
        return self.rise([(osd, size) for osd in step.comes()] + [(osd, -size) for osd in step.leaves()])

    def take(self, step: PlanStep, sign: int) -> None:
        """Takes a step, or takes it out."""
        size = sign * self.size(step)
        for osds, more in ((step.comes(), size), (step.leaves(), -size)):
            for osd in osds:
                self.has[osd] = self.has.get(osd, 0) + more


class Gauge(Squares):
    """One measure of a cluster while steps are taken out: what the OSDs have, and the sum of the squares."""

    def __init__(self, before: Spread, sizes: Mapping[str, float] | None, is_relative: bool) -> None:
        """Takes the same."""
        super().__init__(before, sizes, is_relative)
        self.fullest = before.fullest() * (1 + ROUNDING)
        self.squares = self.before = self.sum()

    def sum(self) -> float:
        """The sum of the squares of how far OSDs are from their shares."""
        squares = (((self.has.get(osd, 0) - self.share[osd]) * self.scale[osd]) ** 2 for osd in sorted(self.scale))
        return sum(squares)

    def take(self, step: PlanStep, sign: int) -> None:
        """Takes a step, or takes it out."""
        self.squares += self.gain(step, sign)
        super().take(step, sign)

    def over(self) -> set[int]:
        """The OSDs that are fuller than the fullest was."""
        return {osd for osd in self.scale if self.has.get(osd, 0) > self.fullest * self.share[osd]}

    def worst_of(self, osds: Iterable[int], more: float) -> float:
        """The greatest ratio to its share that one of some OSDs would have with so much more; 0 where none has one."""
        return max(((self.has.get(osd, 0) + more) / self.share[osd] for osd in osds if osd in self.scale), default=0.0)

    def worst(self) -> float:
        """The greatest ratio of what an OSD has to its share."""
        return self.worst_of(self.scale, 0.0)

    def is_less_even(self) -> bool:
        """Whether the sum of squares is greater than before."""
        return self.squares > self.before * (1 + ROUNDING) + ROUNDING

    def put(self, has: Mapping[int, float]) -> None:
        """OSDs have so much now."""
        self.has = dict(has)
        self.squares = self.sum()

    def move(self, leaves: int, comes: int, size: float) -> None:
        """So much goes from an OSD to another."""
        self.squares += self.rise([(leaves, -size), (comes, size)])
        self.has[leaves] = self.has.get(leaves, 0) - size
        self.has[comes] = self.has.get(comes, 0) + size

    def lets(self, leaves: int, comes: int, size: float) -> bool:
        """Whether so much may go from an OSD to another: the one that gets it is then no fuller than the fullest was,
        and the sum of squares is no greater than before, or no greater than it is.
        """
        if self.worst_of([comes], size) > self.fullest:
            return False
        rise = self.rise([(leaves, -size), (comes, size)])
        return rise <= 0 or self.squares + rise <= self.before * (1 + ROUNDING)


class Mender:
    """Takes steps out of a plan, one by one: always one by which a measure at fault gains, and by which all measures
    together gain most, each as a part of what it was.
    """

    def __init__(self, gauges: Sequence[Gauge], steps: Sequence[PlanStep]) -> None:
        """Takes the measures before the plan, which from now on are those after it, and its steps."""
        self.gauges, self.left = gauges, {step.group: step for step in steps}
        self.at: dict[int, set[str]] = {}
        for step in steps:
            for gauge in gauges:
                gauge.take(step, 1)
            for osd in step.comes() + step.leaves():
                self.at.setdefault(osd, set()).add(step.group)
        self.harms: dict[str, float] = {}
        self.heap: list[tuple[float, str]] = []

    def harm(self, group: str) -> float:
        """By how much all measures rise where a group's step is taken out."""
        step = self.left[group]
        return sum(gauge.gain(step, -1) / max(gauge.before, ROUNDING) for gauge in self.gauges)

    def rank(self, groups: Iterable[str]) -> None:
        """Ranks some groups by their harms as these are now."""
        for group in groups:
            self.harms[group] = self.harm(group)
            heappush(self.heap, (self.harms[group], group))

    def best(self, gauge: Gauge) -> str:
        """The group whose step is the best to be taken out for the sake of a measure."""
        if not self.heap:
            self.rank(self.left)
        passed: list[tuple[float, str]] = []
        found = None
        while self.heap and found is None:
            entry = heappop(self.heap)
            if entry[1] in self.left and entry[0] == self.harms[entry[1]]:
                passed.append(entry)
                found = entry[1] if gauge.gain(self.left[entry[1]], -1) < 0 else None
        for entry in passed:
            heappush(self.heap, entry)
        return passed[0][1] if found is None else found

    def at_fault(self) -> str | None:
        """The group whose step is to be taken out next; None where no measure is at fault."""
        for gauge in self.gauges:
            over = gauge.over()
            near = {group for osd in over for group in self.at.get(osd, ()) if group in self.left}
            coming = [group for group in near if not over.isdisjoint(self.left[group].comes())]
            if coming:
                return min(coming, key=lambda group: (self.harm(group), group))
            if gauge.is_less_even() and self.left:
                return self.best(gauge)
        return None

    def take_out(self, group: str) -> None:
        """Takes a group's step out."""
        step = self.left.pop(group)
        for gauge in self.gauges:
            gauge.take(step, -1)
        if self.heap:
            self.rank({other for osd in step.comes() + step.leaves() for other in self.at[osd] if other in self.left})


def mended(gauges: Sequence[Gauge], steps: list[PlanStep]) -> list[PlanStep]:
    """The steps of a plan that are left once others are taken out until no measure is at fault."""
    mender = Mender(gauges, steps)
    while (group := mender.at_fault()) is not None:
        mender.take_out(group)
    return list(mender.left.values())
