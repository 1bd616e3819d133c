"""The parts in which the steps of a plan are taken, and what is left for the sake of nearly full OSDs."""

from __future__ import annotations

from collections.abc import Iterable, Sequence
from dataclasses import replace

from .bounds import Measure
from .busy import ALL
from .falling_order import ALIKE_RATIOS, Levels, Shift, falling, rise_in, rise_of, tops_of
from .measures import Measures
from .mend import mended
from .step_order import StepOrder, has_after, parts_in_order
from .steps import PlanStep

# Up to how many steps an order is looked for in which the fullest OSD gets fuller by none: of more it takes long. By
# how many more parts, of those that there are, where parts are asked for.
MOST_FALLING, MORE_PARTS = 16384, 0.1
# Among how many times as many commands as a part has, those are looked for that come into it.
AHEAD = 4
# To how many digits it is told by how much the fullest OSD gets fuller.
DIGITS = 9


def filling(measures: Measures, nearfull: float) -> Measure:
    """By what OSDs are full before a plan: bytes where it is known what pools hold, else groups. No disk that is known
    gets nearer to full than to a ratio.
    """
    used = measures.bytes()
    if used is None or measures.aims is None or not used.osds():
        spread = measures.groups(measures.counts)
        return Measure(spread, None, spread.has, {})
    return Measure(used, measures.sizes, used.has, measures.aims.limits(nearfull))


def order_of_steps(measures: Measures, steps: list[PlanStep], first: frozenset[str], nearfull: float) -> StepOrder:
    """The steps of a plan as they are to be put in order: those first that are worth most, and before all others those
    of some groups.
    """
    own = filling(measures, nearfull)
    return StepOrder(own.spread, own.sizes, steps, first, own.limits)


def measure_of_steps(measures: Measures, steps: list[PlanStep], nearfull: float) -> Measure:
    """By what the commands of a plan are judged, all of whose steps these are."""
    own = filling(measures, nearfull)
    return replace(own, end=has_after(own.spread.has, own.sizes, steps))


def ordered_parts(order: StepOrder, batch: int, is_cut: bool = False) -> list[list[PlanStep]]:
    """The steps in their order, in parts of at most so many commands. Where disks are known and no parts are asked for,
    there is one part, as nothing tells then when its groups have moved. The fullest OSD gets fuller by no step, if that
    can be, and where parts are asked for if these do not get many more by it. Of a plan that is to be cut it only gets
    no fuller than it is at the end. Where steps are left, so are those by which it gets fuller: half a ring is worth
    nothing.
    """
    is_one = bool(order.limits) and batch == ALL
    parts = parts_in_order(order, batch, is_one)
    if len(order.steps) <= MOST_FALLING and (order.has_risen or not is_cut):
        parts = fallen(order, parts, batch, (order.end,) if is_cut else (order.end, 0.0))
    return without_rises(order, parts) if is_one and order.left and not is_cut else parts


def without_rises(order: StepOrder, parts: list[list[PlanStep]]) -> list[list[PlanStep]]:
    """The same without the steps by which the fullest OSD gets fuller, which are left; all where no others are."""
    levels, kept = Levels(order.given[0].has, order.share, 0.0), list[list[PlanStep]]()
    shifts = OrderSearch(order, ()).shifts
    for part in parts:
        own = [step for step in part if lowers(levels, shifts[step.group])]
        kept += [own] if own else []
    return kept or parts


def lowers(levels: Levels, shift: Shift) -> bool:
    """Whether the fullest OSD gets no fuller by a step, which is taken then."""
    before = levels.top()
    levels.move(shift, 1)
    if levels.top() <= before + ALIKE_RATIOS:
        return True
    levels.move(shift, -1)
    return False


def even_parts(measures: Measures, order: StepOrder, parts: list[list[PlanStep]], batch: int) -> list[list[PlanStep]]:
    """The same where steps are left for the sake of nearly full OSDs, without those that leave the cluster less even
    beside these.
    """
    steps, kept = [step for part in parts for step in part], list[PlanStep]()
    while len(kept := mended(measures.gauges(), steps)) < len(steps):
        own = order.of(kept)
        parts = ordered_parts(own, batch)
        parts = without_rises(own, parts) if batch == ALL else parts
        steps = [step for part in parts for step in part]
    return parts


class OrderSearch:
    """How full OSDs get while steps are taken one by one, where the fullest counts as no less full than one of some
    floors.
    """

    def __init__(self, order: StepOrder, floors: Sequence[float]) -> None:
        """Takes the steps, and the floors, that which weighs most first."""
        self.order, self.floors, self.first = order, floors, {order.steps[at].group for at in order.first}
        steps = zip(order.steps, order.come, order.go, order.sizes)
        self.shifts = {step.group: Shift(come, go, size) for step, come, go, size in steps}

    def levels(self, floor: float) -> Levels:
        """How full OSDs are before the steps."""
        return Levels(self.order.given[0].has, self.order.share, floor)

    def rise(self, levels: Levels, groups: Iterable[str]) -> float:
        """By how much the fullest OSD gets fuller at most by one of some steps, which are taken."""
        return rise_of(levels, map(self.shifts.__getitem__, groups))

    def rises(self, groups: Sequence[str]) -> list[float]:
        """The same of all steps, by each of the floors, of which the last is the lowest."""
        tops = tops_of(self.levels(self.floors[-1]), map(self.shifts.__getitem__, groups))
        return [round(rise_in(tops, floor), DIGITS) for floor in self.floors]

    def fallen(self, levels: Levels, groups: Sequence[str]) -> list[str]:
        """An order of steps, which have been taken and are taken back, in which the fullest OSD gets fuller by none, if
        one is found: those that come first come first.
        """
        found = list[str]()
        for is_first in (False, True):
            own = {group: self.shifts[group] for group in groups if (group in self.first) is is_first}
            found = falling(levels, own) + found
        return found

    def best(self, groups: list[str]) -> list[str]:
        """Of all steps the order in which the fullest OSD gets least fuller by one."""
        ways = [groups]
        if not self.order.has_risen and not any(self.rises(groups)):
            return groups
        for floor in reversed(self.floors):
            levels = self.levels(floor)
            for group in groups:
                levels.move(self.shifts[group], 1)
            ways.append(self.fallen(levels, groups))
            if not any(self.rises(ways[-1])):
                return ways[-1]
        return min(ways, key=self.rises)

    def best_within(self, parts: list[list[str]]) -> list[list[str]]:
        """The same of each part, as the parts before it have left OSDs."""
        levels, found = self.levels(0.0), list[list[str]]()
        for groups in parts:
            rise, own = self.rise(levels, groups), groups
            if rise > ALIKE_RATIOS:
                own = self.fallen(levels, groups)
                own = own if self.rise(levels, own) < rise else groups
            found.append(own)
        return found


def fallen(order: StepOrder, parts: list[list[PlanStep]], batch: int, floors: Sequence[float]) -> list[list[PlanStep]]:
    """Steps that have been put into parts, in an order in which the fullest OSD gets less fuller by a step, if one is
    found. Where parts are asked for, they may have other steps, if there are not many more. Those from which no OSD
    gets emptier stay at the end.
    """
    is_parted, course = batch < ALL or order.busy.most.is_any, OrderSearch(order, floors)
    own = [part for part in parts if any(map(PlanStep.places_leave, part))]
    given, rest = [[step.group for step in part] for part in own], [part for part in parts if part not in own]
    whole, numbers = [group for part in given for group in part], {own.group: at for at, own in enumerate(order.steps)}
    rank = course.best(whole)
    if rank != whole:
        ranked = [numbers[group] for group in rank]
        own = order.of(order.steps).in_order(ranked, batch, AHEAD * batch if is_parted else 0)
    if is_parted and any(course.rises(whole)):
        others = [[step.group for step in part] for part in own]
        is_few = len(others) <= len(given) * (1 + MORE_PARTS)
        ways = [course.best_within(way) for way in ([given, others] if is_few else [given])]
        best = min(ways, key=lambda way: course.rises([group for part in way for group in part]))
        own = [[order.steps[numbers[group]] for group in part] for part in best]
    return own + rest


def first_steps(parts: list[list[PlanStep]], most: int) -> list[list[PlanStep]]:
    """The first steps of some parts, with at most so many commands."""
    found: list[list[PlanStep]] = []
    for part in parts:
        own: list[PlanStep] = []
        for step in part:
            most -= len(step.commands)
            if most < 0:
                return found + ([own] if own else [])
            own.append(step)
        found.append(own)
    return found
