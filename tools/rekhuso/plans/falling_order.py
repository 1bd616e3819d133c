"""An order of steps in which the fullest OSD never gets fuller, found from the end.

Where OSDs that get give on what they have, as in a ring of moves, an order that goes from the fullest OSD leaves such
steps to its end, where the fullest OSD is no fuller than they make one for a while. So it is asked backwards which step
was the last: one that leaves the OSD from which it goes least full before it, of those without which the fullest was as
full before as after. By that the fullest is as low as it can be for as long as it can be, and a ring is gone round
while another OSD is fuller still.
"""

from __future__ import annotations

from collections.abc import Collection, Iterable, Mapping, Sequence
from dataclasses import dataclass
from heapq import heapify, heappop, heappush
from operator import sub

from ..values import SLOTS

# What is no more than rounding, of a ratio.
ALIKE_RATIOS = 1e-9


@dataclass(frozen=True, **SLOTS)
class Shift:
    """What a step does: to which OSDs something comes, from which it goes, and how much each place is."""

    come: Sequence[int]
    go: Sequence[int]
    size: float


class Levels:
    """How full OSDs are to their shares while steps are taken, or taken back, and how full the fullest is: no less than
    a floor.
    """

    def __init__(self, has: Mapping[int, float], share: Mapping[int, float], floor: float) -> None:
        """Takes what OSDs have, their shares, and the floor."""
        self.has, self.share, self.floor = dict(has), share, floor
        self.now = {osd: self.level(osd, 0.0) for osd in has}
        self.heap = [(-level, osd) for osd, level in self.now.items()]
        heapify(self.heap)

    def level(self, osd: int, more: float) -> float:
        """How full an OSD is that has so much more; one without a share is not counted."""
        share = self.share.get(osd, 0.0)
        return (self.has.get(osd, 0.0) + more) / share if share > 0 else 0.0

    def move(self, shift: Shift, sign: int) -> None:
        """Takes a step (1), or takes it back (-1)."""
        size = sign * shift.size
        self.put(shift.come, size)
        self.put(shift.go, -size)

    def put(self, osds: Iterable[int], more: float) -> None:
        """OSDs have so much more."""
        has, now, share, heap = self.has, self.now, self.share, self.heap
        for osd in osds:
            has[osd] = size = has.get(osd, 0.0) + more
            own = share.get(osd, 0.0)
            now[osd] = level = size / own if own > 0 else 0.0
            heappush(heap, (-level, osd))

    def top(self, without: Collection[int] = ()) -> float:
        """How full the fullest OSD is, of those that are not left aside, and at least the floor."""
        aside, heap, now = dict[int, float](), self.heap, self.now
        while heap and heap[0][0] != -now[heap[0][1]]:
            heappop(heap)
        if heap and heap[0][1] not in without:  # Most calls end here.
            return max(-heap[0][0], self.floor)
        while heap and (heap[0][0] != -now[heap[0][1]] or heap[0][1] in without):
            level, osd = heappop(heap)
            if level == -now[osd]:
                aside[osd] = level
        found = max(-heap[0][0], self.floor) if heap else self.floor
        for osd, level in aside.items():
            heappush(heap, (level, osd))
        return found


def tops_of(levels: Levels, shifts: Iterable[Shift]) -> list[float]:
    """How full the fullest OSD is before some steps that are taken, and after each."""
    found = [levels.top()]
    for shift in shifts:
        levels.move(shift, 1)
        found.append(levels.top())
    return found


def rise_in(tops: Sequence[float], floor: float) -> float:
    """By how much the fullest OSD gets fuller at most by one step, where it counts as no less full than a floor."""
    own = [top if top > floor else floor for top in tops]
    return max(0.0, max(map(sub, own[1:], own), default=0.0))


def rise_of(levels: Levels, shifts: Iterable[Shift]) -> float:
    """By how much the fullest OSD gets fuller at most by one of some steps that are taken."""
    return rise_in(tops_of(levels, shifts), levels.floor)


class Backwards:
    """The steps that are to be taken back, and how full OSDs are while they are. Of steps from one OSD alone the least
    stands for all in the heap: without it the OSD is least full.
    """

    def __init__(self, levels: Levels, shifts: Mapping[str, Shift]) -> None:
        """Takes how full OSDs are after some steps, and the steps."""
        self.levels, self.left = levels, dict(shifts)
        self.rows: dict[int, list[str]] = {}
        self.others: dict[int, list[str]] = {}
        for group, shift in sorted(shifts.items(), key=lambda own: (own[1].size, own[0]), reverse=True):
            for osd in shift.go:
                (self.rows if len(shift.go) == 1 else self.others).setdefault(osd, []).append(group)
        first = [row[-1] for row in self.rows.values()]
        several = [group for group, shift in shifts.items() if len(shift.go) != 1]
        self.heap = [(self.peak(group), group) for group in first + several]
        heapify(self.heap)

    def peak(self, group: str) -> float:
        """How full an OSD is before a step from which it goes."""
        shift, level = self.left[group], self.levels.level
        go, size = shift.go, shift.size
        return level(go[0], size) if len(go) == 1 else max([level(osd, size) for osd in go], default=0.0)

    def rank(self, groups: Iterable[str]) -> None:
        """Ranks steps by how full an OSD is before each of them now."""
        for group in groups:
            heappush(self.heap, (self.peak(group), group))

    def behind(self, group: str) -> list[str]:
        """The step that stands in the heap once one from the same OSD is out of it."""
        shift = self.left[group]
        row = self.rows[shift.go[0]] if len(shift.go) == 1 else [group]
        at = row.index(group)
        return row[at - 1 : at] if at else []

    def last(self) -> str:
        """The step that was the last: without it an OSD is least full, of those without which the fullest is as full;
        where it is less full without each, that without which it is fullest.
        """
        top, aside, left, heap = self.levels.top(), dict[str, float](), self.left, self.heap
        while heap:
            peak, group = heappop(heap)
            if group not in left or group in aside or peak != self.peak(group):
                continue
            without = max(peak, self.levels.top(left[group].come))
            self.rank(self.behind(group))
            if without >= top - ALIKE_RATIOS:
                self.rank(aside)
                return group
            aside[group] = without
        self.rank(aside)
        return max(aside, key=lambda group: (aside[group], group))

    def take_back(self, group: str) -> None:
        """Takes a step back."""
        shift = self.left[group]
        for osd in shift.go:
            (self.rows if len(shift.go) == 1 else self.others)[osd].remove(group)
        del self.left[group]
        self.levels.move(shift, -1)
        for osd in {*shift.come, *shift.go}:
            self.rank(self.rows.get(osd, [])[-1:])
            self.rank(self.others.get(osd, ()))


def falling(levels: Levels, shifts: Mapping[str, Shift]) -> list[str]:
    """Steps in an order in which the fullest OSD gets fuller by none, as far as there is one; the levels are those
    after all steps, and before them then.
    """
    own, found = Backwards(levels, shifts), list[str]()
    while own.left:
        group = own.last()
        own.take_back(group)
        found.append(group)
    return found[::-1]
