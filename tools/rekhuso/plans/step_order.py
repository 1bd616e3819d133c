"""The order in which the steps of a plan are taken: from the fullest OSD first, so that each part of a plan is worth
most, and no OSD gets fuller on the way than the fullest was before, or is at the end.

How full an OSD is, is what it has to its share: bytes where it is known what pools hold, else groups. The next step is
one from the fullest OSD, of several the one to the emptiest, by which the fullest OSD gets no fuller: that is taken
only where no other is left. It comes into a part only if no OSD then gets above two bounds, where all that comes in the
part counts and nothing that goes. The one is the fullest OSD before the part, or that after the whole plan, or 1.05 of
a share, whichever is most. The other is each OSD's own: one place more than the most that it has before the whole plan
or after it, as next to a share of nearly nothing no ratio is a bound. Where the disks are known the nearfull ratio is
the bound in place of both. In how many moves of a part an OSD or a host takes part may be limited too (`busy`).
"""

from __future__ import annotations

from collections import Counter
from collections.abc import Iterator, Mapping, Sequence
from heapq import heapify, heappop, heappush
from itertools import chain

from ..cluster.evenness import Spread
from .busy import Busy, MostBusy, NO_LIMIT, partakers
from .steps import PlanStep, batches

# To this ratio to its share an OSD may always be filled, and what is no more than rounding.
EVEN, ROUNDING = 1.05, 1e-12
# How many steps by which the fullest OSD gets fuller are looked for.
MOST_RISES = 64


def has_after(
    has: Mapping[int, float], sizes: Mapping[str, float] | None, steps: Sequence[PlanStep]
) -> dict[int, float]:
    """What OSDs have once steps are taken, where a place of each group counts so much (else 1)."""
    found = dict(has)
    for step in steps:
        size = 1.0 if sizes is None else sizes[step.group]
        for osds, more in ((step.comes(), size), (step.leaves(), -size)):
            for osd in osds:
                found[osd] = found.get(osd, 0) + more
    return found


class StepOrder:
    """The steps that are still to be taken, and what the OSDs have meanwhile."""

    def __init__(
        self,
        spread: Spread,
        sizes: Mapping[str, float] | None,
        steps: list[PlanStep],
        first: frozenset[str] = frozenset(),
        limits: Mapping[int, float] | None = None,
    ) -> None:
        """Takes what the OSDs have before the steps, what a place of each group counts (else 1), the steps, the groups
        whose steps come first, and up to where OSDs may be filled, if that is known.
        """
        self.given = spread, sizes, steps, first, limits
        self.steps, self.share, self.has = steps, spread.share, dict(spread.has)
        self.first, self.limits = {at for at, step in enumerate(steps) if step.group in first}, limits or {}
        self.sizes = [1.0 if sizes is None else sizes[step.group] for step in steps]
        self.come, self.go = [step.places_come() for step in steps], [step.places_leave() for step in steps]
        self.leaving: dict[int, list[int]] = {}
        for at, osds in enumerate(self.go):
            for osd in osds:
                self.leaving.setdefault(osd, []).append(at)
        self.left = {at for at, osds in enumerate(self.go) if osds}
        self.high: dict[int, float] = {}
        self.shut: set[int] = set()
        self.busy, self.partakers, own = Busy(NO_LIMIT), list[set[int]](), spread.osds()
        self.level = {osd: self.full(osd) for osd in {*own, *chain(*self.come, *self.go)}}
        self.tops = [(-self.level[osd], osd) for osd in own]
        heapify(self.tops)
        self.rises, self.has_risen = 0, False
        self.bound, end = 0.0, dict(self.has)
        for at in range(len(steps)):
            self.shift(end, at)
        self.end = Spread(end, self.share).fullest()
        self.most = {osd: max(self.has.get(osd, 0), size) + ROUNDING for osd, size in end.items()}

    def shift(self, has: dict[int, float], at: int) -> None:
        """What OSDs have once a step is taken."""
        for osd in self.come[at]:
            has[osd] = has.get(osd, 0) + self.sizes[at]
        for osd in self.go[at]:
            has[osd] = has.get(osd, 0) - self.sizes[at]

    def ratio(self, has: float, osd: int) -> float:
        """How many times its share an OSD has that has so much."""
        share = self.share.get(osd, 0.0)
        return has / share if share > 0 else float("inf") if has > 0 else 0.0

    def full(self, osd: int) -> float:
        """How full an OSD is."""
        return self.ratio(self.has.get(osd, 0), osd)

    def peak(self, at: int) -> float:
        """How full a step makes an OSD at most, beside all that comes in the part."""
        return self.worst(self.high, at)

    def worst(self, has: Mapping[int, float], at: int) -> float:
        """How full a step makes an OSD at most where OSDs have so much."""
        come, size = self.come[at], self.sizes[at]
        if len(come) == 1 and (share := self.share.get(come[0], 0.0)) > 0:
            return (has.get(come[0], 0) + size) / share
        return max((self.ratio(has.get(osd, 0) + size, osd) for osd in come), default=0.0)

    def in_order(self, rank: Sequence[int], most: int, ahead: int) -> list[list[PlanStep]]:
        """Takes steps in the order of these numbers, in parts of at most so many commands. A part ends before the first
        step that may not come, unless another of so many that are next may; one that may come into none stands alone.
        """
        found, left, begin = list[list[PlanStep]](), list(rank), 0
        while begin < len(left):
            self.begin()
            part, count, at, passed = list[int](), 0, begin, list[int]()
            while at < len(left) and len(passed) <= ahead and count < most:
                own, commands = left[at], len(self.steps[left[at]].commands)
                if self.is_allowed(own) and (not part or count + commands <= most):
                    self.take(own)
                    part.append(own)
                    count += commands
                else:
                    passed.append(own)
                at += 1
            begin = at - len(passed)
            left[begin:at] = passed
            if not part:
                part, begin = [left[begin]], begin + 1
                self.take(part[0])
            found.append([self.steps[own] for own in part])
        return found

    def of(self, steps: list[PlanStep]) -> StepOrder:
        """Some of the steps, before any is taken."""
        spread, sizes, _, first, limits = self.given
        found = StepOrder(spread, sizes, steps, first, limits)
        found.limit(self.busy.most)
        return found

    def limit(self, most: MostBusy) -> None:
        """OSDs and hosts take part in no more moves of a part than this from now on."""
        self.busy = Busy(most)
        if most.is_any:
            self.partakers = [partakers(step.was, come) for step, come in zip(self.steps, self.come)]

    def is_allowed(self, at: int) -> bool:
        """Whether a step may come into the part."""
        if self.busy.is_counted and not self.busy.lets(self.partakers[at]):
            return False
        if self.limits:
            return not self.over(at)
        high, most = self.high, self.most
        for osd in self.come[at]:
            if high.get(osd, 0) > most[osd]:
                return False
        return self.worst(high, at) <= self.bound

    def begin(self) -> None:
        """A part begins."""
        self.high, self.busy, self.shut = dict(self.has), Busy(self.busy.most), set()
        self.bound = max(self.fullest(), EVEN) + ROUNDING

    def over(self, at: int) -> list[int]:
        """The OSDs that a step would fill too far, beside all that comes in the part."""
        size, limits = self.sizes[at], self.limits
        return [osd for osd in self.come[at] if osd in limits and self.high.get(osd, 0) + size > limits[osd]]

    def next_from(self, osd: int, first: bool) -> int | None:
        """The step from an OSD that comes next in the part, or None where none may come: that to the emptiest OSD, of
        those that may come and by which the fullest OSD gets no fuller. One that may not come now may not come later in
        the part.
        """
        level, come, shut, left = self.level, self.come, self.shut, self.left
        own = self.leaving[osd] = [at for at in self.leaving[osd] if at in left]
        free = [at for at in own if at not in shut and (at in self.first or not first)] if first or shut else own
        if not free:
            return None
        most = self.fullest() + ROUNDING if self.rises < MOST_RISES else float("inf")
        for _, at in sorted([(level[to[0]] if len(to := come[at]) == 1 else self.highest(at), at) for at in free]):
            if self.filled(at) <= most:
                if self.is_allowed(at):
                    return at
                shut.add(at)
        return None

    def highest(self, at: int) -> float:
        """How full the fullest of the OSDs is to which a step leads."""
        return max([self.level[osd] for osd in self.come[at]], default=0.0)

    def take(self, at: int) -> None:
        """Takes a step."""
        has, level, high, size = self.has, self.level, self.high, self.sizes[at]
        self.left.discard(at)
        self.shift(has, at)
        for osd in self.come[at] + self.go[at]:
            share = self.share.get(osd, 0.0)
            level[osd] = own = has[osd] / share if share > 0 else self.full(osd)
            if share > 0:
                heappush(self.tops, (-own, osd))
        for osd in self.come[at]:
            high[osd] = high.get(osd, 0) + size
        if self.busy.is_counted:
            self.busy.take(self.partakers[at])

    def part(self, most: int) -> list[PlanStep]:
        """The next part, with at most so many commands, or one step with more. Where no step may come, the one that
        fills least; none, where that would fill an OSD too far.
        """
        self.begin()
        found: list[int] = []
        if not self.first.isdisjoint(self.left):
            self.take_some(found, most, True)
        if not found or self.limits:
            self.take_some(found, most, False)
        if not found and not self.limits:
            found = [min(self.left, key=lambda at: (self.peak(at), at))]
            self.take(found[0])
        return [self.steps[at] for at in found]

    def take_some(self, found: list[int], most: int, first: bool) -> None:
        """Takes steps of a part, of those that come first or of all, until it has so many commands."""
        count = sum(len(self.steps[at].commands) for at in found)
        for at in self.ordered(first):
            count += len(self.steps[at].commands)
            if found and count > most:
                return
            self.take(at)
            found.append(at)

    def ordered(self, first: bool) -> Iterator[int]:
        """The steps that come into the part one after the other, each of which is taken before the next is asked for:
        those by which the fullest OSD gets no fuller as long as there are any.
        """
        heap, has_taken = self.by_fullness(), False
        while heap:
            key, osd = heappop(heap)
            at = self.next_from(osd, first) if -key == self.level[osd] else None
            if at is None and not heap and not has_taken:
                at = self.rising(first)
                self.rises += 1
                self.has_risen |= at is not None
            if at is not None:
                yield at
                has_taken = True
                for other in self.come[at] + self.go[at]:
                    if other in self.leaving:
                        heappush(heap, (-self.level[other], other))
            if not heap and has_taken:
                heap, has_taken = self.by_fullness(), False

    def by_fullness(self) -> list[tuple[float, int]]:
        """The OSDs from which steps are left, as a heap, the fullest first."""
        heap = [(-self.level[osd], osd) for osd, own in self.leaving.items() if not self.left.isdisjoint(own)]
        heapify(heap)
        return heap

    def rising(self, first: bool) -> int | None:
        """The step that may come into the part and fills least, where the fullest OSD gets fuller by each."""
        own = self.left & self.first if first else self.left
        ranked = [(self.filled(at), at) for at in own if self.is_allowed(at)]
        return min(ranked)[1] if ranked else None

    def filled(self, at: int) -> float:
        """How full a step makes an OSD at most."""
        return self.worst(self.has, at)

    def fullest(self) -> float:
        """How full the fullest OSD is now, or at the end."""
        tops, level = self.tops, self.level
        while tops and tops[0][0] != -level[tops[0][1]]:
            heappop(tops)
        return max(-tops[0][0] if tops else 0.0, self.end)

    def stopped(self) -> dict[int, int]:
        """The OSDs that would be filled too far by steps that are still to be taken, each with how many of these."""
        return Counter(osd for at in self.left for osd in self.over(at))


def parts_in_order(order: StepOrder, most: int, is_one: bool) -> list[list[PlanStep]]:
    """The steps of a plan in parts of at most so many commands, in the order in which they are taken, or those of one
    part; the steps from which no OSD gets emptier stand at the end. Those are left that would fill a disk too far.
    """
    found: list[list[PlanStep]] = []
    while order.left and (not found or not is_one):
        part = order.part(most)
        if not part:
            break
        found.append(part)
    rest = [step for step, osds in zip(order.steps, order.go) if not osds]
    return found + [own for part in batches(rest, most) for own in limited(part, order.busy.most)]


def limited(steps: list[PlanStep], most: MostBusy) -> list[list[PlanStep]]:
    """Steps in their order, in parts in which no OSD and no host takes part in more moves than it may."""
    found, busy = [list[PlanStep]()], Busy(most)
    for step in steps:
        own = partakers(step.was, step.places_come())
        if found[-1] and not busy.lets(own):
            found.append([])
            busy = Busy(most)
        busy.take(own)
        found[-1].append(step)
    return [part for part in found if part]
