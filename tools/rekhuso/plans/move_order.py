"""The order of a greedy plan's moves, and how even a pool is after each of them.

The program tells a plan as the pairs that it appends to each group. Which move came first follows from the definition:
a group's moves come in their order, each move changes its own group's set alone, and the plan always takes the move
with the greatest difference of deviations; of several the one from the lowest OSD, then to the lowest, then of the
lowest group.
"""

from __future__ import annotations

from collections import defaultdict
from fractions import Fraction
from heapq import heappop, heappush
from math import floor
from typing import Iterable

from ..program.maps import group_key

PairsByGroup = dict[str, list[list[int]]]


class Deviations:
    """How far the candidates of a pool are from their shares. An OSD with c groups, the weight w and x 256ths of a
    group that it carries deviates by 256 * (c * T - N * w) + x * T, where T is the sum of all weights and N that of all
    groups: 256 * T such parts are one group.
    """

    def __init__(self, weights: dict[int, int], counts: dict[int, int], loads: dict[int, int]) -> None:
        """Of candidates with these weights, with so many groups of the pool as the counts tell, else 0, and that carry
        so much, else nothing.
        """
        whole = sum(weights.values())
        self.total, groups = 256 * whole, sum(counts.get(osd, 0) for osd in weights)
        self.passed: frozenset[int] = frozenset()
        self.parts = {
            osd: 256 * (counts.get(osd, 0) * whole - groups * weight) + loads.get(osd, 0) * whole
            for osd, weight in weights.items()
        }

    def move(self, leaves: int, comes: int) -> None:
        """A group goes from one candidate to another."""
        self.parts[leaves] -= self.total
        self.parts[comes] += self.total

    def far(self, osds: Iterable[int], most: Fraction) -> set[int]:
        """Those of some candidates that are farther than so many groups from their shares, but for those that take no
        groups.
        """
        parts = floor(most * self.total)
        return {osd for osd in osds if abs(self.parts[osd]) > parts and osd not in self.passed}


class MoveOrder:
    """The moves of a plan that are still to come, the next of each group at the front, and of these the best first.
    A place in the heap is a move as it once was: a move that has become better gets another, one that has become
    worse is put back when it is met.
    """

    def __init__(self, deviations: Deviations, plan: PairsByGroup) -> None:
        """Of a plan, where the deviations are those before it; they go on with each move."""
        self.deviations, self.plan = deviations, plan
        self.places = {group: group_key(group) for group in plan}
        self.done = dict.fromkeys(plan, 0)
        self.leaving: defaultdict[int, set[str]] = defaultdict(set)
        self.coming: defaultdict[int, set[str]] = defaultdict(set)
        self.heap: list[tuple[int, int, int, tuple[int, int], str]] = []
        for group in plan:
            self.add(group)

    def entry(self, group: str) -> tuple[int, int, int, tuple[int, int], str]:
        """The next move of a group, in the order in which moves are taken."""
        leaves, comes = self.plan[group][self.done[group]]
        return self.deviations.parts[comes] - self.deviations.parts[leaves], leaves, comes, self.places[group], group

    def add(self, group: str) -> None:
        """Puts the next move of a group among the others, where it has one."""
        if self.done[group] < len(self.plan[group]):
            leaves, comes = self.plan[group][self.done[group]]
            self.leaving[leaves].add(group)
            self.coming[comes].add(group)
            heappush(self.heap, self.entry(group))

    def best(self) -> str | None:
        """The group of the best move, or None where no move is left."""
        while self.heap:
            was = heappop(self.heap)
            group = was[-1]
            if self.done[group] == len(self.plan[group]):
                continue
            now = self.entry(group)
            if now == was:
                return group
            if now > was:
                heappush(self.heap, now)
        return None

    def take(self) -> tuple[int, int] | None:
        """Takes the best move, and tells the OSD that is left and the one that comes; None where no move is left."""
        group = self.best()
        if group is None:
            return None
        leaves, comes = self.plan[group][self.done[group]]
        self.leaving[leaves].discard(group)
        self.coming[comes].discard(group)
        self.deviations.move(leaves, comes)
        self.done[group] += 1
        self.add(group)
        for other in self.coming[leaves] | self.leaving[comes]:
            heappush(self.heap, self.entry(other))
        return leaves, comes


def moves_within(deviations: Deviations, plan: PairsByGroup, most: Fraction) -> int | None:
    """How many moves of a plan come until every candidate is within so many groups of its share; None where all of
    them do not do it. The deviations are those before the plan, and afterwards those after these moves.
    """
    moves, order = 0, MoveOrder(deviations, plan)
    far = deviations.far(deviations.parts, most)
    while far:
        move = order.take()
        if move is None:
            return None
        moves += 1
        far = far.difference(move) | deviations.far(move, most)
    return moves
