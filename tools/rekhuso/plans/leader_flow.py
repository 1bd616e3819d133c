"""Which OSD of each group leads it, so that leads are even at the fewest changes: a flow of least cost.

A group is led by one of its OSDs. In each pool an OSD leads from the floor to the ceiling of its share, and over all
pools from the floor to the ceiling of the sum of its shares. If each group were led in part by each of its OSDs, every
share would be met; so where every OSD may lead, whole numbers within all bounds are there. Where some may not, first as
few leads as can be lie beyond the bounds of a pool, then as few beyond those of the sum, and then as few groups as can
be change.

It begins with the leaders of now. What lies beyond bounds is sent, lead by lead, on the cheapest way to where leads are
lacking (successive shortest paths): a way goes from OSD to OSD of a pool by a group that both have, and between pools
by an OSD that stands in both.
"""

from __future__ import annotations

import heapq
import math
from collections.abc import Iterator, Mapping
from dataclasses import dataclass
from fractions import Fraction

from ..values import SLOTS

# What a lead costs beyond the bounds of a pool and beyond those of the sum, where a change of a leader costs 1.
IN_POOL, IN_SUM = 1 << 48, 1 << 24


@dataclass(frozen=True, **SLOTS)
class LeaderChoice:
    """A group of a pool: who leads it now, and who may in its place."""

    pool: int
    leader: int
    others: tuple[int, ...]

    def cost(self, osd: int) -> int:
        """What it costs that an OSD leads it."""
        return int(osd != self.leader)


class Bounds:
    """How many leads something has, of how many at least and at most, and what one more or less costs."""

    def __init__(self, share: Fraction, price: int) -> None:
        """Takes the share, and the price beyond it."""
        self.least, self.most, self.price, self.has = math.floor(share), math.ceil(share), price, 0

    def begin(self, count: int) -> int:
        """Has as many of so many leads as the bounds let it; answers how many are over, below 0 where some lack."""
        self.has = min(max(count, self.least), self.most)
        return count - self.has

    def more(self) -> int:
        """What one more costs."""
        return -self.price if self.has < self.least else self.price if self.has >= self.most else 0

    def less(self) -> int:
        """What one less costs."""
        return -self.price if self.has > self.most else self.price if self.has <= self.least else 0


class LeaderFlow:
    """The leaders of groups. Leads are at nodes: an OSD in a pool, an OSD over all pools, and behind these the end."""

    def __init__(self, choices: Mapping[str, LeaderChoice], shares: Mapping[int, Mapping[int, Fraction]]) -> None:
        """Takes the groups, and the share of each OSD that may lead in each pool."""
        self.choices, self.leaders = choices, {group: own.leader for group, own in choices.items()}
        places = [(pool, osd) for pool, own in sorted(shares.items()) for osd in sorted(own)]
        osds = sorted({osd for _, osd in places})
        self.node, self.places = {place: at for at, place in enumerate(places)}, places
        self.sum_of = {osd: len(places) + at for at, osd in enumerate(osds)}
        self.end = len(places) + len(osds)
        self.nodes_of: dict[int, list[int]] = {node: [] for node in self.sum_of.values()}
        sums = dict.fromkeys(osds, Fraction(0))
        for at, (pool, osd) in enumerate(places):
            self.nodes_of[self.sum_of[osd]].append(at)
            sums[osd] += shares[pool][osd]
        self.bounds = [Bounds(shares[pool][osd], IN_POOL) for pool, osd in places]
        self.bounds += [Bounds(sums[osd], IN_SUM) for osd in osds]
        self.led: list[dict[str, None]] = [{} for _ in places]
        for group, own in choices.items():
            self.led[self.node[own.pool, own.leader]][group] = None
        self.height, self.over = [0] * (self.end + 1), [0] * (self.end + 1)
        self.begin()

    def begin(self) -> None:
        """Finds what lies beyond the bounds of now."""
        for at, own in enumerate(self.led):
            self.over[at] = self.bounds[at].begin(len(own))
        for at, nodes in self.nodes_of.items():
            self.over[at] = self.bounds[at].begin(sum(self.bounds[node].has for node in nodes))
        self.over[self.end] = sum(self.bounds[at].has for at in self.nodes_of) - len(self.choices)

    def ways(self, at: int) -> Iterator[tuple[int, int, str | None]]:
        """The ways from a node: to which, at which cost, and by which group, if by one."""
        if at == self.end:
            yield from ((node, self.bounds[node].less(), None) for node in self.nodes_of if self.bounds[node].has)
        elif at in self.nodes_of:
            yield self.end, self.bounds[at].more(), None
            yield from ((node, self.bounds[node].less(), None) for node in self.nodes_of[at] if self.bounds[node].has)
        else:
            pool, osd = self.places[at]
            yield self.sum_of[osd], self.bounds[at].more(), None
            for group in self.led[at]:
                own = self.choices[group]
                for other in (own.leader, *own.others):
                    if other != osd:
                        yield self.node[pool, other], own.cost(other) - own.cost(osd), group

    def way(self) -> list[tuple[int, int, str | None]]:
        """The steps of the cheapest way from where leads are over to where they lack; none where nothing is over. The
        heights of nodes are such that no way costs less than 0 beside their difference.
        """
        height, over = self.height, self.over
        far = {node: -height[node] for node, count in enumerate(over) if count > 0}
        came: dict[int, tuple[int, int, str | None]] = {}
        heap, done = [(own, node) for node, own in far.items()], dict[int, int]()
        heapq.heapify(heap)
        while heap:
            so_far, node = heapq.heappop(heap)
            if node in done:
                continue
            done[node] = so_far
            if over[node] < 0:
                for own, distance in done.items():
                    height[own] += distance - so_far
                return steps_to(came, node)
            own = so_far + height[node]
            for other, cost, group in self.ways(node):
                there = own + cost - height[other]
                if other not in done and there < far.get(other, there + 1):
                    far[other], came[other] = there, (node, other, group)
                    heapq.heappush(heap, (there, other))
        return []

    def step(self, at: int, to: int, group: str | None) -> None:
        """Sends a lead one step."""
        if group is not None:
            del self.led[at][group]
            self.led[to][group], self.leaders[group] = None, self.places[to][1]
        elif at < to:
            self.bounds[at].has += 1
        else:
            self.bounds[to].has -= 1

    def run(self) -> dict[str, int]:
        """The leaders, once nothing is beyond bounds that need not be."""
        steps = self.way()
        while steps:
            for step in steps:
                self.step(*step)
            self.over[steps[0][0]] -= 1
            self.over[steps[-1][1]] += 1
            steps = self.way()
        return self.leaders


def steps_to(came: Mapping[int, tuple[int, int, str | None]], node: int) -> list[tuple[int, int, str | None]]:
    """The steps by which a node was reached, from the first on."""
    found = []
    while node in came:
        found.append(came[node])
        node = came[node][0]
    return found[::-1]


def even_leaders(choices: Mapping[str, LeaderChoice], shares: Mapping[int, Mapping[int, Fraction]]) -> dict[str, int]:
    """Who leads each group, so that leads are even at the fewest changes."""
    return LeaderFlow(choices, shares).run()
