"""MAX AVAIL of pools, as `ceph df` tells it, which no plan makes less.

A pool may take as much more as its fullest OSD has left, to that OSD's weight. So each OSD may be filled up to where it
would be the one that ends the room of one of its pools sooner than before.
"""

from __future__ import annotations

from collections.abc import Iterable, Mapping, Sequence
from heapq import heapify, heappop, heappush

from ..cluster.evenness import FULL, Spread
from ..cluster.pool_data import Data
from .mend import Gauge
from .rounds import Live
from .steps import PlanStep

# By which part of it MAX AVAIL may be less at the end of a plan, and what is no more than rounding, of what is full.
LESS, ROUNDING = 0.001, 1e-9


class WeighedTree:
    """OSDs that have a part of a pool's places: what each weighs, and what it holds when it is full."""

    def __init__(self, weights: Mapping[int, int], full: Mapping[int, float]) -> None:
        """Takes the weights, which are above 0."""
        self.weights, self.full, self.total = weights, full, sum(weights.values())

    def left(self, osd: int, used: Mapping[int, float]) -> float:
        """What all may take until an OSD is full, below 0 where it is."""
        return (self.full[osd] - used.get(osd, 0)) * self.total / self.weights[osd]

    def most(self, osd: int, least: float) -> float:
        """Up to where an OSD may be filled so that all may take so much."""
        found = self.full[osd] - least * self.weights[osd] / self.total
        return found + ROUNDING * (abs(self.full[osd]) + abs(found))

    def least(self, used: Mapping[int, float]) -> float:
        """What all may take until the first is full."""
        return min((self.left(osd, used) for osd in self.weights), default=0.0)


class MaxAvail:
    """What pools may take, by the trees of their rules; those with the same trees as one."""

    def __init__(self, trees: Mapping[int, Sequence[WeighedTree]], rates: Mapping[int, float]) -> None:
        """Takes the trees of each pool, and the bytes that it takes for one that is stored."""
        self.trees, self.rates = trees, rates
        self.apart = list({tuple(map(id, own)): own for own in trees.values()}.values())

    def of(self, number: int, used: Mapping[int, float]) -> float:
        """What a pool may take where OSDs have so much in use."""
        return max(raw_of(self.trees[number], used), 0.0) / self.rates[number]

    def most(self, used: Mapping[int, float]) -> dict[int, float]:
        """Up to where each OSD may be filled so that no pool may take less than where OSDs have so much in use."""
        found: dict[int, float] = {}
        for trees in self.apart:
            least = raw_of(trees, used)
            for tree in trees:
                for osd in tree.weights:
                    most = tree.most(osd, least)
                    found[osd] = min(found.get(osd, most), most)
        return found

    def falls(
        self, used: Mapping[int, float], sizes: Mapping[str, float] | None, steps: Sequence[PlanStep]
    ) -> list[float]:
        """By which part of it the pool that loses most may take less, before some steps and after each; below 0 where
        all may take more.
        """
        found = [-float("inf")] * (len(steps) + 1)
        for trees in self.apart:
            first, *rest = least_on_the_way(trees, used, sizes, steps)
            more = ((first - now) / abs(first) if first else 0.0 for now in (first, *rest))
            found = [max(pair) for pair in zip(found, more)]
        return found

    def is_kept(self, before: Mapping[int, float], after: Mapping[int, float]) -> bool:
        """Whether no pool may take less afterwards, but for a thousandth."""
        pairs = ((raw_of(trees, before), raw_of(trees, after)) for trees in self.apart)
        return all(now >= was - LESS * abs(was) for was, now in pairs)


def raw_of(trees: Sequence[WeighedTree], used: Mapping[int, float]) -> float:
    """What the pools of some trees may take of all OSDs, below 0 where one is full."""
    return min((tree.least(used) for tree in trees), default=0.0)


def sizes_of(weights: Mapping[int, int], data: Data | None) -> dict[int, float]:
    """What OSDs of some weights hold, as far as their disks tell or else the weights; nothing where nobody tells."""
    if data is None:
        return dict.fromkeys(weights, 0.0)
    unit = data.unit(weights.values())
    return {osd: float(data.disks[osd].size) if osd in data.disks else own * unit for osd, own in weights.items()}


def max_avail(lives: Sequence[Live], data: Data | None) -> MaxAvail:
    """MAX AVAIL of all pools of a cluster; its disks are as large as they weigh where they are not known. Where nobody
    tells what pools hold, OSDs are told apart by their groups alone, as though nothing were free.
    """
    weights = {osd: own for live in lives for osd, own in live.before.items.items() if osd >= 0}
    sizes, kept, found = sizes_of(weights, data), dict[int, WeighedTree](), dict[int, list[WeighedTree]]()
    rates: dict[int, float] = {}
    for live in lives:
        for number, pool in live.pools.items():
            rates[number] = 1.0 if data is None else data.rate(pool)
            for tree in live.before.trees_for(pool):
                if id(tree) not in kept:
                    own = {osd: weights[osd] for osd in tree if weights[osd]}
                    kept[id(tree)] = WeighedTree(own, {osd: FULL * sizes[osd] for osd in own})
            found[number] = [kept[id(tree)] for tree in live.before.trees_for(pool)]
    return MaxAvail(found, rates)


class RoomGauge(Gauge):
    """Up to where OSDs may be filled while steps are taken out of a plan."""

    def __init__(self, has: Mapping[int, float], sizes: Mapping[str, float] | None, most: Mapping[int, float]) -> None:
        """Takes what OSDs have before the plan, what a place of each group counts (else 1), and these bounds."""
        super().__init__(Spread(has, {}), sizes, False)
        self.most = most

    def over(self) -> set[int]:
        """The OSDs that are filled further."""
        return {osd for osd, most in self.most.items() if self.has.get(osd, 0) > most}

    def fills(self, osds: Iterable[int], more: float) -> bool:
        """Whether one of some OSDs would be filled further with so much more."""
        return any(osd in self.most and self.has.get(osd, 0) + more > self.most[osd] for osd in osds)


class OnTheWay:
    """The least that pools may take while steps are taken one by one."""

    def __init__(self, trees: Sequence[WeighedTree], used: Mapping[int, float]) -> None:
        """Takes what OSDs have in use before the steps."""
        self.trees, self.used = trees, dict(used)
        self.heap = [(tree.left(osd, used), at, osd) for at, tree in enumerate(trees) for osd in tree.weights]
        heapify(self.heap)

    def put(self, osd: int, more: float) -> None:
        """An OSD has so much more."""
        self.used[osd] = self.used.get(osd, 0) + more
        for at, tree in enumerate(self.trees):
            if osd in tree.weights:
                heappush(self.heap, (tree.left(osd, self.used), at, osd))

    def least(self) -> float:
        """What all may take now."""
        while self.heap and self.heap[0][0] != self.trees[self.heap[0][1]].left(self.heap[0][2], self.used):
            heappop(self.heap)
        return self.heap[0][0] if self.heap else 0.0


def least_on_the_way(
    trees: Sequence[WeighedTree],
    used: Mapping[int, float],
    sizes: Mapping[str, float] | None,
    steps: Iterable[PlanStep],
) -> list[float]:
    """What the pools of some trees may take before some steps and after each."""
    own = OnTheWay(trees, used)
    found = [own.least()]
    for step in steps:
        size = 1.0 if sizes is None else sizes[step.group]
        for osds, more in ((step.comes(), size), (step.leaves(), -size)):
            for osd in osds:
                own.put(osd, more)
        found.append(own.least())
    return found
