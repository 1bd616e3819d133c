"""The best exchanges of two groups between two OSDs, without a look at each two groups.

What an exchange gains depends on how much more goes than comes back, and on nothing else: most where that is best for
the two OSDs, and less the farther it is from that. What may go at most, so that all stays as even as it was, has one
bound. So of the groups that may come back the nearest to the best are looked at first, and no others once as many
exchanges as are tried gain more.
"""

from __future__ import annotations

from bisect import bisect_left, insort
from collections.abc import Callable, Iterable

from .fullness import Fullness

# How many of the sizes that are nearest to the best one, on either side, are looked at of each pool.
NEAREST = 2
# What is lost by an exchange, the pool of which something goes and the OSD to which it goes, how much that is, and the
# pool of which something comes back, and how much.
Exchange = tuple[float, int, int, int, int, int]
# What comes back, and the pool of which it is.
Entry = tuple[int, int]


class BestExchanges:
    """The best of some exchanges, so many of them, in their order."""

    def __init__(self, most: int) -> None:
        """Takes how many are wanted."""
        self.most, self.found = most, list[Exchange]()

    def put(self, exchange: Exchange) -> None:
        """One more exchange."""
        insort(self.found, exchange)
        del self.found[self.most :]

    def is_beaten(self, gain: float) -> bool:
        """Whether all that are wanted gain more."""
        return len(self.found) == self.most and gain < -self.found[-1][0]


class Backs:
    """What may come back from an OSD, of several pools."""

    def __init__(self, pools: Iterable[tuple[int, list[int]]]) -> None:
        """Takes pools, each with what its places hold there, each size once."""
        self.entries: list[Entry] = sorted((size, pool) for pool, sizes in pools for size in sizes)
        self.sizes = [size for size, _ in self.entries]

    def nearest(self, middle: float) -> tuple[range, range]:
        """Which entries hold no less than so much, and which hold less, the nearest first."""
        at = bisect_left(self.sizes, middle)
        return range(at, len(self.entries)), range(at - 1, -1, -1)


class Limit:
    """How much may go from an OSD to another, where of two sizes the smaller may go if the greater may."""

    def __init__(self, may_go: Callable[[int], bool]) -> None:
        """Takes what tells of a size whether so much may go, and is asked as seldom as can be."""
        self.may_go, self.most, self.least_not = may_go, -1, float("inf")

    def lets(self, size: int) -> bool:
        """Whether so much may go."""
        if self.most < size < self.least_not:
            if self.may_go(size):
                self.most = size
            else:
                self.least_not = size
        return size <= self.most


class OsdPair:
    """Two OSDs between which groups change places: a full one and an emptier one."""

    def __init__(self, full: Fullness, leaves: int, comes: int, limit: Limit) -> None:
        """Takes how full OSDs are, the two, and by how much more may go than comes back."""
        self.full, self.leaves, self.comes, self.limit = full, leaves, comes, limit
        self.best = full.best_size(leaves, comes)

    def gain(self, more: float) -> float:
        """What is gained where so much more goes than comes back."""
        return self.full.gain(self.leaves, self.comes, more)

    def put(self, found: BestExchanges, pool: int, size: int, backs: Backs) -> None:
        """Puts exchanges by which so much goes of a pool to those that are found, as far as they are among the best: of
        each pool that comes back a few at either side of the best.
        """
        for places in backs.nearest(size - self.best):
            seen = dict[int, int]()
            for less, other in map(backs.entries.__getitem__, places):
                gain = self.gain(size - less)
                if gain <= 0 or found.is_beaten(gain):
                    break
                seen[other] = count = seen.get(other, 0) + 1
                if count <= NEAREST and self.limit.lets(size - less):
                    found.put((-gain, pool, self.comes, size, other, less))
