"""The pass by groups of a plan by data, behind the last pass: from the OSD that has most groups above its shares of all
pools to those that have few, over all pools at once, one move after the other.

A move lowers the sum of squares that plans lower, where those of the groups over all pools count twice: most by that of
places which hold next to nothing. The sum falls by more than the least move gains when two OSDs differ by twice the
deviation. No OSD gets further above its share by bytes than the last pass leaves it, and pools stay near their shares.
"""

from __future__ import annotations

from collections.abc import Callable, Iterator
from itertools import islice

from .last_pass import LastPass, NEAR
from .loads import GROUP_PARTS, SUM_WEIGHT, WEIGHT
from .pool_places import PoolPlaces

# By how much the sum falls at least by a move, whatever deviation is asked for.
LEAST = 1.0
# To how many of the OSDs with the fewest groups above their shares a group may go.
LOWEST = 32

# A move, the best first: what is lost by it, its pool, the OSD to which something goes, and how much that is.
Way = tuple[float, int, int, int]


class GroupPass:
    """The pass: where the last pass has left all, what a place holds in the mean, and what a move gains at least."""

    def __init__(self, found: LastPass, deviation: float) -> None:
        """Takes what the last pass has left, and the deviation."""
        self.found, self.least = found, max(4 * deviation - 2, LEAST)
        places = sum(len(own.sets) * own.pool["size"] for own in found.pools.values())
        self.mean = sum(sum(own.sizes) * own.pool["size"] for own in found.pools.values()) / max(places, 1)

    def gain(self, number: int, leaves: int, comes: int, size: int) -> float:
        """By how much the sum falls where so much of a pool goes from an OSD to another."""
        laid, above, full = self.found.laid[number], self.found.above, self.found.full
        more, less = (laid.counts.get(osd, 0) * GROUP_PARTS - laid.shares[osd] for osd in (leaves, comes))
        gain = 2 * ((more - less) / GROUP_PARTS - 1) + 2 * SUM_WEIGHT * (
            (above[leaves] - above[comes]) / GROUP_PARTS - 1
        )
        if self.mean:
            far = [(full.load[osd] - full.want[osd]) / self.mean for osd in (leaves, comes)]
            gain += 2 * WEIGHT * size / self.mean * (far[0] - far[1] - size / self.mean)
        return gain

    def low(self, own: PoolPlaces, leaves: int) -> list[int]:
        """The OSDs to which groups of a pool may go from another, of those with fewest groups above their shares."""
        found, block, beside = self.found, own.block_of(leaves), self.found.beside(own, leaves)
        if block is None or not beside or not found.leaving(own, leaves):
            return []
        closed, domains, most = found.closed(own, leaves), block.domains, found.above[leaves] - GROUP_PARTS
        few = islice((osd for osd in found.ranked if osd in beside and found.above[osd] < most), LOWEST)
        return [osd for osd in few if domains[osd] not in closed and found.keeps(own.number, leaves, osd)]

    def ways(self, leaves: int) -> Iterator[Way]:
        """The moves from an OSD that gain enough."""
        full = self.found.full
        for own in self.found.movable:
            sizes = own.sizes_on(leaves) if own.on.get(leaves) else []
            for osd in self.low(own, leaves) if sizes else []:
                room = (1 + NEAR) * full.want[osd] - full.load[osd]
                for size in sizes:
                    gain = self.gain(own.number, leaves, osd, size)
                    if size <= max(room, 0) and gain > self.least and self.found.lets(own, size, leaves, osd):
                        yield -gain, own.number, osd, size

    def has_moved(self, leaves: int) -> bool:
        """Whether something has gone from an OSD, by the best move that there is."""
        found = self.found
        return any(
            found.goes(found.pools[number], size, leaves, osd) is not None
            for _, number, osd, size in sorted(self.ways(leaves))
        )

    def play(self, tell: Callable[[str], None]) -> None:
        """Makes moves until none is left. What nothing could be taken from is tried again where there have been moves
        since.
        """
        found, stuck, since = self.found, set[int](), len(self.found.moves)
        while True:
            left = [(-found.above[osd], osd) for osd in found.full.osds() if osd not in stuck]
            if not left or min(left)[0] >= 0:
                if len(found.moves) == since or not stuck:
                    return
                stuck, since = set(), len(found.moves)
                continue
            leaves = min(left)[1]
            tell(f"pass by groups: {len(found.moves)} moves, osd.{leaves}")
            found.ranked = sorted(found.full.osds(), key=lambda osd: (found.above[osd], osd))
            if not self.has_moved(leaves):
                stuck.add(leaves)
