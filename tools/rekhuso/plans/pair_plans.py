"""The greedy plan of a pool whose rule has several blocks, of which the program plans none.

The next move is that between the two OSDs of a block that differ most, of several the lowest; then of the lowest group
that may go. Each is one more pair of its group, and the program tells what it does.
"""

from __future__ import annotations

from collections.abc import Iterator

from ..program.maps import Pool, entries_of
from .blocks import Block, MapBlocks
from .loads import GROUP_PARTS
from .pool_places import PoolPlaces
from .rounds import Live
from .single_moves import moved_by_pair

# A move: how far the two OSDs differ, below 0, and which they are. How many of the OSDs at either end are tried first.
Way = tuple[int, int, int]
FEW = 16


class PairPlanner:
    """Plans pools by pairs. Where the blocks of a map are is kept."""

    def __init__(self) -> None:
        """Knows no map yet."""
        self.kept: dict[int, tuple[Live, MapBlocks]] = {}

    def blocks(self, live: Live, pool: Pool) -> list[Block]:
        """The blocks of a pool's rule; none where it has one, or where an OSD stands below two takes."""
        if live.has_one_block(pool):
            return []
        if id(live) not in self.kept:
            self.kept[id(live)] = live, MapBlocks(live.value)
        return self.kept[id(live)][1].of_pool(pool)

    def places(self, live: Live, pool: Pool) -> PoolPlaces:
        """Where the groups of a pool lie, whose OSDs are all up. Those with explicit sets are not moved."""
        pairs: dict[str, list[list[int]]] = dict(entries_of(live.session.dump(), "pg_upmap_items"))
        explicit, ups = {group for group, _ in entries_of(live.value, "pg_upmap")}, live.session.pool_ups([pool])
        own = PoolPlaces(live, pool, self.blocks(live, pool), list(ups.values()), pairs)
        own.fixed = {at for at, group in enumerate(ups) if group in explicit}
        return own

    def plan(self, live: Live, pool: Pool, above: dict[int, int], apart: int, most: int) -> int:
        """Makes at most so many moves of a pool between OSDs that differ by more than so many parts of a group, where
        each is so far above its share, and tells how many there are.
        """
        shut: set[tuple[int, int, int]] = set()
        with live.all_up():
            own = self.places(live, pool)
            for moves in range(most):
                way = next((way for way in ways(own.blocks, above, apart) if goes(own, way, shut)), None)
                if way is None:
                    return moves
                above[way[1]] -= GROUP_PARTS
                above[way[2]] += GROUP_PARTS
        return most


def ways(blocks: list[Block], above: dict[int, int], apart: int) -> Iterator[Way]:
    """The moves that bring two OSDs nearer to their shares, the best first: of those that are farthest from these, and
    then of all.
    """
    ranked = [sorted((own, osd) for osd, own in above.items() if osd in block.osds) for block in blocks]
    for few in (FEW, len(above)):
        found = [
            (less - more, leaves, comes)
            for own in ranked
            for more, leaves in own[-few:]
            for less, comes in own[:few]
            if more - less > apart
        ]
        yield from sorted(found)


def goes(own: PoolPlaces, way: Way, shut: set[tuple[int, int, int]]) -> bool:
    """Whether a group has gone from an OSD to another. What has not is not tried again."""
    _, leaves, comes = way
    for group in sorted(own.on.get(leaves, ())):
        key = group, leaves, comes
        if key in shut or not own.may_go(group, leaves, comes) or not own.would_stay(group, leaves, comes):
            continue
        if moved_by_pair(own, group, leaves, comes) is not None:
            own.put(group, leaves, comes)
            return True
        shut.add(key)
    return False
