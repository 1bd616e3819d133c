"""What OSDs hold in bytes, and what each is to hold.

Where nobody tells the disks, an OSD is to hold its shares of all pools. Where they are known, what is left on OSDs is
to go by their weights, as MAX AVAIL counts it, among those that have pools in common; but for what the shares by which
a plan goes are above those by weight.
"""

from __future__ import annotations

from collections.abc import Iterable, Mapping

from ..cluster.evenness import FULL, Spread
from ..cluster.disks import Disk
from ..cluster.pool_data import BYTE_PARTS, Data
from ..program.answers import Up
from .rounds import Live

# The least part of its disk that an OSD is to hold, and the bits of a disk's size that are more than rounding.
LEAST, GRAIN_BITS = 0.05, 21


def held_in(sizes: list[int], ups: Iterable[Up]) -> dict[int, int]:
    """What each OSD has of a pool, whose groups have these sets, each place with so much."""
    found: dict[int, int] = {}
    for size, up in zip(sizes, ups):
        for osd in set(up.places):
            if osd is not None:
                found[osd] = found.get(osd, 0) + size
    return found


def lay_shares(found: dict[int, float], held: Mapping[int, int], trees: Iterable[Mapping[int, int]]) -> None:
    """Puts what OSDs hold of a pool to the shares of others, tree by tree as these weigh."""
    for tree in trees:
        whole, total = sum(size for osd, size in held.items() if osd in tree), sum(tree.values())
        for osd, weight in tree.items():
            found[osd] = found.get(osd, 0.0) + whole * weight / total


def grain(disk: Disk) -> int:
    """The bytes to which what a disk has beside the pools is taken: a part of two millions of it, or less."""
    return 1 << max(disk.size.bit_length() - GRAIN_BITS, 0)


def base_of(disk: Disk, held: int) -> int:
    """What a disk has beside so much that its pools hold, in parts of a byte: to the nearest grain, so that what files
    tell in whole KiB is the same however much of the pools lies there.
    """
    own = grain(disk) * BYTE_PARTS
    return (2 * (disk.used * BYTE_PARTS - held) + own) // (2 * own) * own


def joined(trees: Iterable[Iterable[int]]) -> list[set[int]]:
    """Sets of OSDs, those with OSDs in common as one."""
    found: list[set[int]] = []
    for osds in trees:
        tree = set(osds)
        near = [own for own in found if own & tree]
        found = [own for own in found if own not in near] + [tree.union(*near)]
    return found


class ByteAims:
    """What a place of each group holds, by its pool and by its name; what OSDs have before a plan, and are to have, in
    bytes; and where the disks are known what they have beside the pools, in parts of a byte.
    """

    def __init__(self, lives: list[Live], data: Data, is_by_weight: bool = False) -> None:
        """Takes the maps of a cluster, what its pools hold, and whether OSDs are to hold what they weigh for, whatever
        plans go by.
        """
        self.sizes: dict[int, list[int]] = {}
        self.groups: dict[str, float] = {}
        held: dict[int, int] = {}
        want: dict[int, float] = {}
        by_weight: dict[int, float] = {}
        trees: list[dict[int, int]] = []
        for live in lives:
            for number, pool in live.pools.items():
                self.sizes[number] = data.sizes(pool)
                self.groups.update(data.group_bytes(pool))
                own = held_in(self.sizes[number], live.before.ups_in(pool))
                for osd, size in own.items():
                    held[osd] = held.get(osd, 0) + size
                trees += live.before.trees_for(pool)
                lay_shares(by_weight, own, live.before.trees_for(pool))
                lay_shares(want, own, live.before.trees_for(pool) if is_by_weight else live.goal_trees(pool))
        numbers = [number for live in lives for number in live.pools]
        self.is_whole = data.is_whole(numbers)
        self.disks = data.disks if self.is_whole else {}
        self.base = {osd: base_of(self.disks[osd], held.get(osd, 0)) for osd in want if self.disks}
        self.has = {osd: (size + self.base.get(osd, 0)) / BYTE_PARTS for osd, size in held.items()}
        self.want = {osd: own / BYTE_PARTS for osd, own in want.items()}
        if self.disks:
            weights = {osd: own for live in lives for osd, own in live.before.items.items() if osd >= 0}
            self.has.update({osd: (held.get(osd, 0) + base) / BYTE_PARTS for osd, base in self.base.items()})
            more = {osd: (own - by_weight.get(osd, 0.0)) / BYTE_PARTS for osd, own in want.items()}
            self.want = self.by_room(joined(trees), weights, more)

    def by_room(self, joint: list[set[int]], weights: Mapping[int, int], more: Mapping[int, float]) -> dict[int, float]:
        """What OSDs are to have so that what is left on them goes by their weights, but for so much more."""
        found: dict[int, float] = {}
        for osds in joint:
            left = sum(FULL * self.disks[osd].size - self.has[osd] for osd in osds)
            rate = left / sum(weights[osd] for osd in osds)
            for osd in osds:
                size = self.disks[osd].size
                found[osd] = max(LEAST * size, FULL * size - rate * weights[osd] + more.get(osd, 0.0))
        return found

    def spread(self) -> Spread:
        """What OSDs have and are to have, in bytes."""
        return Spread(self.has, self.want)

    def limits(self, ratio: float) -> dict[int, float]:
        """The bytes up to which OSDs may be filled, where their disks are known and may be used to this ratio."""
        return {osd: ratio * disk.size - grain(disk) for osd, disk in self.disks.items()}
