"""How full the fullest OSD stays whatever a plan does.

Two bounds are reckoned, and the greater one counts. By the first all bytes of all pools are parts as small as one
likes, but no failure domain takes more than one place of each group. By the second the groups of one pool are whole,
and the OSDs have nothing else. Pools that have no plan stay where they are, in both.
"""

from __future__ import annotations

from collections import deque
from collections.abc import Callable, Iterable, Mapping
from functools import partial
from typing import Any

# How near a bound is found.
NEAR = 1e-4
# An edge of a network: from where, to where, and how much it takes.
Edge = tuple[Any, Any, float]
SOURCE, SINK = "source", "sink"


class Network:
    """A network from a source to a sink, and the greatest flow through it."""

    def __init__(self, edges: Iterable[Edge]) -> None:
        self.left: dict[Any, dict[Any, float]] = {SOURCE: {}, SINK: {}}
        for one, other, most in edges:
            self.left.setdefault(one, {}).setdefault(other, 0.0)
            self.left.setdefault(other, {}).setdefault(one, 0.0)
            self.left[one][other] += most

    def levels(self) -> dict[Any, int]:
        """How far each node is from the source."""
        found, left = {SOURCE: 0}, deque([SOURCE])
        while left:
            node = left.popleft()
            for other, most in self.left[node].items():
                if most > 1e-9 and other not in found:
                    found[other] = found[node] + 1
                    left.append(other)
        return found

    def push(self, levels: Mapping[Any, int]) -> float:
        """What goes through by one more way along the levels; 0 where there is none."""
        way, dead = [SOURCE], set[Any]()
        while way[-1] != SINK:
            node = way[-1]
            there = (
                other
                for other, most in self.left[node].items()
                if most > 1e-9 and levels.get(other) == levels[node] + 1 and other not in dead
            )
            other = next(there, None)
            if other is not None:
                way.append(other)
                continue
            dead.add(way.pop())
            if not way:
                return 0.0
        most = min(self.left[one][other] for one, other in zip(way, way[1:]))
        for one, other in zip(way, way[1:]):
            self.left[one][other] -= most
            self.left[other][one] += most
        return most

    def flow(self) -> float:
        """The greatest flow."""
        total = 0.0
        while SINK in (levels := self.levels()):
            while (more := self.push(levels)) > 0:
                total += more
        return total


def least_for(fits: Callable[[float], bool]) -> float:
    """From which ratio on all fits."""
    low, high = 0.0, 1.0
    while not fits(high):
        low, high = high, 2 * high
        if high > 1000:
            return high
    while high - low > NEAR:
        middle = (low + high) / 2
        low, high = (low, middle) if fits(middle) else (middle, high)
    return high


class Places:
    """The places of a pool that a plan may move: by block and by the buckets that a group does not leave, how many
    there are, of how many groups, and the failure domains with the OSDs of each."""

    def __init__(self, blocks: Iterable[Any], sets: Iterable[list[int]], osds: Iterable[int]) -> None:
        self.count: dict[Any, int] = {}
        self.groups: dict[Any, int] = {}
        self.domains: dict[Any, dict[int, set[int]]] = {}
        own, held = [*blocks], set(osds)
        for at, block in enumerate(own):
            for osd in held & block.osds & block.domains.keys():
                there = self.domains.setdefault((at, block.beside[osd]), {})
                there.setdefault(block.domains[osd], set()).add(osd)
        for osds_of in sets:
            keys = [
                (at, block.beside[osd])
                for osd in osds_of
                if osd in held
                for at, block in enumerate(own)
                if osd in block.osds
            ]
            for key in keys:
                self.count[key] = self.count.get(key, 0) + 1
            for key in set(keys):
                self.groups[key] = self.groups.get(key, 0) + 1

    def edges(self, name: Any, size: float) -> Iterable[Edge]:
        """The edges from the source to the OSDs, where each place counts so much."""
        for key, count in self.count.items():
            yield SOURCE, (name, key), count * size
            for domain, osds in self.domains.get(key, {}).items():
                yield (name, key), (name, key, domain), self.groups[key] * size
                for osd in osds:
                    yield (name, key, domain), osd, count * size

    def total(self) -> int:
        """How many places there are."""
        return sum(self.count.values())


class Least:
    """The bounds of a cluster: of each pool its places and what one of them holds, what OSDs are to have, and what they
    have of pools that stay."""

    def __init__(
        self, pools: Mapping[int, tuple[Places, float]], want: Mapping[int, float], fixed: Mapping[int, float]
    ):
        self.pools, self.want, self.fixed = pools, want, fixed

    def room(self, osd: int, ratio: float) -> float:
        """What an OSD may have of pools that move, where it is so full."""
        return max(ratio * self.want[osd] - self.fixed.get(osd, 0.0), 0.0)

    def fits_in_parts(self, ratio: float) -> bool:
        """Whether all bytes fit, by parts as small as one likes."""
        edges = [edge for number, (places, size) in self.pools.items() for edge in places.edges(number, size)]
        whole = sum(places.total() * size for places, size in self.pools.values())
        edges += [(osd, SINK, self.room(osd, ratio)) for osd in self.want]
        return Network(scaled(edges, whole)).flow() >= 1 - 1e-6

    def fits_in_groups(self, number: int, ratio: float) -> bool:
        """Whether the places of one pool fit, each whole."""
        places, size = self.pools[number]
        edges = [*places.edges(number, 1), *((osd, SINK, self.room(osd, ratio) // size) for osd in self.want)]
        return Network(edges).flow() >= places.total() - 0.5

    def bound(self) -> float:
        """The least ratio of the fullest OSD."""
        full = [self.fixed.get(osd, 0.0) / own for osd, own in self.want.items()]
        each = [least_for(partial(self.fits_in_groups, number)) for number in self.pools]
        return max([least_for(self.fits_in_parts), *each, *full])


def scaled(edges: Iterable[Edge], whole: float) -> list[Edge]:
    """Edges as parts of a whole."""
    return [(one, other, most / whole) for one, other, most in edges]
