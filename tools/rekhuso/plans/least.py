"""How full the fullest OSD stays whatever a plan does.

A plan moves whole groups, and gives no failure domain two places of one. So what OSDs can have up to a ratio to their
shares is counted in whole places: of all pools together by groups, and by bytes of each pool that has most, beside what
is not moved. No plan ends below the least ratio at which all places fit, nor below the mean; it need not come so far.
For all pools at once, beside what OSDs weigh, `cluster/joint.py` has a bound.
"""

from __future__ import annotations

import math
from collections.abc import Callable, Collection, Iterable, Mapping, Sequence
from dataclasses import dataclass
from functools import partial

from ..cluster.evenness import sums_by_osd
from ..cluster.pool_data import BYTE_PARTS
from ..values import SLOTS
from .blocks import MapBlocks
from .byte_aims import held_in, joined
from .measures import Measures

# How near a bound is found, and of how many pools, those with most data, it is looked for.
NEAR, POOLS = 1e-4, 8
# What is no more than rounding.
ROUNDING = 1e-9


@dataclass(frozen=True, **SLOTS)
class FittingPlaces:
    """Places that are to fit: how many, what each holds at least, and the OSDs that may have them by failure domain,
    each with how many it has at most.
    """

    count: int
    size: float
    domains: Sequence[tuple[Sequence[int], int]]

    def fit(self, wanted: Mapping[int, float], fixed: Mapping[int, float], ratio: float) -> bool:
        """Whether they fit where OSDs have up to a ratio to what they are to have, with what is fixed there."""
        count, size = 0, self.size
        for osds, most in self.domains:
            room = [ratio * wanted[osd] - fixed.get(osd, 0.0) for osd in osds]
            count += min(sum(int(own / size + ROUNDING) for own in room if own > 0), most)
        return count >= self.count


def least_for(fits: Callable[[float], bool]) -> float:
    """From which ratio on all fits, or a little less."""
    low, high = 0.0, 1.0
    while not fits(high) and high < 1000:
        low, high = high, 2 * high
    while high - low > NEAR:
        middle = (low + high) / 2
        low, high = (low, middle) if fits(middle) else (middle, high)
    return low


def of_all(measures: Measures, wanted: Mapping[int, float]) -> Iterable[FittingPlaces]:
    """The places of all pools together, those apart that no OSD may have with others."""
    trees = [tree for number, pool in measures.pools.items() for tree in measures.lives[number].before.trees_for(pool)]
    has = sums_by_osd(measures.counts)
    for osds in joined(trees):
        own = [osd for osd in osds if wanted.get(osd, 0.0) > 0]
        count = round(sum(has.get(osd, 0) for osd in own))
        yield FittingPlaces(count, 1.0, [(own, count)])


def of_pools(measures: Measures, still: Collection[int], wanted: Mapping[int, float]) -> Iterable[FittingPlaces]:
    """The places of each pool that has most data and is moved."""
    sizes = {} if measures.aims is None else measures.aims.sizes
    free = [number for number in measures.pools if number not in still and min(sizes[number], default=0) > 0]
    for number in sorted(free, key=lambda number: (-sum(sizes[number]) * measures.pools[number]["size"], number))[
        :POOLS
    ]:
        pool, live, domains = measures.pools[number], measures.lives[number], dict[tuple[int, int], list[int]]()
        for at, block in enumerate(MapBlocks(live.value).of_pool(pool)):
            for osd in block.osds & block.domains.keys():
                if wanted.get(osd, 0.0) > 0:
                    domains.setdefault((at, block.domains[osd]), []).append(osd)
        counts = {domain: sum(measures.counts[number].get(osd, 0) for osd in osds) for domain, osds in domains.items()}
        there = [(osds, max(pool["pg_num"], counts[domain])) for domain, osds in domains.items()]
        yield FittingPlaces(sum(counts.values()), min(sizes[number]) / BYTE_PARTS, there)


def mean_of(measures: Measures, wanted: Mapping[int, float]) -> float:
    """What all OSDs that are to have something have to that: one has as much, or more."""
    own = measures.bytes() if measures.aims is not None and measures.aims.is_whole else None
    has = measures.before.has if own is None else own.has
    osds = sorted(osd for osd, share in wanted.items() if share > 0)
    return math.fsum(has.get(osd, 0.0) for osd in osds) / math.fsum(wanted[osd] for osd in osds)


def least_of(measures: Measures, still: Collection[int]) -> float:
    """How full the fullest OSD stays at least, by bytes where they are known, where some pools are not moved."""
    aims, fixed = measures.aims, dict[int, float]()
    if aims is None or not aims.is_whole:
        wanted, places = measures.wanted, [*of_all(measures, measures.wanted)]
    else:
        wanted, places = aims.want, [*of_pools(measures, still, aims.want)]
        fixed = {osd: own / BYTE_PARTS for osd, own in aims.base.items()}
        for number in measures.pools.keys() & set(still):
            ups = measures.lives[number].before.ups_in(measures.pools[number])
            for osd, size in held_in(aims.sizes[number], ups).items():
                fixed[osd] = fixed.get(osd, 0.0) + size / BYTE_PARTS

    full = [fixed.get(osd, 0.0) / own for osd, own in wanted.items() if own > 0]
    full += [mean_of(measures, wanted)] if full else []
    return max([*(least_for(partial(own.fit, wanted, fixed)) for own in places), *full], default=0.0)
