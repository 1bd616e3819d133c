"""How even a cluster is: what its OSDs have beside their shares, over all pools, by groups and by bytes."""

from __future__ import annotations

import math
from collections import Counter, defaultdict
from collections.abc import Collection, Iterable, Mapping, Sequence
from dataclasses import dataclass
from functools import reduce
from itertools import chain
from operator import add
from typing import cast

from ..values import SLOTS
from .json_forms import FillParts, OsdFillParts, UseParts

# The share of an OSD that may be in use before Ceph takes no more (full_ratio, as it is where nobody sets it).
FULL = 0.95


@dataclass(frozen=True, **SLOTS)
class Spread:
    """What each OSD has, and its share of it."""

    has: Mapping[int, float]
    share: Mapping[int, float]

    def ratio(self, osd: int) -> float:
        """How many times its share an OSD has."""
        share, has = self.share.get(osd, 0.0), self.has.get(osd, 0)
        return has / share if share > 0 else float("inf") if has > 0 else 0.0

    def osds(self) -> list[int]:
        """The OSDs that have a share."""
        return sorted(osd for osd, share in self.share.items() if share > 0)

    def fullest(self) -> float:
        """The greatest ratio of what an OSD has to its share."""
        return max(map(self.ratio, self.osds()), default=0.0)

    def deviation(self) -> float:
        """The standard deviation from the shares."""
        away = [self.has.get(osd, 0) - self.share[osd] for osd in self.osds()]
        return math.sqrt(sum(gap * gap for gap in away) / len(away)) if away else 0.0

    def relative(self) -> float:
        """The standard deviation of the ratios from 1."""
        away = [self.ratio(osd) - 1 for osd in self.osds()]
        return math.sqrt(sum(gap * gap for gap in away) / len(away)) if away else 0.0

    def filled(self, osd: int) -> OsdFillParts:
        """What is told of an OSD."""
        return {
            "id": osd,
            "has": round(self.has.get(osd, 0), 2),
            "share": round(self.share[osd], 2),
            "ratio": round(self.ratio(osd), 4),
        }

    def fill(self, is_relative: bool = False) -> FillParts:
        """What is told of all: the fullest OSD, the emptiest, and the standard deviation, which may be that of the
        ratios.
        """
        osds = self.osds()
        deviation = round(self.relative(), 4) if is_relative else round(self.deviation(), 2)
        if not osds:
            return {"fullest": None, "emptiest": None, "deviation": deviation}
        fullest, emptiest = max(osds, key=lambda osd: (self.ratio(osd), -osd)), min(osds, key=self.ratio)
        return {"fullest": self.filled(fullest), "emptiest": self.filled(emptiest), "deviation": deviation}

    def use(self, osds: list[int]) -> UseParts:
        """What is told of some OSDs by what of their disks is in use."""
        fullest, emptiest = max(osds, key=lambda osd: (self.ratio(osd), -osd)), min(osds, key=self.ratio)
        return {"fullest": self.filled(fullest), "emptiest": self.filled(emptiest)}


def standing_in(sets: Iterable[Sequence[int | None]]) -> Counter[int]:
    """In how many of some sets each OSD stands."""
    own: list[Collection[int | None]] = list(sets)
    if sum([len(set(places)) for places in own]) < sum(map(len, own)):
        own = [places if len(set(places)) == len(places) else set(places) for places in own]
    found = Counter(chain.from_iterable(own))
    del found[None]
    return cast("Counter[int]", found)


def sums_by_osd(by_pool: Mapping[int, Mapping[int, float]]) -> dict[int, float]:
    """The sum over pools of what each OSD has of them."""
    found: defaultdict[int, float] = defaultdict(int)
    pools = list(by_pool.values())
    apart = {id(own): own for own in pools}
    if len({tuple(own) for own in apart.values()}) == 1:
        # OSDs that have as much of each pool have the same sum, which is taken once.
        order, known = list(map(list(apart).index, map(id, pools))), dict[tuple[float, ...], float]()
        for osd, parts in zip(pools[0], zip(*(own.values() for own in apart.values()))):
            if parts not in known:
                known[parts] = reduce(add, map(parts.__getitem__, order))
            found[osd] = known[parts]
        return found
    for own in pools:
        for osd, count in own.items():
            found[osd] += count
    return found
