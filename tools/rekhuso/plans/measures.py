"""How even the pools and the cluster are before and after a plan."""

from __future__ import annotations

import math
from collections import Counter
from collections.abc import Callable, Iterable, Mapping, Sequence
from itertools import repeat
from operator import mul, sub
from typing import cast

from ..cluster.evenness import Spread, sums_by_osd
from ..cluster.pool_data import Data
from ..program.maps import Pool, group_key
from .byte_aims import ByteAims
from .hindrances import TOLD
from .json_forms import ClusterParts, DataParts, HindranceParts, PoolSpreadParts, StayParts
from .max_avail import MaxAvail, RoomGauge, max_avail
from .mend import Gauge
from .rounds import Live
from .step_order import has_after
from .steps import PlanStep


def pool_spread(counts: dict[int, int], shares: dict[int, float]) -> PoolSpreadParts:
    """The least and greatest number of groups of a pool that an OSD has which may have some, and how far they are from
    their shares, in groups.
    """
    count: Callable[[int, int], int] = counts.get
    own = list(map(count, shares, repeat(0)))
    away = list(map(sub, own, shares.values()))
    return {
        "least": min(own, default=0),
        "greatest": max(own, default=0),
        "farthest": max(max(away), -min(away)) if away else 0.0,
        "deviation": math.sqrt(sum(map(mul, away, away)) / len(away)) if away else 0.0,
    }


def counts_after(before: dict[int, int], steps: Iterable[PlanStep]) -> Counter[int]:
    """How many groups of a pool each OSD has once steps are taken."""
    counts = Counter(before)
    for step in steps:
        leaves, comes = step.moved
        for osd in comes:
            counts[osd] += 1
        for osd in leaves:
            counts[osd] -= 1
    return counts


class Measures:
    """How even a cluster is by the counts of its pools: over all pools by groups, and where it is known what the pools
    hold by bytes.
    """

    def __init__(self, lives: list[Live], data: Data | None, aims: ByteAims | None, is_promised: bool = False) -> None:
        """Takes the maps of a cluster, what its pools hold, what its OSDs are to hold, and whether no pool may take
        less after a plan.
        """
        self.avail, self.is_promised = self.avail_of(lives, data, aims), is_promised
        self.lives, self.data, self.aims = {number: live for live in lives for number in live.pools}, data, aims
        self.pools: dict[int, Pool] = {number: live.pools[number] for number, live in sorted(self.lives.items())}
        self.counts: dict[int, dict[int, int]] = {
            number: live.before.counts_in[number] for number, live in self.lives.items()
        }
        self.shares = {number: self.lives[number].goals[number] for number in self.pools}
        self.sizes = None if aims is None else aims.groups
        self.wanted = sums_by_osd(self.shares)
        self.before = Spread(sums_by_osd(self.counts), self.wanted)

    def avail_of(self, lives: list[Live], data: Data | None, aims: ByteAims | None) -> MaxAvail | None:
        """What pools may take, as far as it is known; None where other pools hold data too, and where nobody tells what
        pools hold and OSDs are to have what they weigh for, by which they are told apart then.
        """
        if aims is None or data is None:
            return None if all(live.is_by_weight() for live in lives) else max_avail(lives, None)
        return max_avail(lives, data) if aims.is_whole else None

    def used(self, steps: Sequence[PlanStep] = ()) -> dict[int, float]:
        """What OSDs have once steps are taken, in bytes where it is known what pools hold, else in groups."""
        before = self.before.has if self.aims is None else self.aims.has
        return has_after(before, self.sizes, steps)

    def keeps_room(self, steps: Sequence[PlanStep]) -> bool:
        """Whether no pool may take less once steps are taken, as far as it is known."""
        return self.avail is None or self.avail.is_kept(self.used(), self.used(steps))

    def falls(self, steps: Sequence[PlanStep]) -> list[float]:
        """By which part of it the pool that loses most may take less, before some steps and after each, as far as it is
        known.
        """
        if self.avail is None:
            return [0.0] * (len(steps) + 1)
        return self.avail.falls(self.used(), self.sizes, steps)

    def room_gauges(self) -> list[RoomGauge]:
        """What keeps pools from taking less after a plan, where that is promised."""
        if self.avail is None or not self.is_promised:
            return []
        used = self.used()
        return [RoomGauge(used, self.sizes, self.avail.most(used))]

    def groups(self, counts: Mapping[int, Mapping[int, int]]) -> Spread:
        """What OSDs have in groups, by the counts of each pool."""
        return self.before if counts is self.counts else Spread(sums_by_osd(counts), self.wanted)

    def groups_in(self, number: int) -> Spread:
        """The same of one pool."""
        return Spread(self.counts[number], self.shares[number])

    def mean_place(self) -> float:
        """What a place of all pools holds in the mean, in bytes; 0 where nobody tells."""
        places = sum(pool["pg_num"] * pool["size"] for pool in self.pools.values())
        sizes = (
            ()
            if self.sizes is None
            else (size * self.pools[group_key(group)[0]]["size"] for group, size in self.sizes.items())
        )
        return sum(sizes) / places if places else 0.0

    def bytes(self, steps: Sequence[PlanStep] = ()) -> Spread | None:
        """The same in bytes once steps are taken, where it is known what the pools hold."""
        if self.aims is None:
            return None
        return Spread(has_after(self.aims.has, self.sizes, steps), self.aims.want)

    def gauges(self) -> list[Gauge]:
        """What no plan may leave less even."""
        used = self.bytes()
        found = [Gauge(self.groups(self.counts), None, False)]
        found += [] if used is None else [Gauge(used, self.sizes, True)]
        return [*found, *self.room_gauges()]

    def largest(self) -> int | None:
        """The pool of several groups with most data, the lowest of several; None where nobody tells or none has any."""
        held = {} if self.data is None else self.data.of_pool
        own = {number: held.get(number, 0) for number, pool in self.pools.items() if pool["pg_num"] > 1}
        most = max(own.values(), default=0)
        return next((number for number, size in own.items() if size == most), None) if most else None

    def room(self, used: Spread) -> int | None:
        """The bytes that the pool with most data may still take, where OSDs have so many in use."""
        number = self.largest()
        return None if number is None or self.avail is None else round(self.avail.of(number, used.has))

    def data_parts(self, steps: Sequence[PlanStep], stays: dict[int, list[HindranceParts]]) -> DataParts | None:
        """What is told of the data: whether each group's is known or only the mean of its pool, whether the disks are,
        the pools that hold data and are not planned with the others, and the OSDs that stay far above what they are to
        have once steps are taken, the fullest first.
        """
        data, used = self.data, self.bytes(steps)
        if data is None or used is None:
            return None
        full = [osd for _, osd in sorted((-used.ratio(osd), osd) for osd in stays) if used.ratio(osd) > TOLD]
        return {
            "by": "groups" if data.parts else "means",
            "has_disks": bool(data.disks),
            "pools_beside": sorted(data.of_pool.keys() - self.pools.keys()),
            "stays": [cast(StayParts, dict(used.filled(osd), pools=stays[osd])) for osd in full],
        }

    def told(self, counts: Mapping[int, Mapping[int, int]], steps: Sequence[PlanStep] = ()) -> ClusterParts:
        """What is told of the cluster once steps are taken, after which pools have these counts; by bytes only where
        all pools are known.
        """
        used = self.bytes(steps) if self.aims is not None and self.aims.is_whole else None
        found: ClusterParts = {
            "groups": self.groups(counts).fill(),
            "bytes": None if used is None else used.fill(True),
            "room": None if used is None else self.room(used),
        }
        if used is not None and used.osds() and self.aims is not None and self.aims.disks:
            found["use"] = Spread(used.has, {osd: disk.size for osd, disk in self.aims.disks.items()}).use(used.osds())
        return found
