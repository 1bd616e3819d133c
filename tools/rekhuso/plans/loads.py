"""What OSDs carry from other pools: by this each pool of a cluster is planned for the sake of the whole.

A pool's plan evens the pool, and beside it the cluster: the balancer counts on an OSD, beside its groups of the pool,
what it carries from all other pools. There G is by how many groups an OSD is above its shares of the other pools, and
B the same where each pool counts by what its places hold, of the mean over all places. Where s is what a place of the
pool itself holds, an OSD carries (G + 10 * s * B) / (2 + 10 * s * s) groups, and without data G / 2; at most half of
what two OSDs must differ by for a move. With the other pools held still, a plan then lowers the sum of the squares of
all deviations: those of the pools, those of the groups over all pools, and ten times those of the data.

All is reckoned in whole numbers of parts of a group, so no sum depends on its order.
"""

from __future__ import annotations

from collections.abc import Iterable, Mapping
from dataclasses import dataclass
from fractions import Fraction

from ..values import SLOTS

# The parts of a group, and of what a place holds in the mean.
GROUP_PARTS, MEAN_PARTS = 1 << 64, 1 << 32
# The program is told 256ths of a group.
STEP_PARTS = GROUP_PARTS >> 8
# The bits of two such steps, half of which is what a pool without data carries.
HALF_BITS = STEP_PARTS.bit_length()
# How many times as much as evenness by groups evenness by data counts; and behind the scheme that by groups over all
# pools, as much as that of a pool.
WEIGHT, SUM_WEIGHT = 10, 2


@dataclass(frozen=True, **SLOTS)
class Laid:
    """A pool as it lies on OSDs: what a place of it holds (0 where nobody tells), the shares of the OSDs that may have
    its groups, how many groups each has, by how much the shares by weight are above these, in 256ths of a group, and
    the OSDs that take none.
    """

    place: int
    shares: dict[int, int]
    counts: dict[int, int]
    offset: dict[int, int]
    closed: frozenset[int]

    def deviations(self) -> dict[int, int]:
        """How far each OSD is above its share or, negative, below it."""
        found = {osd: -share for osd, share in self.shares.items()}
        for osd, groups in self.counts.items():
            if osd in found:
                found[osd] += groups * GROUP_PARTS
        return found


def shares_of(trees: Iterable[Mapping[int, int]], counts: Mapping[int, int]) -> dict[int, int]:
    """The shares of OSDs by their weights: each tree's groups are shared among its own OSDs."""
    found: dict[int, int] = {}
    own = list(trees)
    for weights, groups in zip(own, places_in(own, counts)):
        total = sum(weights.values())
        found.update({osd: groups * weight * GROUP_PARTS // total for osd, weight in weights.items()})
    return found


def places_in(trees: Iterable[Mapping[int, int]], counts: Mapping[int, int]) -> list[int]:
    """How many places OSDs have, tree by tree."""
    return [
        sum(counts.values() if counts.keys() <= weights.keys() else (counts[osd] for osd in counts if osd in weights))
        for weights in trees
    ]


def offsets(by_weight: Mapping[int, int], shares: Mapping[int, int]) -> dict[int, int]:
    """By how much the shares by weight of OSDs are above others, in 256ths of a group, to the nearest: the program,
    which goes by weights, is told that this is carried.
    """
    return {osd: (2 * (own - shares[osd]) + STEP_PARTS) // (2 * STEP_PARTS) for osd, own in by_weight.items()}


def closed_in(reached: Mapping[int, float]) -> frozenset[int]:
    """The OSDs that take no groups, as what they can reach of all pools is below half a place; where there are fewer
    places than OSDs below half of the mean.
    """
    least = min(sum(reached.values()) / max(len(reached), 1), 1.0) / 2 - 1 / 512
    return frozenset(osd for osd, own in reached.items() if own < least)


def held_by_places(held: Mapping[int, int], places: Mapping[int, int]) -> dict[int, int]:
    """What a place of each pool holds, by the bytes and the places of all pools; 0 where no pool holds anything."""
    total, count = sum(held.values()), sum(places.values())
    return {pool: held[pool] * count * MEAN_PARTS // (own * total) if total else 0 for pool, own in places.items()}


def order_of(pools: Iterable[int], places: Mapping[int, int], held: Mapping[int, int] | None) -> list[int]:
    """Some pools in the order in which they are planned: first the one whose places hold most, or where no pool holds
    anything the one with most places; of several the lowest.
    """
    own = held or {}
    if not any(own.values()):
        return sorted(pools, key=lambda pool: (-places[pool], pool))
    return sorted(pools, key=lambda pool: (-Fraction(own[pool], places[pool]), pool))


class Loads:
    """What the pools lay on OSDs beyond their shares, in groups and by what these hold. A pool whose plan is still to
    come counts with no more than a plan leaves.
    """

    def __init__(self, pools: Mapping[int, Laid]) -> None:
        """Takes pools by their numbers, which all count as they lie."""
        self.pools, self.later = pools, dict[int, dict[int, int]]()
        self.groups = {osd: 0 for pool in pools.values() for osd in pool.shares}
        self.data = dict(self.groups)
        self.own = {number: pool.deviations() for number, pool in pools.items()}
        for number, own in self.own.items():
            self.add(number, own)

    def add(self, number: int, more: Mapping[int, int]) -> None:
        """So many parts more of a pool count on OSDs."""
        groups, data, place = self.groups, self.data, self.pools[number].place
        for osd, parts in more.items():
            groups[osd] += parts
        for osd, parts in more.items() if place else ():
            data[osd] += parts * place

    def put_off(self, later: Iterable[int], most: int) -> None:
        """The plans of some pools, all of which count as they lie, are still to come; they leave so many parts."""
        self.later = {number: self.own[number] for number in later}
        for number, before in self.later.items():
            self.own[number] = {
                osd: -most if own < -most else most if own > most else own for osd, own in before.items()
            }
            self.add(
                number, {osd: parts - before[osd] for osd, parts in self.own[number].items() if parts != before[osd]}
            )

    def put(self, number: int, moved: Mapping[int, int]) -> None:
        """A pool has so many groups more on OSDs that may have some, and from now on it counts as it lies."""
        pool, own = self.pools[number], self.own[number]
        for osd, groups in moved.items():
            pool.counts[osd] = pool.counts.get(osd, 0) + groups
        if number in self.later:
            self.own[number] = self.later.pop(number)
            for osd, groups in moved.items():
                if osd in self.own[number]:
                    self.own[number][osd] += groups * GROUP_PARTS
            self.add(number, {osd: parts - own[osd] for osd, parts in self.own[number].items() if parts != own[osd]})
            return
        more = {osd: groups * GROUP_PARTS for osd, groups in moved.items() if osd in own}
        for osd, parts in more.items():
            own[osd] += parts
        self.add(number, more)

    def carried(self, number: int, half: int, osds: Iterable[int] | None = None) -> dict[int, int]:
        """What each OSD that may have groups of a pool carries from the others, or each of some of these, in 256ths of
        a group: to the nearest, and at most so many.
        """
        place, squared, own = self.pools[number].place, MEAN_PARTS * MEAN_PARTS, self.own[number]
        groups, data = self.groups, self.data
        own = own if osds is None else {osd: own[osd] for osd in osds}
        if place:
            one, weight = STEP_PARTS * (2 * squared + WEIGHT * place * place), WEIGHT * place
            each = ((groups[osd] - more) * squared + weight * (data[osd] - more * place) for osd, more in own.items())
            nearest = [(2 * parts + one) // (2 * one) for parts in each]
            if nearest and not -half <= min(nearest) <= max(nearest) <= half:
                nearest = [-half if parts < -half else half if parts > half else parts for parts in nearest]
            return dict(zip(own, nearest))
        # Most OSDs carry more than so many: below the one bound, or not below the other, nothing else is reckoned.
        low, high = -(2 * half + 1) * STEP_PARTS, (2 * half + 1) * STEP_PARTS
        return {
            osd: -half if parts < low else half if parts >= high else (parts + STEP_PARTS) >> HALF_BITS
            for osd, more in own.items()
            for parts in [groups[osd] - more]
        }

    def told(self, number: int, half: int) -> dict[int, int]:
        """What the program is told that OSDs carry: what they do, and by how much their shares by weight are above
        those of the plan.
        """
        pool, carried = self.pools[number], self.carried(number, half)
        for osd, more in pool.offset.items():
            carried[osd] += more
        return with_closed(pool, carried, half) if pool.closed else carried

    def some_above(self, number: int, half: int, osds: Iterable[int]) -> dict[int, int]:
        """How far each of some OSDs counts as above its share of a pool, in parts, where it takes groups at all."""
        own, closed = self.later.get(number, self.own[number]), self.pools[number].closed
        free = [osd for osd in osds if osd in own and osd not in closed]
        return {osd: own[osd] + parts * STEP_PARTS for osd, parts in self.carried(number, half, free).items()}

    def above(self, number: int, loads: Mapping[int, int]) -> dict[int, int]:
        """How far each OSD counts as above its share of a pool, in parts: with what it carries, as the program is told
        it.
        """
        own, offset = self.later.get(number, self.own[number]), self.pools[number].offset
        if offset:
            return {osd: parts + (loads[osd] - offset.get(osd, 0)) * STEP_PARTS for osd, parts in own.items()}
        return {osd: parts + loads[osd] * STEP_PARTS for osd, parts in own.items()}


def counted_above(pool: Laid, loads: Mapping[int, int]) -> dict[int, int]:
    """How far each OSD is above its share of a pool, in parts, where it carries so much."""
    offset = pool.offset
    return {
        osd: parts + (loads.get(osd, 0) - offset.get(osd, 0)) * STEP_PARTS for osd, parts in pool.deviations().items()
    }


def with_closed(pool: Laid, loads: dict[int, int], half: int) -> dict[int, int]:
    """What OSDs carry, where those that take no groups carry so much more that no other differs enough for a move to
    them, whatever goes from them.
    """
    offset, away = pool.offset, pool.deviations()
    above = {osd: parts // STEP_PARTS + loads.get(osd, 0) - offset.get(osd, 0) for osd, parts in away.items()}
    most = max(pool.counts.get(osd, 0) for osd in pool.closed)
    least = max(above.values()) - 2 * half + 2 + 256 * most
    for osd in pool.closed:
        loads[osd] += max(least - above[osd], 0)
    return loads
