"""How many places of each pool OSDs are to have, reckoned for all pools together.

Reach goes pool by pool: a pool that could lie elsewhere does not make up for one that cannot. Here a pool is asked only
what its rule allows: a bucket of a failure domain has at most one place of each group, or as many as the steps below it
find. Of all that is allowed that is taken which makes the following sum least; it is convex, so there is one least.

    BYTES  * sum over OSDs of (bytes  - share of bytes by weight) ** 2 / share of bytes by weight
    GROUPS * sum over OSDs of (places - share of places by weight) ** 2 / share of places by weight
    OWN    * sum over pools and OSDs of (places of the pool - its reach) ** 2 / reach of the pool

What all pools can lay on OSDs is a sum of nested bounds, so what makes the first sum alone least also makes the fullest
OSD as little full as it can be, and then the next. The second chooses among the many ways to have these bytes, and by
the third a pool stays at its reach where nothing is won. Where every share by weight can be had all sums are 0 there.

It is solved pool by pool, the others held still: a pool's own part is a water filling below nested bounds, where each
OSD has what one height gives it, and a bucket that would have too much has a height of its own. The sum falls with each
pool; it ends where no share changes by more than NEAR of a place. Pools of one rule and size whose places hold alike
are one, and so are OSDs below one bucket that weigh the same. All goes in the order of numbers, and what is found is
told in whole parts of a place.
"""

from __future__ import annotations

from collections.abc import Collection, Iterator, Mapping, Sequence
from dataclasses import dataclass, field
from math import inf

from ..values import SLOTS

# What the sums count; without data there is no first one.
BYTES, GROUPS, OWN = 1.0, 0.1, 0.02
# By how much of a place shares may still change, how often all pools are gone through, how alike places hold that are
# one, and how many pools are told apart at most: of more, those are one that are less alike.
NEAR, SWEEPS, ALIKE, MOST = 0.03, 200, 1.05, 40
# Which OSDs a bound is asked of: those that are as full as such a part of the fullest.
PARTS_OF_MOST = (0.999, 0.99, 0.98, 0.95, 0.9, 0.8, 0.7, 0.5, 0.0)
# How near a height is found, and what is no share.
ROUNDING, NONE = 1e-10, 1e-6


@dataclass(frozen=True, **SLOTS)
class PlaceBound:
    """A bucket with the places that it may have at most, by the bounds in it and by the OSDs that stand in none."""

    most: float
    below: Sequence[PlaceBound] = ()
    osds: Sequence[int] = ()

    def room(self) -> float:
        """How many places may be below it."""
        return min(self.most, sum(own.room() for own in self.below)) if self.below else self.most


@dataclass(frozen=True, **SLOTS)
class JointPool:
    """A pool: what a place holds, the blocks of its rule (the places that each has, and its bounds), its OSDs' shares
    of places by weight and by reach, and by what it may be one with others. A pool without blocks stays where it lies,
    and its reach is how it lies.
    """

    place: float
    blocks: Sequence[tuple[float, PlaceBound]]
    share: Mapping[int, float]
    reach: Mapping[int, float]
    like: tuple[int, ...] | None = None

    def places(self) -> float:
        """How many places it has."""
        return sum(own for own, _ in self.blocks) if self.blocks else sum(self.reach.values())

    def osds(self) -> list[int]:
        """The OSDs that may have some."""
        return sorted(self.share.keys() | self.reach.keys())

    def is_by_weight(self) -> bool:
        """Whether its rule can give OSDs what they weigh for."""
        return all(abs(self.share.get(osd, 0.0) - self.reach.get(osd, 0.0)) <= NONE for osd in self.osds())


@dataclass(**SLOTS)
class BoundFill:
    """A bound while it is filled: OSDs, each with how many are like it."""

    most: float
    below: list[BoundFill] = field(default_factory=list)
    osds: list[tuple[int, int]] = field(default_factory=list)

    def all_osds(self) -> Iterator[int]:
        """The OSDs within it, one of each that are alike."""
        for osd, _ in self.osds:
            yield osd
        for own in self.below:
            yield from own.all_osds()


class WaterFilling:
    """A pool's own part: what OSDs have where the slope of the sum is one height: (height - low) / rise."""

    def __init__(self, low: Mapping[int, float], rise: Mapping[int, float]) -> None:
        """Takes by OSD at what height it begins to fill, and by how much height each place raises it."""
        self.low, self.rise, self.found = low, rise, dict[int, float]()

    def at(self, own: BoundFill, height: float) -> tuple[float, float]:
        """What all in a bound have at a height, and how fast that grows."""
        low, rise, total, speed = self.low, self.rise, 0.0, 0.0
        for osd, count in own.osds:
            if height > low[osd]:
                total += count * (height - low[osd]) / rise[osd]
                speed += count / rise[osd]
        for one in own.below:
            has, grows = self.at(one, height)
            total, speed = (total + one.most, speed) if has >= one.most else (total + has, speed + grows)
        return total, speed

    def height(self, own: BoundFill, places: float) -> float:
        """At what height a bound has so many places: Newton's way, within what is known to be too low and too high."""
        osds = list(own.all_osds())
        least = now = min(self.low[osd] for osd in osds)
        most = max(self.low[osd] + self.rise[osd] * places for osd in osds)
        for _ in range(SWEEPS):
            has, grows = self.at(own, now)
            if abs(has - places) <= ROUNDING * places or most - least <= 1e-14 * (abs(most) + abs(least)):
                break
            least, most = (now, most) if has < places else (least, now)
            step = now + (places - has) / grows if grows else most
            now = step if least < step < most else (least + most) / 2
        return now

    def fill(self, own: BoundFill, places: float) -> None:
        """Gives the OSDs of a bound so many places."""
        self.lay(own, self.height(own, places))

    def lay(self, own: BoundFill, height: float) -> None:
        """Gives the OSDs of a bound what they have at a height."""
        for osd, _ in own.osds:
            self.found[osd] = max(0.0, (height - self.low[osd]) / self.rise[osd])
        for one in own.below:
            if self.at(one, height)[0] >= one.most:
                self.fill(one, one.most)
            else:
                self.lay(one, height)


def marks_in(bound: PlaceBound, way: tuple[float, ...], found: dict[int, list[tuple[float, ...]]]) -> None:
    """By OSD the bounds in which it stands. One that is a failure domain itself has a bound of its own, and those
    beside it have the same.
    """
    for at, one in enumerate(bound.below):
        if len(one.osds) == 1 and not one.below:
            found.setdefault(one.osds[0], []).append((*way, -1.0, one.most))
        else:
            marks_in(one, (*way, float(at)), found)
    for osd in bound.osds:
        found.setdefault(osd, []).append(way)


def alike_in(pools: Sequence[JointPool]) -> dict[int, int]:
    """For each OSD the first that is like it: it stands in the same bounds, and has the same shares of every pool."""
    marks: dict[int, list[tuple[float, ...]]] = {}
    for number, pool in enumerate(pools):
        for at, (_, bound) in enumerate(pool.blocks):
            marks_in(bound, (number, at), marks)
        for osd in pool.osds():
            own = pool.share.get(osd, 0.0), pool.reach.get(osd, 0.0)
            marks.setdefault(osd, []).append((number, *(float(f"{value:.9g}") for value in own)))
    first: dict[tuple[tuple[float, ...], ...], int] = {}
    return {osd: first.setdefault(tuple(own), osd) for osd, own in sorted(marks.items())}


def filled_by(bound: PlaceBound, first: Mapping[int, int]) -> BoundFill:
    """A bound of which OSDs that are alike are one."""
    counts, single, found = dict[int, int](), dict[tuple[int, float], int](), BoundFill(bound.most)
    for osd in bound.osds:
        counts[first[osd]] = counts.get(first[osd], 0) + 1
    for one in bound.below:
        if len(one.osds) == 1 and not one.below:
            key = first[one.osds[0]], one.most
            single[key] = single.get(key, 0) + 1
        else:
            found.below.append(filled_by(one, first))
    found.osds = sorted(counts.items())
    found.below += [BoundFill(most * count, [], [(osd, count)]) for (osd, most), count in sorted(single.items())]
    return found


def merged(pools: Mapping[int, JointPool]) -> list[tuple[list[int], JointPool]]:
    """The pools, those as one that may be and whose places hold alike; with their numbers."""
    found = list[tuple[list[int], JointPool]]()
    for step in range(8):
        found = merged_at(pools, ALIKE ** (1 << step))
        if len(found) <= MOST:
            break
    return found


def merged_at(pools: Mapping[int, JointPool], alike: float) -> list[tuple[list[int], JointPool]]:
    """The same, by how far what places hold may differ."""
    own: dict[tuple[int, ...], list[int]] = {}
    for number in sorted(pools, key=lambda number: (-pools[number].place, number)):
        own.setdefault(pools[number].like or (number,), []).append(number)
    found: list[list[int]] = []
    for rows in own.values():
        found.append(rows[:1])
        for number in rows[1:]:
            if pools[found[-1][0]].place > alike * pools[number].place:
                found.append([])
            found[-1].append(number)
    return [(part, one_of([pools[number] for number in part])) for part in found]


def summed(bounds: Sequence[PlaceBound]) -> PlaceBound:
    """The bounds of several pools of one rule as one."""
    below = [summed(own) for own in zip(*(one.below for one in bounds))]
    return PlaceBound(sum(one.most for one in bounds), below, bounds[0].osds)


def one_of(pools: Sequence[JointPool]) -> JointPool:
    """Several pools as one."""
    if len(pools) == 1:
        return pools[0]
    places = [pool.places() for pool in pools]
    held = sum(pool.place * count for pool, count in zip(pools, places)) / (sum(places) or 1)
    blocks = [
        (sum(count for count, _ in own), summed([bound for _, bound in own]))
        for own in zip(*(pool.blocks for pool in pools))
    ]
    share = {osd: sum(pool.share.get(osd, 0.0) for pool in pools) for osd in pools[0].share}
    return JointPool(
        held, blocks, share, {osd: sum(own.reach.get(osd, 0.0) for own in pools) for osd in pools[0].reach}
    )


class JointSum:
    """The sum while pools are gone through: how many places of each pool OSDs have, and of all in places and in what
    these hold, of the mean.
    """

    def __init__(self, pools: Sequence[JointPool]) -> None:
        """Takes the pools, each of which has places; they begin at their reach."""
        self.pools, self.first = pools, alike_in(pools)
        self.fills = [[(places, filled_by(bound, self.first)) for places, bound in own.blocks] for own in pools]
        total, held = sum(own.places() for own in pools), sum(own.place * own.places() for own in pools)
        self.size = [own.place * total / held if held else 0.0 for own in pools]
        self.has, self.held = (dict.fromkeys(sorted(set(self.first.values())), 0.0) for _ in range(2))
        self.due, self.due_held = dict(self.has), dict(self.has)
        self.now: list[dict[int, float]] = []
        for own, size in zip(pools, self.size):
            self.now.append({osd: own.reach.get(osd, 0.0) for osd in own.osds() if self.first[osd] == osd})
            for osd, count in self.now[-1].items():
                self.put(osd, count, size)
                self.due[osd] += own.share.get(osd, 0.0)
                self.due_held[osd] += size * own.share.get(osd, 0.0)
        self.least = total / max(len(self.due), 1) * NONE
        by, near, self.own = (BYTES, GROUPS, OWN) if held else (0.0, 1.0, OWN / GROUPS)
        self.steep = {osd: near / max(own, self.least) for osd, own in self.due.items()}
        self.steep_held = {osd: by / max(own, self.least) for osd, own in self.due_held.items()}

    def put(self, osd: int, count: float, size: float) -> None:
        """An OSD has so many places more that each hold so much."""
        self.has[osd] += count
        self.held[osd] += size * count

    def slope(self, at: int, osd: int) -> tuple[float, float]:
        """At what height an OSD begins to fill with places of a pool, and by how much height each raises it."""
        size, count = self.size[at], self.now[at][osd]
        reach = max(self.pools[at].reach.get(osd, 0.0), self.least)
        one, other, keep = self.steep[osd], self.steep_held[osd], self.own / reach
        low = size * other * (self.held[osd] - size * count - self.due_held[osd])
        low += one * (self.has[osd] - count - self.due[osd]) - keep * reach
        return low, size * size * other + one + keep

    def turn(self, at: int) -> float:
        """Gives a pool what makes the sum least, and tells by how much a share of it has changed at most."""
        slopes = {osd: self.slope(at, osd) for osd in self.now[at]}
        filling = WaterFilling(
            {osd: low for osd, (low, _) in slopes.items()}, {osd: rise for osd, (_, rise) in slopes.items()}
        )
        for places, own in self.fills[at]:
            if places:
                filling.fill(own, places)
        most = 0.0
        for osd, count in filling.found.items():
            change = count - self.now[at][osd]
            self.put(osd, change, self.size[at])
            self.now[at][osd], most = count, max(most, abs(change))
        return most

    def solve(self, near: float) -> None:
        """Goes through all pools until no share changes by more."""
        free = [at for at, own in enumerate(self.pools) if own.blocks]
        for _ in range(SWEEPS):
            if max(map(self.turn, free), default=0.0) < near:
                return


def room_outside(bound: PlaceBound, osds: Collection[int]) -> float:
    """How many places a bound may have outside some OSDs."""
    free = inf if any(osd not in osds for osd in bound.osds) else 0.0
    return min(bound.most, sum(room_outside(own, osds) for own in bound.below) + free)


def least_in(pools: Mapping[int, JointPool], osds: Collection[int]) -> float:
    """What some OSDs have of all pools at least, to what they weigh for: what nowhere else may be."""
    has, due, by_bytes = 0.0, 0.0, any(own.place for own in pools.values())
    for own in pools.values():
        size = own.place if by_bytes else 1.0
        due += size * sum(share for osd, share in own.share.items() if osd in osds)
        stays = 0.0 if own.blocks else sum(count for osd, count in own.reach.items() if osd in osds)
        has += size * (stays + sum(max(places - room_outside(bound, osds), 0.0) for places, bound in own.blocks))
    return has / due if due > 0 else 0.0


def least_fullest(pools: Mapping[int, JointPool], found: Mapping[int, Mapping[int, float]]) -> float:
    """How full the fullest OSD is at least, to what it weighs for, however the places of all pools lie: a bound that is
    asked of those OSDs that are fullest by the joint shares, by bytes if they are known.
    """
    by_bytes, has, due = any(own.place for own in pools.values()), dict[int, float](), dict[int, float]()
    for number, own in pools.items():
        size = own.place if by_bytes else 1.0
        for osd in own.osds():
            has[osd] = has.get(osd, 0.0) + size * found[number].get(osd, 0.0)
            due[osd] = due.get(osd, 0.0) + size * own.share.get(osd, 0.0)
    full = {osd: has[osd] / share for osd, share in sorted(due.items()) if share > 0}
    most = max(full.values(), default=0.0)
    sets = ({osd for osd, own in full.items() if own >= part * most} for part in PARTS_OF_MOST)
    return max((least_in(pools, osds) for osds in sets), default=0.0)


def joint_places(pools: Mapping[int, JointPool]) -> dict[int, dict[int, float]]:
    """How many places of each pool OSDs are to have; where every pool can have its shares by weight, these."""
    if all(own.is_by_weight() for own in pools.values() if own.blocks):
        return {number: dict(own.reach) for number, own in pools.items()}
    rows = [own for own in merged(pools) if own[1].places()]
    found = JointSum([own for _, own in rows])
    found.solve(NEAR * max(1.0, len(pools) / max(len(rows), 1)))
    places: dict[int, dict[int, float]] = {number: {} for number in pools}
    for (numbers, own), now in zip(rows, found.now):
        for number in numbers:
            part = pools[number].places() / own.places()
            places[number] = {osd: part * now.get(found.first[osd], 0.0) for osd in own.osds()}
    return places
