"""The last pass of a plan by data: from the OSD that is fullest by bytes to emptier ones, over all pools at once, one
move after the other, until the fullest is near its share.

A move is that of a place, of any pool, by which the sum of want * (ratio - 1) ** 2 over all OSDs falls most, and after
which the OSD that gets it is less full than the other was before. So the fullest OSD never gets fuller, and any
beginning of the pass is a plan. Where no move is left that takes something from an OSD, two groups change places.
Behind the scheme the pass leaves groups as even as the scheme has left them, as far as that goes. Then pools stay near
their shares, and so do all pools together; for the sake of OSDs that stay far above theirs they may get further, as
long as nothing gets less even than it was before the plan.
"""

from __future__ import annotations

from collections.abc import Callable, Iterable, Iterator
from dataclasses import replace
from functools import partial
from itertools import islice

from ..cluster.evenness import Spread, sums_by_osd
from ..cluster.pool_data import BYTE_PARTS
from ..program.maps import entries_of
from .blocks import MapBlocks
from .byte_aims import ByteAims
from .exchanges import Backs, BestExchanges, Exchange, Limit, OsdPair
from .fullness import Fullness
from .loads import GROUP_PARTS
from .mend import Gauge
from .pool_places import PoolPlaces
from .rooms import Rooms
from .rounds import Live, Planner
from .single_moves import moved, take_back

# By how much the fullest OSD may be above its share; and how far a pool and all pools together may get from their
# shares, in parts of a group. For the sake of OSDs that stay further above their shares they may get as far as the
# others, or as far as they were before the plan.
NEAR, FAR = 0.05, 0.1
POOL, ALL_POOLS, FAR_POOL, FAR_ALL_POOLS = (GROUP_PARTS * groups for groups in (2, 3, 4, 5))
# To how many of the emptiest OSDs a group may go at first, rather than to any; and how many groups, and how many
# exchanges are tried.
FEW, GROUPS, TRIED = 32, 3, 64
# What is more than rounding, of what an exchange gains.
MORE = 1 + 1e-9

# A move, the best first: what is lost by it, its pool, the OSD to which something goes, and how much that is.
Way = tuple[float, int, int, int]
# A pool of which something may go, with what its places hold.
Going = tuple[int, list[int]]
# A pool of which something may come back, what its places hold, and whether it stays near its shares by that.
Back = tuple[int, list[int], bool]


def pools_in(live: Live, fixed: Iterable[str]) -> Iterator[PoolPlaces]:
    """The pools of a map as they lie, whose OSDs are all up. Some groups are not moved, nor are those with explicit
    sets where a rule has several blocks.
    """
    blocks = MapBlocks(live.value)
    pairs: dict[str, list[list[int]]] = dict(entries_of(live.session.dump(), "pg_upmap_items"))
    explicit = {group for group, _ in entries_of(live.value, "pg_upmap")}
    for pool in live.pools.values():
        ups = live.session.pool_ups([pool])
        own = PoolPlaces(live, pool, blocks.of_pool(pool), list(ups.values()), pairs)
        left = explicit.union(fixed) if len(own.blocks) > 1 else set(fixed)
        own.fixed = {at for at, group in enumerate(ups) if group in left}
        yield own


def is_near(more: int, less: int, most: int) -> bool:
    """Whether two OSDs that have so many parts of a group above their shares get nearer to these, or together no
    further, or stay within so many parts of them, where a group goes from the first to the second.
    """
    return more - less >= GROUP_PARTS or (less <= most - GROUP_PARTS and more >= GROUP_PARTS - most)


def farthest(parts: Iterable[int]) -> int:
    """How far the farthest OSD is from its share, by how far each is above its own."""
    return max((abs(own) for own in parts), default=0)


class LastPass:
    """The pass: the pools, and those of which groups may be moved; how full OSDs are; and how many groups each has
    above its shares of all pools.
    """

    def __init__(self, planner: Planner, aims: ByteAims, is_even: bool, rooms: Rooms | None = None) -> None:
        """Takes the pools as they have been planned, what their groups hold and OSDs are to hold, whether groups stay
        as even as they are at first, and how much may still come to disks, where that is asked.
        """
        self.laid, self.aims, self.full, self.above = planner.laid, aims, Fullness(aims.want), dict[int, int]()
        self.pools = {own.number: own for live in planner.lives for own in pools_in(live, planner.left)}
        self.over = {number: self.laid[number].deviations() for number in self.pools}
        for number, own in self.pools.items():
            own.sizes = aims.sizes[number]
            self.full.add(own.held())
            for osd, parts in self.over[number].items():
                self.above[osd] = self.above.get(osd, 0) + parts
        self.rooms, self.is_unfit = rooms, False
        if rooms is not None:
            rooms.lay(self.pools)
        self.full.add(aims.base)
        movable = [self.pools[number] for number in planner.order]
        free = [own for own in movable if not own.is_barred() and not own.is_left_alone()]
        self.movable = [own for own in free if own.blocks]
        self.most, self.most_all = dict.fromkeys(self.pools, POOL), ALL_POOLS
        self.is_far, self.is_even = False, is_even
        self.gauges = [Gauge(self.groups_now(), None, False)] if is_even else []
        self.ranked: list[int] = []
        self.kept: dict[tuple[int, int], dict[int, set[int]]] = {}
        self.kept_closed: dict[tuple[int, int], set[int]] = {}
        self.kept_beside: dict[tuple[int, int], frozenset[int]] = {}
        self.alike: dict[tuple[int, int, tuple[int | None, ...]], frozenset[int]] = {}
        self.kept_near: dict[tuple[int, int, int], list[int]] = {}
        self.limits: dict[tuple[int, int, int], Limit] = {}
        self.shut: set[tuple[int, int, int, int]] = set()
        self.moves: list[str] = []

    # What may go

    def keeps(self, number: int, leaves: int, comes: int) -> bool:
        """Whether a pool stays near its shares, or gets nearer, where a group goes from an OSD to another."""
        over = self.over[number]
        return is_near(over[leaves], over[comes], self.most[number])

    def keeps_all(self, leaves: int, comes: int) -> bool:
        """The same of all pools together."""
        return is_near(self.above[leaves], self.above[comes], self.most_all)

    def stays_even(self, leaves: int, comes: int, groups: int, size: int) -> bool:
        """Whether by groups and by bytes all stays as even as it was before the plan, or gets no less even than it is,
        where so many groups more, and so much more, go from an OSD to another than come back; asked for the sake of
        OSDs far above their shares, and at first, by groups alone and as even as it was before the pass.
        """
        return all(gauge.lets(leaves, comes, own) for gauge, own in zip(self.gauges, (groups, size / BYTE_PARTS)))

    def limit(self, leaves: int, comes: int, groups: int) -> Limit:
        """How much may go from an OSD to another so that all stays as even, where so many groups more go than come
        back. What is found is kept until something moves.
        """
        key = leaves, comes, groups
        if key not in self.limits:
            self.limits[key] = Limit(partial(self.stays_even, *key))
        return self.limits[key]

    def lets(self, own: PoolPlaces, size: int, leaves: int, comes: int) -> bool:
        """Whether the disk of an OSD has room for so much of a pool that goes there from another."""
        return self.rooms is None or self.rooms.lets(own, size, leaves, comes)

    def groups_now(self) -> Spread:
        """What OSDs have in groups."""
        shares = sums_by_osd({number: own.live.goals[number] for number, own in self.pools.items()})
        return Spread(sums_by_osd({number: self.laid[number].counts for number in self.pools}), shares)

    def gauges_now(self) -> list[Gauge]:
        """How even the cluster is by groups and by bytes, beside how even it was before the plan."""
        before, now = {number: own.live.before for number, own in self.pools.items()}, self.groups_now()
        counts = sums_by_osd({number: own.counts_in[number] for number, own in before.items()})
        groups, used = Gauge(Spread(counts, now.share), None, False), Gauge(self.aims.spread(), None, True)
        groups.put(now.has)
        used.put({osd: load / BYTE_PARTS for osd, load in self.full.load.items()})
        return [groups, used]

    def go_on(self) -> bool:
        """Whether the pass goes on once no more can be taken from the OSDs above their shares: with groups less even
        than they were, and then for those that stay far above their shares.
        """
        self.limits.clear()
        if self.is_even:
            self.is_even, self.gauges = False, []
            return True
        if self.is_far or self.full.fullest() <= 1 + FAR:
            return False
        self.go_far()
        return True

    def go_far(self) -> None:
        """From now on it is for the OSDs that stay far above their shares, and for their sake pools may get further
        from theirs.
        """
        self.is_far, self.gauges, above = True, self.gauges_now(), dict[int, int]()
        for number, own in self.pools.items():
            parts = replace(self.laid[number], counts=own.live.before.counts_in[number]).deviations()
            self.most[number] = max(FAR_POOL, farthest(parts.values()))
            for osd, more in parts.items():
                above[osd] = above.get(osd, 0) + more
        self.most_all = max(FAR_ALL_POOLS, farthest(above.values()))

    def leaving(self, own: PoolPlaces, osd: int) -> dict[int, set[int]]:
        """The groups of a pool that may go from an OSD, each with the failure domains to which it may not go. What is
        found is kept until something moves.
        """
        key = own.number, osd
        if key not in self.kept:
            self.kept[key] = own.leaving(osd)
        return self.kept[key]

    def closed(self, own: PoolPlaces, osd: int) -> set[int]:
        """The failure domains to which no group of a pool may go from an OSD that has some which may go."""
        key = own.number, osd
        if key not in self.kept_closed:
            self.kept_closed[key] = set.intersection(*self.leaving(own, osd).values())
        return self.kept_closed[key]

    def emptier(self, own: PoolPlaces, full: int) -> list[int]:
        """The OSDs emptier than another in place of which the rule of a pool might have chosen them, failure domains
        aside.
        """
        block, shares = own.block_of(full), self.laid[own.number].shares
        beside = [osd for osd in self.ranked if osd in shares and block is not None and block.is_beside(full, osd)]
        return [osd for osd in beside if self.full.ratio(osd) < self.full.ratio(full)]

    def beside(self, own: PoolPlaces, osd: int) -> frozenset[int]:
        """The OSDs in place of which the rule of a pool might have chosen an OSD and which take groups, failure domains
        aside. What is found is kept: it is the same for pools with the same shares.
        """
        key, block, laid = (own.number, osd), own.block_of(osd), self.laid[own.number]
        if key not in self.kept_beside:
            found = frozenset[int]()
            if block is not None and osd in laid.shares:
                alike = id(block), id(laid.shares), block.beside[osd]
                if alike not in self.alike:
                    there = (other for other in laid.shares if other not in laid.closed)
                    self.alike[alike] = frozenset(other for other in there if block.is_beside(osd, other))
                found = self.alike[alike]
            self.kept_beside[key] = found
        return self.kept_beside[key]

    def near(self, own: PoolPlaces, full: int, few: int) -> list[int]:
        """The emptiest OSDs to which groups of a pool may go from an OSD. What is found is kept until something
        moves.
        """
        key = own.number, full, few
        if key not in self.kept_near:
            self.kept_near[key] = self.nearest(own, full, few)
        return self.kept_near[key]

    def nearest(self, own: PoolPlaces, full: int, few: int) -> list[int]:
        """The same, looked for."""
        block, ratio, beside = own.block_of(full), self.full.ratio(full), self.beside(own, full)
        if block is None or not beside or not self.leaving(own, full):
            return []
        closed, domains = self.closed(own, full), block.domains
        there = islice((osd for osd in self.ranked if osd in beside), few)
        return [osd for osd in there if domains[osd] not in closed and self.full.ratio(osd) < ratio]

    def ways(self, full: int, few: int, is_whole: bool) -> list[Way]:
        """The moves from an OSD by which something is gained, the best first: all, or those that gain more than any of
        a pool which was passed over, as its places are too small for the best move.
        """
        found = list[Way]()
        best, floor, rise = 0.0, 0.0, 2 * (self.full.ratio(full) - self.full.ratio(self.ranked[0]))
        there = [(own, own.sizes_on(full)) for own in self.movable if own.on.get(full)]
        for own, sizes in sorted(there, key=lambda entry: -entry[1][0]):
            if not is_whole and sizes[0] * rise < best:
                floor = max(floor, sizes[0] * rise)
                continue
            for osd in self.near(own, full, few):
                if self.keeps(own.number, full, osd) and self.keeps_all(full, osd):
                    more = self.ways_to(own, sizes, full, osd)
                    best = max([best, *(-way[0] for way in more)])
                    found += more
        return sorted(way for way in found if way[0] < -floor)

    def ways_to(self, own: PoolPlaces, sizes: list[int], full: int, osd: int) -> list[Way]:
        """The moves of a pool from an OSD to another by which something is gained."""
        limit, gain = self.limit(full, osd, 1), self.full.gain
        gains = ((gain(full, osd, size), size) for size in sizes)
        ways = ((-gained, own.number, osd, size) for gained, size in gains if gained > 0 and limit.lets(size))
        return [way for way in ways if self.lets(own, way[3], full, osd)]

    def exchanges(self, full: int) -> list[Exchange]:
        """The best exchanges between an OSD and others by which something is gained, in their order."""
        found, going = BestExchanges(TRIED), self.going_from(full)
        for osd in (osd for osd in self.ranked if osd in going):
            pair = OsdPair(self.full, full, osd, self.limit(full, osd, 0))
            if not found.is_beaten(pair.gain(pair.best) * MORE):
                self.exchange(found, pair, going[osd])
        return found.found

    def going_from(self, full: int) -> dict[int, list[Going]]:
        """The pools of which something may go from an OSD, by the OSDs to which it may."""
        found: dict[int, list[Going]] = {}
        for own in self.movable:
            if own.on.get(full):
                for osd in self.near(own, full, FEW):
                    sizes = self.fitting(own, own.sizes_on(full), full, osd)
                    if sizes:
                        found.setdefault(osd, []).append((own.number, sizes))
        return found

    def fitting(self, own: PoolPlaces, sizes: list[int], leaves: int, comes: int) -> list[int]:
        """Those of some sizes for which the disk of an OSD has room where they go there from another."""
        if self.rooms is None:
            return sizes
        found = [size for size in sizes if self.rooms.may_go(own, size, leaves, comes)]
        self.is_unfit |= len(found) < len(sizes)
        return found

    def note_exchanges(self, full: int) -> None:
        """Notes whether exchanges are left for the sake of a disk, as far as nothing else has been noted yet."""
        rooms = self.rooms
        if rooms is None or rooms.has_stopped or not self.is_unfit:
            return
        self.rooms = None
        ways = self.exchanges(full)
        self.rooms = rooms
        rooms.has_stopped = any(
            not rooms.may_go(self.pools[number], size, full, osd)
            or not rooms.may_go(self.pools[other], less, osd, full)
            for _, number, osd, size, other, less in ways
        )

    def exchange(self, found: BestExchanges, pair: OsdPair, going: list[Going]) -> None:
        """Puts the exchanges between two OSDs to those that are found: a pool by which it gets farther from its shares
        changes places with its own groups alone.
        """
        backs = {number: (sizes, is_near) for number, sizes, is_near in self.back_to(pair.leaves, pair.comes)}
        near = Backs((number, sizes) for number, (sizes, is_near) in backs.items() if is_near)
        for number, sizes in going:
            is_near = self.keeps(number, pair.leaves, pair.comes)
            there = [near] if is_near else []
            if number in backs and not (is_near and backs[number][1]):
                there.append(Backs([(number, backs[number][0])]))
            for size in sizes:
                for own in there:
                    pair.put(found, number, size, own)

    def back_to(self, full: int, osd: int) -> Iterator[Back]:
        """The pools of which groups may come from an OSD to a fuller one, with what these hold, and whether such a pool
        stays near its shares by that.
        """
        for own in self.movable:
            if own.on.get(osd) and full in self.beside(own, osd):
                sizes = self.fitting(own, own.sizes_on(osd), osd, full)
                if sizes:
                    yield own.number, sizes, self.keeps(own.number, osd, full)

    # What goes

    def free(self, own: PoolPlaces, size: int, leaves: int, comes: int) -> list[int]:
        """The first groups of a pool that hold so much and may go from an OSD to another, as far as is known."""
        block = own.block_of(leaves)
        if block is None:
            return []
        domain, shut = block.domains[comes], self.shut
        groups = (
            group
            for group, taken in self.leaving(own, leaves).items()
            if own.sizes[group] == size and domain not in taken and (own.number, group, leaves, comes) not in shut
        )
        if self.rooms is not None:
            fits = partial(self.rooms.may_come, own, leaves=leaves, comes=comes)
            groups = (group for group in groups if fits(group))
        return list(islice((group for group in groups if own.would_stay(group, leaves, comes)), GROUPS))

    def goes(self, own: PoolPlaces, size: int, leaves: int, comes: int) -> int | None:
        """The group of a pool that has gone from an OSD to another, of those of a size; None where none has."""
        for group in self.free(own, size, leaves, comes):
            found = moved(own, group, leaves, comes)
            if found is not None:
                self.count(own, found, leaves, comes)
                return found
            self.shut.add((own.number, group, leaves, comes))
        return None

    def count(self, own: PoolPlaces, group: int, leaves: int, comes: int) -> None:
        """Counts a group where it has gone."""
        counts, totals, over = self.laid[own.number].counts, own.live.totals, self.over[own.number]
        self.forget(own, {leaves, comes, *own.sets[group]})
        if self.rooms is not None:
            self.rooms.count(own, group, leaves, comes)
        self.full.move(leaves, comes, own.sizes[group])
        for osd, more in ((leaves, -1), (comes, 1)):
            counts[osd] = counts.get(osd, 0) + more
            totals[osd] = totals.get(osd, 0) + more
            self.above[osd] += more * GROUP_PARTS
            if osd in over:
                over[osd] += more * GROUP_PARTS
        for gauge, own_size in zip(self.gauges, (1, own.sizes[group] / BYTE_PARTS)):
            gauge.move(leaves, comes, own_size)
        self.shut = {entry for entry in self.shut if entry[:2] != (own.number, group)}
        self.moves.append(own.name(group))

    def forget(self, own: PoolPlaces, osds: Iterable[int | None]) -> None:
        """Forgets what is kept and may be otherwise where a group of a pool has moved, which lies or lay on OSDs."""
        self.kept_near.clear()
        self.limits.clear()
        for osd in osds:
            if osd is not None:
                self.kept.pop((own.number, osd), None)
                self.kept_closed.pop((own.number, osd), None)

    def by_move(self, full: int, few: int) -> bool:
        """Whether something has gone from an OSD by one move."""
        return any(
            self.goes(self.pools[number], size, full, osd) is not None
            for is_whole in (False, True)
            for _, number, osd, size in self.ways(full, few, is_whole)
        )

    def by_exchange(self, full: int) -> bool:
        """Whether something has gone from an OSD as two groups have changed places."""
        self.is_unfit = False
        for _, number, osd, size, other, less in self.exchanges(full):
            own, back = self.pools[number], self.pools[other]
            gone = self.goes(own, size, full, osd) if self.free(back, less, osd, full) else None
            if gone is None:
                continue
            if self.goes(back, less, osd, full) is not None:
                return True
            take_back(own, gone)
            self.count(own, gone, osd, full)
            del self.moves[-2:]
        self.note_exchanges(full)
        return False

    def fullest(self, stuck: set[int]) -> int | None:
        """The fullest OSD that is not near its share, of several the lowest; None where there is none but those that
        are stuck.
        """
        bound = 1 + (FAR if self.is_far else NEAR)
        left = [(-self.full.ratio(osd), osd) for osd in self.full.osds() if osd not in stuck]
        worst = min(left, default=(0.0, 0))
        return worst[1] if -worst[0] > bound else None

    def play(self, tell: Callable[[str], None]) -> None:
        """Makes moves until the fullest OSD from which anything can be taken is near its share. What nothing could be
        taken from is tried again at the end, where there have been moves since; then once more, with groups that get
        less even by that, and with pools that may get further from their shares.
        """
        stuck: set[int] = set()
        since = len(self.moves)
        while True:
            full = self.fullest(stuck)
            if full is None:
                if (not stuck or since == len(self.moves)) and not self.go_on():
                    return
                stuck, since = set(), len(self.moves)
                continue
            tell(f"last pass: {len(self.moves)} moves, osd.{full} at {self.full.ratio(full):.2f} of its share")
            self.ranked = sorted(self.full.osds(), key=lambda osd: (self.full.ratio(osd), osd))
            if not (self.by_move(full, FEW) or self.by_move(full, len(self.ranked)) or self.by_exchange(full)):
                stuck.add(full)
