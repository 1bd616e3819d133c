"""The plan of a whole cluster: its pools one after the other, each for the sake of all, in rounds.

Where no pool has a move beside the others as they lie, there is no plan. Else, in the first round, a pool that may have
moves still to come counts for the others with no more than its plan will leave. In each further round the pools are
planned again from where the one before has led, as what they carry from the others is known by then, until none has a
move.
"""

from __future__ import annotations

from collections import Counter
from collections.abc import Callable, Iterable, Iterator, Mapping, Sequence
from contextlib import contextmanager
from typing import NamedTuple, Protocol

from ..cluster.cleanup import barred, group_fault, pool_of_group
from ..cluster.evenness import Spread, standing_in
from ..cluster.judge import Judge, Reason, present_of
from ..cluster.names import Names
from ..cluster.pool_data import Data
from ..cluster.shares import Shares
from ..faults import Refused
from ..program.maps import Exceptions, Map, Pool, entries_of, rule_for
from ..program.session import MOST_MOVES, Session
from .at_rest import AtRest
from .shared_by import SharedBy
from .loads import (
    GROUP_PARTS,
    Laid,
    Loads,
    STEP_PARTS,
    closed_in,
    held_by_places,
    offsets,
    order_of,
    places_in,
    shares_of,
)
from .pairs import settled
from .steps import changed_groups, in_old_order

# How many rounds there are at most, how many moves are tried from the fullest OSD, and by which ratio it is to get less
# full by moves to OSDs that differ by little.
MOST_ROUNDS, TRIED, LOWER = 12, 64, 1.02
# How many OSDs, those with most and those with fewest groups, are looked at first for whether a pool may have a move.
ENDS = 64
# Up to how many pools, times the OSDs, the fullest OSD is lowered once all pools are at rest.
SMALL_CLUSTER = 1 << 14
# Why a pool of several blocks gets no plan, as the program says it.
REFUSED_BLOCKS = "29 BalanceRule"
# What two OSDs count as having, and by how much two must differ, so that a plan is one move from the first to the
# second; in 256ths of a group.
VAST, GAP = 1 << 28, 3 << 27


class Live:
    """A map while its pools are planned: its exceptions as Ceph has them, names, how a monitor reads its rules, the
    session that goes on, and what was where before. What of it changes its own methods change alone.
    """

    def __init__(
        self, value: Map, kept: Exceptions, names: Names, judge: Judge, session: Session, before: Shares | None = None
    ) -> None:
        """Takes a session over a map, and asks for the set of each group, unless it is told where all are."""
        self.value, self.kept, self.names, self.judge, self.session = value, kept, names, judge, session
        self.before = Shares(value, session.pool_ups(value["pools"])) if before is None else before
        self.pools: dict[int, Pool] = {pool["id"]: pool for pool in value["pools"]}
        self.totals = dict(self.before.counts)
        self.present = present_of(value)
        self.barred = barred(judge, value, self.before.sets)
        self.goal, self.takes_all, self.freed = SharedBy.REACH, False, set[int]()
        # Of OSDs of next to no weight none takes groups, unless all are to.
        self.closed = closed_in(self.before.reached)
        self.shares: dict[tuple[int, ...], tuple[dict[int, int], dict[int, int], frozenset[int]]] = {}
        self.alone: dict[int, str] = {}
        self.joint_trees: Mapping[int, list[dict[int, int]]] = {}
        self.joint: dict[int, dict[int, float]] = {}

    def leave_alone(self, pools: Mapping[int, str]) -> None:
        """Leaves some pools alone, each for its reason: no plan moves a group of theirs."""
        self.alone = {number: why for number, why in pools.items() if number in self.pools}

    def refusals(self) -> dict[int, str]:
        """The pools of which nothing is planned before anything is tried, each with why."""
        return {**{number: barred_words(why) for number, why in self.barred.items()}, **self.alone}

    def has_one_block(self, pool: Pool) -> bool:
        """Whether the rule of a pool has one block, as it must have to be planned."""
        steps = rule_for(self.value, pool)["steps"]
        return [step[0] for step in steps].count("emit") == 1

    def goal_trees(self, pool: Pool) -> list[dict[int, int]]:
        """By what the OSDs of a pool share its places, tree by tree: what its rule can give them, or their weights."""
        if self.goal is SharedBy.JOINT and pool["id"] in self.joint_trees:
            return self.joint_trees[pool["id"]]
        return self.before.trees_for(pool) if self.goal is SharedBy.WEIGHT else self.before.reach_trees(pool)

    @property
    def goals(self) -> dict[int, dict[int, float]]:
        """How many places of each pool the OSDs are to have."""
        if self.goal is SharedBy.JOINT:
            return self.joint
        return self.before.shares_by if self.goal is SharedBy.WEIGHT else self.before.reach_by

    def lay_joint(self, trees: Mapping[int, list[dict[int, int]]]) -> None:
        """Takes what the rules can give OSDs of all pools together, of some pools."""
        self.joint_trees = trees
        self.before.keep(tree for own in trees.values() for tree in own)
        own = {number: self.before.shared(self.pools[number], found) for number, found in trees.items()}
        self.joint = {**self.before.reach_by, **own}

    def go_toward(self, goal: SharedBy, takes_all: bool) -> None:
        """Goes by other shares; all OSDs take groups if they are to, also those of next to no weight."""
        self.goal, self.takes_all = goal, takes_all

    def go_as(self, other: Live) -> None:
        """Goes by the shares by which another does, of the same map as it lies."""
        self.goal, self.joint, self.joint_trees = other.goal, other.joint, other.joint_trees

    def after(self, value: Map, kept: Exceptions, before: Shares) -> Live:
        """The same with other exceptions, by which groups lie elsewhere: it goes by the same shares, and leaves the
        same pools alone.
        """
        found = Live(value, kept, self.names, self.judge, self.session, before)
        found.go_toward(self.goal, self.takes_all)
        found.leave_alone(self.alone)
        return found

    def lay(self, pool: Pool, place: int, counts: dict[int, int]) -> Laid:
        """A pool as it lies, whose places each hold so much. Pools of one rule that are as large have the same
        shares.
        """
        trees, goals = self.before.trees_for(pool), self.goal_trees(pool)
        key = pool["rule"], pool["size"], *map(id, goals), *places_in(goals, counts), *places_in(trees, counts)
        if key not in self.shares:
            shares = shares_of(goals, counts)
            closed = frozenset[int]() if self.takes_all else self.closed.intersection(shares)
            self.shares[key] = shares, {} if goals == trees else offsets(shares_of(trees, counts), shares), closed
        shares, offset, closed = self.shares[key]
        return Laid(place, shares, counts, offset, closed)

    def count(self, moved: Mapping[int, int]) -> None:
        """Counts groups of all pools more that OSDs have."""
        for osd, groups in moved.items():
            self.totals[osd] = self.totals.get(osd, 0) + groups

    def is_by_weight(self) -> bool:
        """Whether the rules can give OSDs what they weigh."""
        return self.before.shares_by == self.before.reach_by

    def changed(self) -> list[str]:
        """The groups that have other pairs now."""
        return changed_groups(self.value, self.session.dump())

    def down(self) -> list[int]:
        """The OSDs that are there and down."""
        return [osd["id"] for osd in self.value["osds"] if osd["exists"] and not osd["up"]]

    @contextmanager
    def all_up(self) -> Iterator[None]:
        """All OSDs that are there are up meanwhile, so that up sets are the mapped ones."""
        down = self.down()
        if down:
            self.session.change(up=down)
        yield
        if down:
            self.session.change(down=down)

    def settle(self) -> Map:
        """The session's map with the fewest pairs, where all OSDs are up then; some pools may have moves by that."""
        ends = self.session.dump()
        found = in_old_order(self.value, settled(self.session, ends))
        now: dict[str, list[list[int]]] = dict(entries_of(found, "pg_upmap_items"))
        for group, pairs in entries_of(ends, "pg_upmap_items"):
            pool = int(group.split(".")[0])
            if len(now.get(group, ())) < len(pairs) >= self.pools[pool]["size"]:
                self.freed.add(pool)
        return found

    def take_back(self, groups: list[str], value: Map | None = None) -> None:
        """Gives some groups the pairs that they had before, or in another state, where they have others."""
        states = self.value if value is None else value, self.session.dump()
        before, now = (dict(entries_of(own, "pg_upmap_items")) for own in states)
        gone = [group for group in groups if group in now and group not in before]
        come = [[group, before[group]] for group in groups if group in before and now.get(group) != before[group]]
        if gone or come:
            self.session.change(old_items=gone, new_items=come)

    def bar(self, groups: list[str]) -> None:
        """Gives some groups, beside the pairs that they had before, as many that do nothing as they may have: none of
        them is moved then.
        """
        before: dict[str, list[list[int]]] = dict(entries_of(self.value, "pg_upmap_items"))
        ups = self.session.ups(groups)
        up = [osd["id"] for osd in self.value["osds"] if osd["up"]]
        items = []
        for group in groups:
            pairs, size = before.get(group, []), self.pools[int(group.split(".")[0])]["size"]
            there = {*ups[group].places, *(osd for pair in pairs for osd in pair)}
            idle = [osd for osd in up if osd not in there][:1]
            other = [osd for osd in up if [osd] != idle][:1]
            if idle and other:
                items.append([group, pairs + [idle + other] * (size - len(pairs))])
        self.session.change(new_items=items)

    def moved(self, pool: Pool, laid: Laid) -> dict[int, int]:
        """How many groups more of a pool each OSD has that may have some, than the pool has there: by its groups, or
        where there are fewer OSDs by these, which are asked how many groups of all pools they have.
        """
        if pool["pg_num"] < len(laid.shares):
            now = standing_in(self.session.pool_sets([pool]).values())
            found = {osd: now[osd] - laid.counts.get(osd, 0) for osd in now.keys() | laid.counts.keys()}
        else:
            counts = self.session.counts(laid.shares)
            found = {osd: count - self.totals.get(osd, 0) for osd, count in counts.items()}
        found = {osd: groups for osd, groups in found.items() if groups}
        self.count(found)
        return found


def left_out(live: Live, groups: list[str]) -> dict[str, Reason]:
    """Those of some groups that are left out of a plan, as a monitor would take pairs away that give them the sets
    that they have now; each with the reason.
    """
    with live.all_up():
        ups = live.session.ups(groups)
    judge, present, found = live.judge, live.present, {}
    for group, up in ups.items():
        why = group_fault(group, present.pools, judge.pending)
        why = why or judge.fault(pool_of_group(group, present), up.places, present)
        if why is not None:
            found[group] = why
    return found


def barred_words(why: Reason) -> str:
    """Why a pool has no plan in which no exception can stay."""
    return f"Ceph's monitor takes every exception of this pool away again, by {why}"


def pools_of(groups: Iterable[str]) -> set[int]:
    """The pools of some groups."""
    return {int(group.split(".")[0]) for group in groups}


class ByPairs(Protocol):
    """What plans pools of several blocks by pairs."""

    def blocks(self, live: Live, pool: Pool) -> Sequence[object]:
        """The blocks by which a pool can be planned so."""

    def plan(self, live: Live, pool: Pool, above: dict[int, int], apart: int, most: int) -> int:
        """Makes at most so many moves between OSDs that differ by more than so many parts of a group."""


class PoolLoads(NamedTuple):
    """What is told of a pool: what OSDs carry, and how far each is above its share with that."""

    loads: dict[int, int]
    above: dict[int, int]


class Planner:
    """Plans pools of a cluster, one after the other."""

    def __init__(self, lives: list[Live], wanted: list[int], data: Data | None, half: int) -> None:
        """Takes the maps of a cluster, which pools are to be planned, what the pools hold, and half of what two OSDs
        must differ by for a move, in 256ths of a group.
        """
        self.lives, self.half = lives, half
        self.live_of = {number: live for live in lives for number in live.pools}
        pools = {number: live.pools[number] for number, live in self.live_of.items()}
        places = {number: pool["pg_num"] * pool["size"] for number, pool in pools.items()}
        held = None if data is None else {number: data.of_pool[number] for number in pools}
        of_place = dict.fromkeys(pools, 0) if held is None else held_by_places(held, places)
        self.laid = {}
        for number, live in self.live_of.items():
            counts = dict(live.before.counts_in[number])
            self.laid[number] = live.lay(pools[number], of_place[number], counts)
        self.order = order_of(wanted, places, held)
        self.refusals = {number: why for live in lives for number, why in live.refusals().items() if number in wanted}
        self.loads: Loads
        self.is_at_rest = False
        self.by_pairs: ByPairs | None = None
        self.is_one_of_several = False
        self.left: dict[str, Reason] = {}
        self.hopeless: set[int] = set()
        self.at_rest = AtRest(2 * half * STEP_PARTS)

    def told(self, number: int) -> PoolLoads:
        """What is told of a pool as the others lie."""
        loads = self.loads.told(number, self.half)
        return PoolLoads(loads, self.loads.above(number, loads))

    def may_move(self, number: int, told: PoolLoads, is_rough: bool = False) -> bool:
        """Whether a pool may have a move, or but for rounding might, beside what the others lay on OSDs."""
        if number in self.refusals or not self.is_planned(number):
            return False
        return self.at_rest.has_move(number, told.above, self.laid[number], is_rough)

    def is_seen(self, number: int, osds: list[int]) -> bool:
        """Whether some OSDs show already that a pool may have a move, of which nothing is known."""
        if number in self.refusals or not self.is_planned(number) or number in self.at_rest.found:
            return False
        return self.at_rest.has_move(number, self.loads.some_above(number, self.half, osds), self.laid[number], True)

    def is_planned(self, number: int) -> bool:
        """Whether the rule of a pool is one by which a plan can be made."""
        live = self.live_of[number]
        return live.has_one_block(live.pools[number]) or self.goes_by_pairs(number)

    def goes_by_pairs(self, number: int) -> bool:
        """Whether the rule of a pool has several blocks by which its plan can be made."""
        live = self.live_of[number]
        return self.by_pairs is not None and bool(self.by_pairs.blocks(live, live.pools[number]))

    def begun(self) -> set[int]:
        """The pools that are not at rest, once the first move that there is has been made: those that may have one.
        None where no pool has any.
        """
        self.loads = Loads(self.laid)
        if not any(self.plan(pool, 1) for pool in self.order):
            return set()
        groups = self.loads.groups
        ranked = sorted(groups, key=groups.__getitem__)
        ends = ranked if len(ranked) <= 2 * ENDS else ranked[:ENDS] + ranked[-ENDS:]
        return {
            other for other in self.order if self.is_seen(other, ends) or self.may_move(other, self.told(other), True)
        }

    def plan(self, number: int, most: int = MOST_MOVES) -> int:
        """Plans a pool from where it is, where it may have a move, and tells how many moves were made; the program may
        refuse it.
        """
        told, pool = self.told(number), self.live_of[number].pools[number]
        moves = self.moves(pool, told, most) if self.may_move(number, told) else 0
        moved = self.live_of[number].moved(pool, self.laid[number]) if moves else {}
        self.loads.put(number, moved)
        self.at_rest.drop([number] if moves else [])
        for osd, groups in moved.items():
            if osd in told.above:
                told.above[osd] += groups * GROUP_PARTS
        if moves < most and number not in self.refusals:
            self.at_rest.put(number, told.above)
        return moves

    def moves(self, pool: Pool, told: PoolLoads, most: int) -> int:
        """How many moves of a pool were made; none where the program refuses it."""
        number, live = pool["id"], self.live_of[pool["id"]]
        try:
            if self.by_pairs is not None and self.goes_by_pairs(number):
                return self.by_pairs.plan(live, pool, dict(told.above), 2 * self.half * STEP_PARTS, most)
            return live.session.balance(number, most, 2 * self.half, told.loads).moves
        except Refused as refused:
            self.refusals[number] = f"{refused.number} {refused.name}"
            return 0

    def leave_out(self) -> set[int]:
        """Takes groups back that are left out, which are not moved again, and tells their pools. A pool all of whose
        moves are left out is not planned again.
        """
        found: set[int] = set()
        for live in self.lives:
            moved = [group for group in live.changed() if group not in self.left]
            groups = left_out(live, moved)
            if groups:
                self.hopeless |= pools_of(groups) - pools_of(set(moved).difference(groups))
                gone = live.session.ups(list(groups))
                live.take_back(list(groups))
                live.bar(list(groups))
                self.left.update(groups)
                self.at_rest.drop(pools_of(groups))
                found |= pools_of(groups)
                for group in groups:
                    self.come_back(live, group, gone[group].places, live.before.ups[group].places)
        return found

    def end(self) -> None:
        """Gives the groups that are left out the pairs that they had before, and no others."""
        for live in self.lives:
            own = [group for group in self.left if int(group.split(".")[0]) in live.pools]
            if own:
                live.take_back(own)

    def come_back(self, live: Live, group: str, places: Sequence[int | None], before: Sequence[int | None]) -> None:
        """Counts a group at the places where it was before, and no longer at others."""
        moved = {osd: 1 for osd in before if osd is not None and osd not in places}
        moved.update({osd: -1 for osd in places if osd is not None and osd not in before})
        live.count(moved)
        self.loads.put(int(group.split(".")[0]), moved)

    def play(self, tell: Callable[[str], None]) -> None:
        """Plans all pools in rounds until no pool has a move, and tells how far it is. Nothing is planned where all are
        at rest.
        """
        for number, live in self.live_of.items():
            if number in self.order and not live.has_one_block(live.pools[number]) and not self.goes_by_pairs(number):
                self.refusals.setdefault(number, REFUSED_BLOCKS)
        later = self.begun()
        self.loads.put_off(later, self.half * STEP_PARTS)
        self.is_at_rest = not later
        for number in range(1, MOST_ROUNDS + 1):
            moves = 0 if self.is_at_rest else self.round(number, tell)
            self.is_at_rest = not moves and not self.lowered()
            if self.is_at_rest:
                break
            self.leave_out()
        self.end()

    def lowered(self) -> int:
        """Moves from the OSD that is fullest over all pools, as long as there is one by which the cluster gains as much
        as by any move: without data, and where that OSD is more than the deviation above its shares, or the plan is one
        of several. How many there are; none in a cluster of many pools and OSDs, where each look takes long.
        """
        moves = 0
        if len(self.order) * len(self.loads.groups) > SMALL_CLUSTER or any(own.place for own in self.laid.values()):
            return 0
        while self.has_lowered(self.beside_shares(), self.apart_from):
            moves += 1
        return moves + (self.lowered_by_ratio() if self.is_one_of_several else 0)

    def lowered_by_ratio(self) -> int:
        """The same of the OSD that is fullest to its weight, to OSDs that differ by little, but stay less full with a
        place more: as often as the fullest gets less full by it. How many moves there are.
        """
        moves = 0
        while (first := self.beside_weights().fullest()) > 0:
            kept, own = [live.session.dump() for live in self.lives], 0
            while self.beside_weights().fullest() > first / LOWER:
                if not self.has_lowered(self.beside_weights(), self.less_full_than):
                    for live, value in zip(self.lives, kept):
                        self.restore(live, value)
                    return moves
                own += 1
            moves += own
        return moves

    def beside_shares(self) -> Spread:
        """By how much OSDs are above their shares over all pools, and these, in parts."""
        wanted = Counter[int]()
        for own in self.laid.values():
            wanted.update(own.shares)
        return Spread(self.loads.groups, wanted)

    def beside_weights(self) -> Spread:
        """What OSDs that take groups have over all pools, and what they weigh for, in parts."""
        has, share = Counter(self.loads.groups), Counter[int]()
        for own in self.laid.values():
            has.update(own.shares)
            share.update(own.shares)
            share.update({osd: more * STEP_PARTS for osd, more in own.offset.items()})
        closed = frozenset().union(*(own.closed for own in self.laid.values()))
        return Spread(has, {osd: own for osd, own in share.items() if osd not in closed})

    def apart_from(self, full: int, _: Spread) -> set[int]:
        """The OSDs that have so much less than the fullest as two must differ by for a move."""
        groups, apart = self.loads.groups, 2 * self.half * STEP_PARTS
        return set() if 2 * groups[full] <= apart else {osd for osd in groups if groups[full] - groups[osd] > apart}

    def less_full_than(self, full: int, spread: Spread) -> set[int]:
        """The OSDs that are less full than the fullest with one place more."""
        most = spread.ratio(full) / LOWER
        return {osd for osd, own in spread.share.items() if own > 0 and spread.has[osd] + GROUP_PARTS <= most * own}

    def has_lowered(self, spread: Spread, lower: Callable[[int, Spread], set[int]]) -> bool:
        """Whether something has gone from the OSD that is fullest over all pools to one that is lower."""
        full = max(spread.osds(), key=lambda osd: (spread.ratio(osd), -osd), default=-1)
        low = set[int]() if full < 0 else lower(full, spread)
        found = []
        for number in self.order if low else ():
            own = self.laid[number]
            if number in self.refusals or number in self.hopeless or not own.counts.get(full):
                continue
            if self.live_of[number].has_one_block(self.live_of[number].pools[number]):
                above = self.told(number).above
                free = (osd for osd in above if osd in low and osd not in own.closed)
                found += [(above[osd] - above[full], number, osd) for osd in free if full in above]
        best = sorted(way for way in found if -way[0] > GROUP_PARTS)[:TRIED]
        return any(self.goes(number, full, osd) for _, number, osd in best)

    def restore(self, live: Live, value: Map) -> None:
        """Gives the groups of a map the pairs that they had in another of its states."""
        groups = changed_groups(value, live.session.dump())
        gone = live.session.ups(groups)
        live.take_back(groups, value)
        for group, up in live.session.ups(groups).items():
            self.come_back(live, group, gone[group].places, up.places)
        self.at_rest.drop(pools_of(groups))

    def goes(self, number: int, leaves: int, comes: int) -> bool:
        """Whether the lowest group of a pool has gone from an OSD to another that may."""
        live = self.live_of[number]
        moves = live.session.balance(number, 1, GAP, {leaves: VAST, comes: -VAST}).moves
        if moves:
            self.loads.put(number, live.moved(live.pools[number], self.laid[number]))
            self.at_rest.drop([number])
        return moves > 0

    def goes_on(self) -> bool:
        """Whether a pool has a move once groups have the fewest pairs, as some had as many as they may have."""
        for live in self.lives:
            self.at_rest.drop(live.freed)
            down = live.down() if live.freed else []
            if down:
                live.session.change(down=down)
            if any(self.plan(number, 1) for number in self.order if number in live.freed):
                return True
        return False

    def round(self, number: int, tell: Callable[[str], None]) -> int:
        """Plans each pool that may have a move, and tells how many moves were made."""
        moves, again = 0, [pool for pool in self.order if pool not in self.refusals and pool not in self.hopeless]
        for at, pool in enumerate(again, 1):
            tell(f"round {number}: pool {at} of {len(again)}")
            moves += self.plan(pool)
        return moves
