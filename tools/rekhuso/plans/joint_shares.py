"""The shares of all pools of a cluster together, by which a plan may go (`cluster/joint.py` reckons them)."""

from __future__ import annotations

from collections import Counter
from collections.abc import Collection, Mapping, Sequence
from math import inf, prod

from ..cluster.joint import JointPool, PlaceBound, joint_places, least_fullest
from ..cluster.pool_data import Data
from ..cluster.reach import Reach
from ..program.maps import Pool, RuleStep
from .rounds import Live
from .shared_by import SharedBy

# The parts of a place in which shares are told.
PARTS = 1 << 40


class BlockBounds:
    """The bounds of a block of a rule, for a pool with so many whole groups, beside which OSDs have so many places of
    groups left short.
    """

    def __init__(self, reach: Reach, groups: int, short: Mapping[int, int]) -> None:
        """Takes the reach of the block."""
        self.reach, self.groups, self.short = reach, groups, short

    def bound(self, root: int, steps: Sequence[RuleStep], visits: float) -> PlaceBound:
        """The bounds below a bucket to which so many groups come."""
        step, more, below = steps[0], steps[1:], list[PlaceBound]()
        weights, parts = self.reach.items(root, step)
        inner = prod(self.reach.count(own) for own in more)
        for item, part in parts.items():
            if not weights[item]:
                continue
            osds = [osd for osd in self.reach.of_type(item, 0) if self.reach.weight(osd)]
            most = visits * float(part) * inner if more else visits
            if part < 1:
                most += sum(self.short.values())
            else:
                most += sum(self.short.get(osd, 0) for osd in osds)
            found = self.bound(item, more, visits * float(part)) if more else None
            below.append(PlaceBound(most, (), osds) if found is None else PlaceBound(most, found.below, found.osds))
        return PlaceBound(inf, below)


def block_of(
    live: Live, pool: Pool, block: tuple[Reach, int, list[RuleStep]], tree: Mapping[int, int]
) -> tuple[float, PlaceBound]:
    """How many places a block has of a pool, and its bounds."""
    reach, root, steps = block
    sets = [set(up.places).intersection(reach.of_type(root, 0)) for up in live.before.ups_in(pool)]
    count = int(sum(reach.found.values()))
    short = [own for own in sets if len(own) < count]
    bounds = BlockBounds(reach, len(sets) - len(short), Counter(osd for own in short for osd in own if osd is not None))
    bound = bounds.bound(root, steps, float(len(sets) - len(short)))
    places = sum(live.before.counts_in[pool["id"]].get(osd, 0) for osd in tree)
    return min(float(places), bound.room()), bound


def scaled(shares: Mapping[int, float], osds: Collection[int], places: float) -> dict[int, float]:
    """Shares of some OSDs, by which these have so many places."""
    own = {osd: shares.get(osd, 0.0) for osd in sorted(osds)}
    total = sum(own.values())
    return {osd: share * places / total for osd, share in own.items()} if total else own


def joint_pool(live: Live, at: int, pool: Pool, place: float, is_free: bool) -> JointPool:
    """A pool of the map of that number, whose places each hold so much, as the shares of all pools are reckoned; where
    nothing of it is planned, or its rule has blocks that share OSDs, as it lies.
    """
    number, before, rule = pool["id"], live.before, live.before.reach_for(pool)
    osds = before.shares_by[number].keys()
    if not is_free or None in rule.blocks or not osds:
        counts = {osd: float(before.counts_in[number].get(osd, 0)) for osd in sorted(osds)}
        return JointPool(place, (), scaled(before.shares_by[number], osds, sum(counts.values())), counts)
    trees = before.trees_for(pool)
    blocks = [block_of(live, pool, own, tree) for own, tree in zip(rule.blocks, trees) if own is not None]
    places = sum(own for own, _ in blocks)
    like = (at, pool["rule"], pool["size"]) if round(places) == pool["pg_num"] * pool["size"] else None
    share, own = (scaled(shares, osds, places) for shares in (before.shares_by[number], before.reach_by[number]))
    return JointPool(place, blocks, share, own, like)


def joint_pools(lives: Sequence[Live], wanted: Collection[int], data: Data | None) -> dict[int, JointPool]:
    """The pools of a cluster, of which some are planned, as the shares of all pools are reckoned."""
    pools: dict[int, JointPool] = {}
    for at, live in enumerate(lives):
        free = set(wanted).difference(live.refusals())
        for number, pool in live.pools.items():
            count = sum(live.before.counts_in[number].values()) or 1
            place = 0.0 if data is None else data.of_pool[number] / count
            pools[number] = joint_pool(live, at, pool, place, number in free and pool["pg_num"] > 1)
    return pools


def lay_joint(lives: Sequence[Live], wanted: Collection[int], data: Data | None) -> None:
    """Tells the maps of a cluster the shares of all pools together, of which some are planned, if they go by these."""
    if lives[0].goal is not SharedBy.JOINT or lives[0].joint:
        return
    pools = joint_pools(lives, wanted, data)
    found = joint_places(pools)
    for live in lives:
        live.lay_joint(
            {
                number: [
                    {osd: round(found[number].get(osd, 0.0) * PARTS) for osd in tree}
                    for tree in live.before.trees_for(pool)
                ]
                for number, pool in live.pools.items()
                if pools[number].blocks
            }
        )


def least_to_weight(lives: Sequence[Live], wanted: Collection[int], data: Data | None) -> float:
    """How full any plan of some pools leaves the fullest OSD at least, to what it weighs for."""
    pools = joint_pools(lives, wanted, data)
    return least_fullest(pools, joint_places(pools))
