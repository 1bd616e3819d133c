"""How many places of up sets each OSD has, how many its weight calls for, and how many the rules can give it."""

from __future__ import annotations

from collections import Counter
from collections.abc import Collection, Iterable
from copy import copy
from itertools import chain

from ..program.answers import Up
from ..program.map_forms import FULL_WEIGHT
from ..program.maps import Map, Pool, RuleStep, groups_in, rule_for
from .evenness import standing_in, sums_by_osd
from .json_forms import FullParts, PoolRowParts, RowParts, SpreadParts, TotalParts
from .reach import Full, Reach, ReachByRule, blocks_of


class Shares:
    """How many places of up sets each OSD has, beside the share that its weight calls for and what it can reach."""

    def __init__(self, value: Map, ups: dict[str, Up]) -> None:
        """Takes a lawful map and the up set of each of its groups."""
        self.value, self.ups = value, ups
        self.osds = {osd["id"]: osd for osd in value["osds"]}
        # While OSDs are down that are in, nothing tells by whom a group is short.
        self.has_down = any(own["exists"] and own["weight"] and not own["up"] for own in self.osds.values())
        self.sets = {pool["id"]: list(map(ups.__getitem__, groups_in(pool))) for pool in value["pools"]}
        self.counts_in = {pool["id"]: self.counted(pool) for pool in value["pools"]}
        self.counts = Counter[int](chain.from_iterable(own.elements() for own in self.counts_in.values()))
        self.buckets = {bucket["id"]: bucket for bucket in value["buckets"]}
        self.items = {item: weight for bucket in value["buckets"] for item, weight in bucket["items"]}
        self.trees: dict[int, list[dict[int, int]]] = {}
        self.reaches: dict[tuple[int, int], ReachByRule] = {}
        self.reached_by: dict[int, list[dict[int, int]]] = {}
        # Shares that are known by what trees are, which trees are alike, and trees that are kept for that.
        self.known: dict[tuple[int, ...], dict[int, float]] = {}
        self.alike: dict[tuple[tuple[int, ...], tuple[int, ...]], bool] = {}
        self.kept: list[dict[int, int]] = []
        self.shares_by = {pool["id"]: self.shares_in(pool) for pool in value["pools"]}
        self.reach_by = {pool["id"]: self.reach_in(pool) for pool in value["pools"]}
        self.wanted: dict[int, float] = dict(sums_by_osd(self.shares_by))
        is_reached = all(own is self.reach_by[number] for number, own in self.shares_by.items())
        self.reached: dict[int, float] = self.wanted if is_reached else dict(sums_by_osd(self.reach_by))

    def after(self, value: Map, ups: dict[str, Up], moved: Collection[int]) -> Shares:
        """Those of a map with other exceptions alone, by which groups of some pools have other sets."""
        found = copy(self)
        found.value, found.ups, pools = value, ups, [pool for pool in value["pools"] if pool["id"] in moved]
        found.sets = {**self.sets, **{pool["id"]: list(map(ups.__getitem__, groups_in(pool))) for pool in pools}}
        found.counts_in = {**self.counts_in, **{pool["id"]: found.counted(pool) for pool in pools}}
        found.counts = Counter[int](chain.from_iterable(own.elements() for own in found.counts_in.values()))
        found.reached_by = {number: own for number, own in self.reached_by.items() if number not in moved}
        found.shares_by = {**self.shares_by, **{pool["id"]: found.shares_in(pool) for pool in pools}}
        found.reach_by = {**self.reach_by, **{pool["id"]: found.reach_in(pool) for pool in pools}}
        if found.shares_by != self.shares_by or found.reach_by != self.reach_by:
            found.wanted, found.reached = dict(sums_by_osd(found.shares_by)), dict(sums_by_osd(found.reach_by))
        return found

    def keep(self, trees: Iterable[dict[int, int]]) -> None:
        """Keeps trees, since what is known of them goes by what they are."""
        self.kept.extend(trees)

    def ups_in(self, pool: Pool) -> list[Up]:
        """The up sets of a pool's groups."""
        return self.sets[pool["id"]]

    def counted(self, pool: Pool) -> Counter[int]:
        """In how many groups of a pool each OSD stands."""
        return standing_in([up.places for up in self.ups_in(pool)])

    def weights_for(self, pool: Pool) -> dict[int, int]:
        """The weights of the OSDs that may have groups of a pool: they are below what its rule takes, up and in."""
        return {osd: weight for tree in self.trees_for(pool) for osd, weight in tree.items()}

    def trees_for(self, pool: Pool) -> list[dict[int, int]]:
        """The same tree by tree, where the rule takes several; those with OSDs in common are one."""
        if pool["rule"] not in self.trees:
            steps = rule_for(self.value, pool)["steps"]
            trees: list[set[int]] = []
            for osds in [set(self.below(step[1])) for step in steps if step[0] == "take"]:
                joined = [tree for tree in trees if tree & osds]
                trees = [tree for tree in trees if tree not in joined] + [osds.union(*joined)]
            found = [{osd: self.weight(osd) for osd in tree} for tree in trees]
            kept = [{osd: weight for osd, weight in tree.items() if weight} for tree in found]
            self.trees[pool["rule"]] = [tree for tree in kept if tree]
        return self.trees[pool["rule"]]

    def reach_for(self, pool: Pool) -> ReachByRule:
        """What the pool's rule can give the OSDs of its trees, if that is anything else than by weight; by weight where
        a tree has several blocks.
        """
        key = pool["rule"], pool["size"]
        if key not in self.reaches:
            found = ReachByRule([], [], [])
            steps = rule_for(self.value, pool)["steps"]
            blocks = [(set(self.below(root)), root, own) for root, own in blocks_of(steps)]
            for weights in self.trees_for(pool):
                own = [(root, block) for osds, root, block in blocks if not osds.isdisjoint(weights)]
                reach = Reach(self.buckets, weights, pool["size"])
                found.trees.append(reach.parts(*own[0]) if len(own) == 1 else weights)
                found.full.extend(reach.full)
                found.blocks.append((reach, *own[0]) if len(own) == 1 else None)
            self.reaches[key] = found
        return self.reaches[key]

    def reach_trees(self, pool: Pool) -> list[dict[int, int]]:
        """What a pool's rule can give OSDs, tree by tree: parts of what all of a tree have. Groups left short count in
        full buckets as they lie.
        """
        number = pool["id"]
        if number not in self.reached_by:
            rule = self.reach_for(pool)
            self.reached_by[number] = [self.beside_short(pool, *own) for own in zip(rule.trees, rule.blocks)]
        return self.reached_by[number]

    def whole_reach(self) -> dict[int, dict[int, float]]:
        """How many places of each pool its rule can give the OSDs, where no group is left short."""
        return {pool["id"]: self.shared(pool, self.reach_for(pool).trees) for pool in self.value["pools"]}

    def beside_short(
        self, pool: Pool, tree: dict[int, int], block: tuple[Reach, int, list[RuleStep]] | None
    ) -> dict[int, int]:
        """What a pool's rule can give the OSDs of a tree, beside groups left short."""
        if block is None or self.has_down:
            return tree
        reach, root, steps = block
        if not reach.full:
            return tree
        osds = set(reach.of_type(root, 0))
        found = reach.parts_beside(root, steps, [osds.intersection(up.places) for up in self.ups_in(pool)])
        self.kept += [] if found is None else [found]
        return tree if found is None else found

    def full_in(self, pool: Pool) -> list[Full]:
        """The buckets that have as many places of each group of a pool as they can have, and weigh otherwise."""
        return self.reach_for(pool).full

    def weight(self, osd: int) -> int:
        """What an OSD weighs: its weight times its reweight, nothing where it is not there, or down."""
        state = self.osds.get(osd)
        return self.items[osd] * state["weight"] if state and state["exists"] and state["up"] else 0

    def shares_in(self, pool: Pool) -> dict[int, float]:
        """How many places of a pool the weights of the OSDs call for, tree by tree."""
        return self.shared(pool, self.trees_for(pool))

    def reach_in(self, pool: Pool) -> dict[int, float]:
        """How many places of a pool its rule can give the OSDs; the shares by weight where it is these."""
        trees, own = self.reach_trees(pool), self.trees_for(pool)
        key = tuple(map(id, trees)), tuple(map(id, own))
        if key not in self.alike:
            self.alike[key] = trees == own
        return self.shares_by[pool["id"]] if self.alike[key] else self.shared(pool, trees)

    def shared(self, pool: Pool, trees: list[dict[int, int]]) -> dict[int, float]:
        """The places of a pool, shared tree by tree as its OSDs weigh there: one value for pools that have as many
        places in the same trees.
        """
        counts, key = self.counts_in[pool["id"]], list[int]()
        for weights in trees:
            is_whole = counts.keys() <= weights.keys()
            own = sum(counts.values() if is_whole else (own for osd, own in counts.items() if osd in weights))
            key += [id(weights), own]
        if tuple(key) not in self.known:
            found: dict[int, float] = {}
            for weights, places in zip(trees, key[1::2]):
                total = sum(weights.values())
                # OSDs of one weight have one share, which is reckoned once.
                share = {weight: places * weight / total for weight in {*weights.values()}} if total else {}
                found.update(zip(weights, map(share.__getitem__, weights.values())) if share else {})
            self.known[tuple(key)] = found
        return self.known[tuple(key)]

    def roots(self) -> list[int]:
        """The buckets that stand in no other."""
        return [number for number in sorted(self.buckets, reverse=True) if number not in self.items]

    def stray(self) -> list[RowParts]:
        """What is told of the OSDs that exist and stand in no bucket, as Ceph calls them stray."""
        return [self.osd_row(osd) for osd, own in sorted(self.osds.items()) if own["exists"] and osd not in self.items]

    def total(self) -> TotalParts:
        """What the tree and the OSDs outside come to: weights, groups and shares."""
        return {
            "weight": sum(weight for item, weight in self.items.items() if item >= 0) / FULL_WEIGHT,
            "groups": sum(self.counts.values()),
            "share": round(sum(self.wanted.values()), 2),
            "reach": round(sum(self.reached.values()), 2),
        }

    def state(self, osd: int) -> str:
        """Whether an OSD is there, up and in."""
        own = self.osds.get(osd)
        if own is None or not own["exists"]:
            return "absent"
        return ("up" if own["up"] else "down") + ("" if own["weight"] else ",out")

    def osd_row(self, osd: int) -> RowParts:
        """What is told of an OSD."""
        groups, wanted = self.counts.get(osd, 0), self.wanted.get(osd, 0.0)
        return {
            "id": osd,
            "weight": self.items.get(osd, 0) / FULL_WEIGHT,
            "reweight": (self.osds[osd]["weight"] if osd in self.osds else 0) / FULL_WEIGHT,
            "state": self.state(osd),
            "groups": groups,
            "share": round(wanted, 2),
            "reach": round(self.reached.get(osd, 0.0), 2),
            "deviation": round(groups - wanted, 2) + 0.0,
        }

    def below(self, number: int) -> list[int]:
        """The OSDs below an item."""
        if number >= 0:
            return [number]
        return [osd for item, _ in self.buckets[number]["items"] for osd in self.below(item)]

    def rows(self, number: int, depth: int = 0) -> list[tuple[int, RowParts]]:
        """What is told of a bucket and all below it, each with its depth."""
        if number >= 0:
            return [(depth, self.osd_row(number))]
        below = [row for item, _ in self.buckets[number]["items"] for row in self.rows(item, depth + 1)]
        own = [row for _, row in below if row["id"] >= 0]
        total: RowParts = {
            "id": number,
            "type": self.buckets[number]["type"],
            "weight": sum(row["weight"] for row in own),
            "groups": sum(row["groups"] for row in own),
            "share": round(sum(self.wanted.get(row["id"], 0.0) for row in own), 2),
            "reach": round(sum(self.reached.get(row["id"], 0.0) for row in own), 2),
        }
        return [(depth, total), *below]

    def full_parts(self, pool: Pool) -> list[FullParts]:
        """What is told of the buckets that are full, those first that are farthest from what they weigh for."""
        full = sorted(self.full_in(pool), key=lambda own: (-abs(own.wanted - own.places), own.kind, -own.bucket))
        return [
            {"id": own.bucket, "type": own.kind, "places": own.places, "wanted": round(own.wanted, 4)} for own in full
        ]

    def pools(self) -> list[PoolRowParts]:
        """What is told of each pool."""
        found: list[PoolRowParts] = []
        for pool in self.value["pools"]:
            full = [len(up.places) - up.places.count(None) for up in self.ups_in(pool)]
            found.append(
                {
                    "id": pool["id"],
                    "size": pool["size"],
                    "groups": pool["pg_num"],
                    "rule": pool["rule"],
                    "places": sum(full),
                    "short": sum(count < pool["size"] for count in full),
                    "full": self.full_parts(pool),
                }
            )
        return found


def spread_parts(shares: Shares) -> SpreadParts:
    """How even the OSDs are that may have groups: least, greatest, and the standard deviation from their shares."""
    counts = [shares.counts.get(osd, 0) for osd, wanted in shares.wanted.items() if wanted]
    away = [shares.counts.get(osd, 0) - wanted for osd, wanted in shares.wanted.items() if wanted]
    deviation = (sum(gap * gap for gap in away) / len(away)) ** 0.5 if away else 0.0
    return {"least": min(counts, default=0), "greatest": max(counts, default=0), "deviation": round(deviation, 2)}
