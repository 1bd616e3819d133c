"""The blocks of rules, and where by them a group may go: the OSDs below what a block takes, the failure domain of each,
and the buckets in which a group stays. It sorts out what need not be asked: what may go the program tells.
"""

from __future__ import annotations

from collections.abc import Mapping, Sequence
from dataclasses import dataclass
from typing import Optional

from ..program.maps import Map, Pool, RuleStep
from ..values import SLOTS

# The places of a group; None where one is empty.
Places = Sequence[Optional[int]]


@dataclass(frozen=True, **SLOTS)
class Block:
    """A block of a rule: the OSDs below what it takes; the failure domain of each that has one, by the last type that
    the block chooses; and the buckets of the types before it, which a group does not leave.
    """

    osds: frozenset[int]
    domains: Mapping[int, int]
    beside: Mapping[int, tuple[int | None, ...]]

    def taken(self, places: Places, leaves: int) -> set[int]:
        """The failure domains of a group, without that of the OSD that it leaves."""
        own = self.domains
        return {own[osd] for osd in places if osd is not None and osd != leaves and osd in own}

    def is_beside(self, leaves: int, comes: int) -> bool:
        """Whether the block might have chosen an OSD in place of another, failure domains aside."""
        return comes in self.osds and comes in self.domains and self.beside[leaves] == self.beside[comes]

    def may_go(self, places: Places, leaves: int, comes: int) -> bool:
        """Whether a group may go from an OSD to another, as far as the block tells."""
        if places.count(leaves) != 1 or comes in places or not self.is_beside(leaves, comes):
            return False
        return self.domains[comes] not in self.taken(places, leaves)


def step_blocks(steps: list[RuleStep]) -> list[tuple[int, list[int]]]:
    """What each block of a rule takes, and the types that it chooses."""
    found: list[tuple[int, list[int]]] = []
    for step in steps:
        if step[0] == "take":
            found.append((step[1], []))
        elif step[0].startswith("choose") and found:
            found[-1][1].append(step[2])
    return found


class MapBlocks:
    """The blocks of the rules of a map. What is found is kept, as many pools have a rule."""

    def __init__(self, value: Map) -> None:
        """Takes a lawful map."""
        self.buckets = value["buckets"]
        self.items = {bucket["id"]: [item for item, _ in bucket["items"]] for bucket in self.buckets}
        self.steps = {rule["id"]: rule["steps"] for rule in value["rules"]}
        self.kept: dict[int, list[Block]] = {}
        self.kept_below: dict[int, frozenset[int]] = {}

    def below(self, item: int) -> frozenset[int]:
        """The OSDs at or below an item."""
        if item >= 0:
            return frozenset([item])
        if item not in self.kept_below:
            self.kept_below[item] = frozenset().union(*map(self.below, self.items[item]))
        return self.kept_below[item]

    def inside(self, root: int) -> set[int]:
        """The buckets at or below an item."""
        found, left = {root}, [root]
        while left:
            more = {item for item in self.items.get(left.pop(), []) if item < 0} - found
            found |= more
            left += more
        return found

    def above(self, root: int, kind: int) -> dict[int, int]:
        """The bucket of a type below an item in which each OSD stands; for type 0 the OSD itself."""
        if kind == 0:
            return {osd: osd for osd in self.below(root)}
        inside, found = self.inside(root), dict[int, int]()
        for bucket in self.buckets:
            if bucket["type"] == kind and bucket["id"] in inside:
                for osd in self.below(bucket["id"]):
                    found.setdefault(osd, bucket["id"])
        return found

    def block(self, root: int, kinds: list[int]) -> Block:
        """A block that takes an item and chooses some types."""
        osds = self.below(root)
        earlier = [self.above(root, kind) for kind in kinds[:-1]]
        beside = {osd: tuple(own.get(osd) for own in earlier) for osd in osds}
        return Block(osds, self.above(root, kinds[-1] if kinds else 0), beside)

    def of_pool(self, pool: Pool) -> list[Block]:
        """The blocks of the rule of a pool; none where two of them have an OSD in common, as it is open then by which
        of them a group is there.
        """
        rule = pool["rule"]
        if rule not in self.kept:
            found = [self.block(root, kinds) for root, kinds in step_blocks(self.steps[rule])]
            apart = len(frozenset().union(*(own.osds for own in found))) == sum(len(own.osds) for own in found)
            self.kept[rule] = found if apart else []
        return self.kept[rule]
