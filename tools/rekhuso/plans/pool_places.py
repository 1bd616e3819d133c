"""Where the groups of a pool lie while single moves of them are made, and what each of them holds."""

from __future__ import annotations

from collections.abc import Mapping, Sequence

from ..cluster.cleanup import group_fault
from ..program.answers import Up
from ..program.maps import Pool
from .blocks import Block
from .rounds import Live


class PoolPlaces:
    """A pool while moves of its groups are made: the map that has it and its blocks; of each group, by its number, the
    mapped set, the pairs, and what a place of it holds; and which groups each OSD has.
    """

    def __init__(
        self, live: Live, pool: Pool, blocks: list[Block], ups: Sequence[Up], pairs: Mapping[str, list[list[int]]]
    ) -> None:
        """Takes a pool, whose groups have these mapped sets and pairs, and none of which holds anything yet."""
        self.live, self.pool, self.number, self.blocks = live, pool, pool["id"], blocks
        self.sets = [list(up.places) for up in ups]
        self.pairs = [list(pairs.get(self.name(group), [])) for group in range(len(self.sets))]
        self.sizes = [0] * len(self.sets)
        self.on: dict[int, set[int]] = {}
        self.fixed: set[int] = set()
        self.kept_blocks: dict[int, Block | None] = {}
        self.kept_sizes: dict[int, list[int]] = {}
        for group, places in enumerate(self.sets):
            for osd in set(places):
                if osd is not None:
                    self.on.setdefault(osd, set()).add(group)

    def name(self, group: int) -> str:
        """A group by its name."""
        return f"{self.number}.{group:x}"

    def block_of(self, osd: int) -> Block | None:
        """The block of the rule that chooses an OSD; None where none does. What is found is kept."""
        if osd not in self.kept_blocks:
            self.kept_blocks[osd] = next((block for block in self.blocks if osd in block.osds), None)
        return self.kept_blocks[osd]

    def leaving(self, osd: int) -> dict[int, set[int]]:
        """The groups that may go from an OSD, each with the failure domains to which it may not go."""
        block, most = self.block_of(osd), self.pool["size"]
        if block is None:
            return {}
        groups = (group for group in sorted(self.on.get(osd, ())) if group not in self.fixed)
        free = (group for group in groups if len(self.pairs[group]) < most and self.sets[group].count(osd) == 1)
        return {group: block.taken(self.sets[group], osd) for group in free}

    def sizes_on(self, osd: int) -> list[int]:
        """What places of the groups hold that an OSD has, each size once, the greatest first. What is found is kept
        until the OSD has other groups.
        """
        if osd not in self.kept_sizes:
            self.kept_sizes[osd] = sorted({self.sizes[group] for group in self.on.get(osd, ())}, reverse=True)
        return self.kept_sizes[osd]

    def held(self) -> dict[int, int]:
        """What each OSD has of the pool."""
        return {osd: sum(self.sizes[group] for group in groups) for osd, groups in self.on.items()}

    def is_barred(self) -> bool:
        """Whether a monitor takes every exception of the pool away."""
        return self.number in self.live.barred

    def is_left_alone(self) -> bool:
        """Whether no group of the pool is moved, whatever it holds."""
        return self.number in self.live.alone

    def may_go(self, group: int, leaves: int, comes: int) -> bool:
        """Whether a group may go from an OSD to another: by the rule, and as it may have one more pair."""
        block = self.block_of(leaves)
        if block is None or group in self.fixed or len(self.pairs[group]) >= self.pool["size"]:
            return False
        return block.may_go(self.sets[group], leaves, comes)

    def would_stay(self, group: int, leaves: int, comes: int) -> bool:
        """Whether a monitor would leave the exceptions of a group that goes from an OSD to another."""
        judge, present = self.live.judge, self.live.present
        if group_fault(self.name(group), present.pools, judge.pending) is not None:
            return False
        return judge.fault(self.pool, self.with_move(group, leaves, comes), present) is None

    def with_move(self, group: int, leaves: int, comes: int) -> list[int | None]:
        """The mapped set of a group once it goes from an OSD to another."""
        return [comes if place == leaves else place for place in self.sets[group]]

    def put(self, group: int, leaves: int, comes: int) -> None:
        """A group has gone from an OSD to another, by one more pair."""
        self.pairs[group].append([leaves, comes])
        self.lay(group, leaves, comes)

    def take_back(self, group: int) -> None:
        """The last pair of a group goes again."""
        leaves, comes = self.pairs[group].pop()
        self.lay(group, comes, leaves)

    def lay(self, group: int, leaves: int, comes: int) -> None:
        """A group lies on an OSD in place of another."""
        self.sets[group] = self.with_move(group, leaves, comes)
        self.on[leaves].discard(group)
        self.on.setdefault(comes, set()).add(group)
        for osd in (leaves, comes):
            self.kept_sizes.pop(osd, None)
