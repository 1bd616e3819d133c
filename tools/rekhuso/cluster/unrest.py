"""Pools that are not at rest: a manager grows, splits or shrinks them step by step, from Ceph 14 on (pg_pool_t:
`pg_num_target`, `pg_num_pending` and `pgp_num_target`).

While it does, each step makes other sets, and groups that are merged lose their exceptions. What is planned or held
meanwhile is lost on the way, so Ceph's own balancer leaves such pools alone.
"""

from __future__ import annotations

from collections.abc import Iterable, Mapping, Sequence
from dataclasses import dataclass

from ..program.maps import group_key
from ..values import SLOTS
from ..words import counted, some
from .cleanup import parent_of
from .cluster import Cluster
from .dump_types import DumpPool
from .json_forms import UnrestParts


@dataclass(frozen=True, **SLOTS)
class Unrest:
    """A pool that is not at rest: its id and name; how many groups it has, will have next, and is to have in the end;
    and by how many they are placed, now and in the end.
    """

    pool: int
    name: str
    groups: int
    pending: int
    target: int
    placed: int
    placed_target: int

    @property
    def least(self) -> int:
        """How many groups it is to have at the least, as far as is known."""
        return min(self.groups, self.pending, self.target)

    @property
    def shrinks(self) -> bool:
        """Whether groups of it are merged."""
        return self.least < self.groups

    @property
    def grows(self) -> bool:
        """Whether it gets groups, or is to place them by a greater number."""
        return not self.shrinks and (self.target > self.groups or self.placed_target > self.placed)

    def __str__(self) -> str:
        """What becomes of it, in words."""
        if self.shrinks:
            return f"it is to shrink from {self.groups} to {counted(self.least, 'group')}"
        if self.target > self.groups:
            return f"it is to grow from {self.groups} to {self.target} groups"
        if self.placed_target > self.placed:
            return f"it is being split, pgp_num {self.placed} of {self.placed_target}"
        return f"its pgp_num is to go from {self.placed} to {self.placed_target}"

    def why(self) -> str:
        """Why nothing is planned of it, and when it will be."""
        if self.shrinks:
            return f"{self}, and groups that are merged lose their exceptions; plan when it has"
        return str(self) if self.target == self.groups else f"{self}; plan when it has"

    def joined(self) -> set[int]:
        """The numbers of the groups that others join."""
        return set(map(parent_of, range(self.least, self.groups)))

    def parts(self) -> UnrestParts:
        """The same as JSON has it."""
        return {
            "id": self.pool,
            "name": self.name,
            "pg_num": self.groups,
            "pg_num_pending": self.pending,
            "pg_num_target": self.target,
            "pgp_num": self.placed,
            "pgp_num_target": self.placed_target,
            "why": str(self),
        }


def unrest_in(pool: DumpPool) -> Unrest | None:
    """What becomes of a pool; None where it is at rest, as each is whose dump tells no targets."""
    groups, placed = pool["pg_num"], pool["pg_placement_num"]
    pending, target = pool.get("pg_num_pending", groups), pool.get("pg_num_target", groups)
    placed_target = pool.get("pg_placement_num_target", placed)
    if (pending, target, placed_target) == (groups, groups, placed):
        return None
    return Unrest(pool["pool"], pool["pool_name"], groups, pending, target, placed, placed_target)


def unrest_of(cluster: Cluster) -> dict[int, Unrest]:
    """The pools of a cluster that are not at rest, by their numbers."""
    found = {pool["pool"]: unrest_in(pool) for pool in cluster.pools}
    return {number: own for number, own in sorted(found.items()) if own is not None}


def unrest_lines(cluster: Cluster) -> list[str]:
    """What becomes of each pool that is not at rest, a line each."""
    return [f"{own.name}: {own}" for own in unrest_of(cluster).values()]


def told_unrest(cluster: Cluster) -> list[UnrestParts]:
    """The same as JSON has it."""
    return [own.parts() for own in unrest_of(cluster).values()]


def growth_words(cluster: Cluster) -> list[str]:
    """Why nothing is held yet: pools that grow."""
    return [
        f"{own.name}: {own}, and each step of the manager makes other sets: hold when it has"
        for own in unrest_of(cluster).values()
        if own.grows
    ]


def losing(unrest: Mapping[int, Unrest], groups: Iterable[str]) -> list[str]:
    """Those of some groups that lose their exceptions on the way, as they join another or another joins them."""
    joined = {number: own.joined() for number, own in unrest.items()}
    keys = [(group, *group_key(group)) for group in groups]
    return [
        group
        for group, pool, number in keys
        if pool in unrest and (number >= unrest[pool].least or number in joined[pool])
    ]


def losing_lines(unrest: Mapping[int, Unrest], groups: Sequence[str], most: int) -> list[str]:
    """That held groups lose their exceptions on the way, a line a pool, the first of them by name."""
    found = []
    for number, own in unrest.items():
        lost = [group for group in groups if group_key(group)[0] == number]
        loses = "held group loses its pairs on the way, and moves"
        lose = "held groups lose their pairs on the way, and move"
        if lost:
            found.append(f"{own.name}: {own}; {len(lost)} {loses if len(lost) == 1 else lose} then: {some(lost, most)}")
    return found
