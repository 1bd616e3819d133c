"""Which groups are held or let go, where not all are: by their OSDs, by their pools, by themselves."""

from __future__ import annotations

from collections.abc import Sequence
from dataclasses import dataclass

from ..program.maps import group_key
from ..values import SLOTS


@dataclass(frozen=True, **SLOTS)
class GroupFilter:
    """The groups that are chosen: of each kind of words the OSDs on one of which a group has a place; the OSDs that a
    group leaves; pools; and groups; None for each kind that is not given; and the groups that are passed over all the
    same.
    """

    osds: tuple[frozenset[int], ...]
    leaves: frozenset[int] | None
    pools: frozenset[int] | None
    groups: frozenset[str] | None
    passed: frozenset[str] = frozenset()

    @property
    def is_any(self) -> bool:
        """Whether some groups are passed over."""
        return self != ALL_GROUPS

    def lets(self, group: str, places: Sequence[int | None]) -> bool:
        """Whether a group with a set is chosen, whatever it leaves."""
        has_osds = all(any(osd in own for osd in places) for own in self.osds)
        of_pool = self.pools is None or group_key(group)[0] in self.pools
        is_named = self.groups is None or group in self.groups
        return has_osds and of_pool and is_named and group not in self.passed

    def lets_leave(self, osds: Sequence[int]) -> bool:
        """Whether a group that leaves some OSDs is chosen."""
        return self.leaves is None or not self.leaves.isdisjoint(osds)


ALL_GROUPS = GroupFilter((), None, None, None)
