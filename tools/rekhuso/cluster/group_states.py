"""Where the data of each group is, and where it is to be, by what `ceph pg dump -f json` prints; or by the temporary
sets of an OSD dump alone.
"""

from __future__ import annotations

from collections.abc import Mapping, Sequence
from dataclasses import dataclass

from ..program.answers import Up
from ..program.maps import entries_of, group_key
from ..values import SLOTS
from .cleanup import NONE
from .cluster import Cluster
from .group_dumps import ACTING, group_data_in, stats_in
from .moving import coming, has_moved

ERASURE = 3


@dataclass(frozen=True, **SLOTS)
class GroupState:
    """The set that acts for a group; whether all that is told of it says that it is at rest there; the set that is up
    by a dump of groups, if it is told; and what the group holds.
    """

    acting: list[int | None]
    is_clean: bool
    up: list[int | None] | None
    size: int | None

    def comes(self, up: Sequence[int | None], is_erasure: bool) -> list[int]:
        """The OSDs to which places of the group are still to come."""
        return coming(self.acting, up, is_erasure)

    def is_at(self, up: Sequence[int | None], is_erasure: bool) -> bool:
        """Whether all data of the group is where it is to be; what a dump of groups told before the group was sent
        elsewhere does not say so. Primary affinity may give the set that is up another order.
        """
        is_told = self.up is None or not has_moved(self.up, up, is_erasure)
        return self.is_clean and is_told and not self.comes(up, is_erasure)


def places_in(osds: Sequence[int]) -> list[int | None]:
    """A set as a dump of groups has it."""
    return [None if osd in (NONE, -1) else osd for osd in osds]


def states_in(path: str, cluster: Cluster, is_whole: bool) -> dict[str, GroupState]:
    """The state of each group by a file. A fault where it is of another cluster, or of another form."""
    group_data_in(path, cluster, is_whole)
    found = {}
    for own in stats_in(path, ACTING):
        state, held = own.get("state"), own.get("stat_sum")
        up = own.get("up")
        size = held.get("num_bytes") if isinstance(held, dict) else None
        found[own["pgid"]] = GroupState(
            places_in(own["acting"]),
            not isinstance(state, str) or "clean" in state.split("+"),
            places_in(up) if isinstance(up, list) else None,
            max(size, 0) if isinstance(size, int) else None,
        )
    return found


def states_by_temps(cluster: Cluster, ups: Mapping[str, Up]) -> dict[str, GroupState]:
    """The state of each group by the temporary sets of a dump alone."""
    temporary = {own["pgid"]: places_in(own["osds"]) for own in entries_of(cluster.osd_dump, "pg_temp")}
    return {
        group: GroupState(temporary.get(group, up.places), group not in temporary, None, None)
        for group, up in ups.items()
    }


def erasure_groups(cluster: Cluster, groups: Sequence[str]) -> set[str]:
    """Those of some groups whose places each hold a part of their own."""
    pools = {pool["pool"] for pool in cluster.pools if pool["type"] == ERASURE}
    return {group for group in groups if group_key(group)[0] in pools}
