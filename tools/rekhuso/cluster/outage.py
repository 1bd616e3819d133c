"""Whether a cluster is amid an outage: OSDs are down and groups are short, so that Ceph's balancer would wait."""

from __future__ import annotations

from collections.abc import Iterable, Mapping
from dataclasses import dataclass

from ..faults import Wait
from ..program.answers import Up
from ..program.maps import Osd, Pool, group_key
from ..running import tell
from ..values import SLOTS


@dataclass(frozen=True, **SLOTS)
class Outage:
    """The OSDs that are down, and the groups with fewer places than their pool's size."""

    down: list[int]
    short: list[str]

    def __str__(self) -> str:
        """All of it in one line."""
        osds = "1 OSD is" if len(self.down) == 1 else f"{len(self.down)} OSDs are"
        groups = "1 group is" if len(self.short) == 1 else f"{len(self.short)} groups are"
        return f"an outage: {osds} down and {groups} short, so Ceph's balancer would wait until they are whole"


def filled(up: Up) -> int:
    """How many places of an up set are taken."""
    return len(up.places) - up.places.count(None)


def outage_of(osds: Iterable[Osd], pools: Iterable[Pool], ups: Mapping[str, Up]) -> Outage | None:
    """The outage of a cluster; None where no OSD is down, or where each group has all its places nonetheless."""
    down = sorted(osd["id"] for osd in osds if osd["exists"] and not osd["up"])
    if not down:
        return None
    sizes = {pool["id"]: pool["size"] for pool in pools}
    short = [group for group, up in ups.items() if filled(up) < sizes[group_key(group)[0]]]
    return Outage(down, short) if short else None


def check_outage(outage: Outage | None, is_asked: bool) -> None:
    """Tells of an outage on standard error before a plan. A fault where a plan is not asked for nonetheless."""
    if outage is not None and not is_asked:
        raise Wait(f"{outage}; no plan is made: --anyway makes one")
    if outage is not None:
        tell(outage)
