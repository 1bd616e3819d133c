"""What the steps of a plan move, by pool and by OSD: groups, places and bytes."""

from __future__ import annotations

import math
from collections import Counter
from dataclasses import dataclass
from typing import cast

from ..cluster.pool_data import Data
from ..program.maps import Pool, altered
from ..values import SLOTS
from .json_forms import MovingParts, OsdMovingParts, PoolMovingParts
from .steps import PlanStep, steps_by_pool


@dataclass(frozen=True, **SLOTS)
class PlaceBytes:
    """The pools of a plan, the bytes of a place of each of their groups, and the bytes of all pools of the cluster,
    where they are known, else None.
    """

    pools: list[Pool]
    sizes: dict[str, float]
    total: int | None

    def moving(self, steps: list[PlanStep]) -> MovingParts:
        """What some steps move: groups, places, and where it is known bytes and their share of all pools' data."""
        places = [step.group for step in steps for _ in step.places_come()]
        size = math.fsum(self.sizes.get(group, 0.0) for group in places)
        return {
            "groups": sum(map(PlanStep.is_moving, steps)),
            "places": len(places),
            "bytes": None if self.total is None else round(size),
            "share": None if self.total is None else size / max(self.total, 1),
        }

    def by_pool(self, steps: list[PlanStep]) -> list[PoolMovingParts]:
        """The same pool by pool, of pools of which something moves."""
        own = steps_by_pool(steps)
        found = [altered(self.moving(own.get(pool["id"], [])), id=pool["id"], of=pool["pg_num"]) for pool in self.pools]
        return [cast(PoolMovingParts, part) for part in found if part["groups"]]

    def by_osd(self, steps: list[PlanStep]) -> list[OsdMovingParts]:
        """How many places come to each OSD and go from it, and where they are known their bytes."""
        come: Counter[int] = Counter()
        gone: Counter[int] = Counter()
        size: dict[tuple[int, bool], float] = {}
        for step in steps:
            place = self.sizes.get(step.group, 0.0)
            for counts, osds in ((come, step.places_come()), (gone, step.places_leave())):
                for osd in osds:
                    counts[osd] += 1
                    key = osd, counts is come
                    size[key] = size.get(key, 0.0) + place
        is_told = self.total is not None
        return [
            {
                "id": osd,
                "come": come[osd],
                "go": gone[osd],
                "bytes_come": round(size.get((osd, True), 0.0)) if is_told else None,
                "bytes_go": round(size.get((osd, False), 0.0)) if is_told else None,
            }
            for osd in sorted(come | gone)
        ]


def place_bytes(pools: list[Pool], data: Data | None) -> PlaceBytes:
    """What the places of some pools hold, by the output of `ceph df` where there is one."""
    if data is None:
        return PlaceBytes(pools, {}, None)
    sizes = {group: size for pool in pools for group, size in data.group_bytes(pool).items()}
    return PlaceBytes(pools, sizes, sum(data.of_pool.values()))
