"""Whole maps by what a test cares for, and what tests read of maps. The keys of a map, an OSD and a pool stand here
once, for all tests and benches that make maps of their own, and for rows that state an OSD or a pool."""

from __future__ import annotations

from collections.abc import Iterable, Sequence
from typing import Any

from tests.clusters import Json

# The whole share of an OSD.
FULL = 65_536
# The steps of a rule that places copies on any OSDs below the first bucket, and on hosts.
ON_OSDS: list[list[Any]] = [["take", -1], ["choose_firstn", 0, 0], ["emit"]]
ON_HOSTS: list[list[Any]] = [["take", -1], ["chooseleaf_firstn", 0, 1], ["emit"]]
# What a map has that states that there are no exceptions.
NO_EXCEPTIONS: dict[str, list[Any]] = {"pg_upmap": [], "pg_upmap_items": []}


def osd_of(number: int, is_up: bool = True, weight: int = FULL) -> dict[str, Any]:
    """An OSD that is there."""
    return {"exists": True, "id": number, "up": is_up, "weight": weight}


def osds_of(count: int) -> list[dict[str, Any]]:
    """So many OSDs, up and in."""
    return [osd_of(number) for number in range(count)]


def pool_of(
    number: int, groups: int, size: int = 1, rule: int = 0, kind: str = "replicated", placed: int | None = None
) -> dict[str, Any]:
    """A pool; its groups are placed by as many, unless another number is given."""
    by = groups if placed is None else placed
    return {"id": number, "kind": kind, "pg_num": groups, "pgp_num": by, "rule": rule, "size": size}


def rule_of(steps: Sequence[Any], number: int = 0, kind: str = "replicated") -> dict[str, Any]:
    """A rule."""
    return {"id": number, "kind": kind, "steps": list(steps)}


def map_of(
    buckets: Iterable[Json], rules: Iterable[Json], pools: Iterable[Json], osds: Sequence[Json], **more: Any
) -> dict[str, Any]:
    """A map of version 1 at epoch 1 with room for these OSDs alone, unless `more` says another thing."""
    own: dict[str, Any] = {"version": 1, "epoch": 1, "max_osd": len(osds), "osds": list(osds)}
    return {**own, "buckets": list(buckets), "rules": list(rules), "pools": list(pools), **more}


def crush_of(value: Json, **more: Any) -> dict[str, Any]:
    """The CRUSH map of a map as a change brings it, with other parts where `more` has them."""
    return {"buckets": value["buckets"], "rules": value["rules"], **more}


# What tests read of maps


def item_weights(value: Json) -> dict[int, int]:
    """The weight of each item of a map's buckets."""
    return {item: weight for bucket in value["buckets"] for item, weight in bucket["items"]}


def device_weights(value: Json) -> dict[int, int]:
    """The weight of each device of a map."""
    return {item: weight for item, weight in item_weights(value).items() if item >= 0}


def reweights_of(value: Json) -> dict[int, int]:
    """The reweight of each OSD of a map that is up."""
    return {osd["id"]: osd["weight"] for osd in value["osds"] if osd["up"]}


def steps_for(value: Json, pool: Json) -> list[Any]:
    """The steps of a pool's rule."""
    found: list[Any] = next(rule["steps"] for rule in value["rules"] if rule["id"] == pool["rule"])
    return found
