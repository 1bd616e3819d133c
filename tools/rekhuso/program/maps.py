"""Maps and changes of the program: their types, how they are written, and their groups.

What has keys that are not fixed, or lists of several kinds as JSON has them, stands here under a name of its own.
"""

from __future__ import annotations

import json
import os
from collections.abc import Mapping
from functools import lru_cache
from typing import Any, Callable, Dict, List, TypeVar, TypedDict, Union, cast

from .map_forms import EXCEPTIONS, LEAF_WORDS

# A step of a rule: its word, then its numbers. An entry of a table: a group, or an id, and what belongs to it.
RuleStep = List[Any]
Entry = List[Any]
# A change's parts by their keys.
Change = Dict[str, Any]
# The path of the program; None for the one that is found.
Program = Union[str, "os.PathLike[str]", None]


class Bucket(TypedDict):
    """A bucket: its items are pairs of a number and a weight."""

    id: int
    items: list[list[int]]
    kind: str
    type: int


class Rule(TypedDict):
    """A rule."""

    id: int
    kind: str
    steps: list[RuleStep]


class Pool(TypedDict):
    """A pool."""

    id: int
    kind: str
    pg_num: int
    pgp_num: int
    rule: int
    size: int


class Osd(TypedDict):
    """An OSD."""

    id: int
    exists: bool
    up: bool
    weight: int


class Exceptions(TypedDict, total=False):
    """What a map may have: explicit sets, pairs, and a version."""

    pg_upmap: list[Entry]
    pg_upmap_items: list[Entry]
    version: int


class Map(Exceptions):
    """A map."""

    buckets: list[Bucket]
    epoch: int
    max_osd: int
    osds: list[Osd]
    pools: list[Pool]
    rules: list[Rule]


class ChangeParts(TypedDict, total=False):
    """What a change may have, each part by its key: OSDs and pools by their ids, groups by their texts."""

    old_pools: list[int]
    new_crush: Mapping[str, Any]
    new_pools: list[Pool]
    grow_pool: list[list[int]]
    down: list[int]
    up: list[int]
    weight: list[list[int]]
    old_upmap: list[str]
    old_items: list[str]
    new_upmap: list[Entry]
    new_items: list[Entry]


Altered = TypeVar("Altered", bound=Mapping[str, object])


def altered(value: Altered, **parts: object) -> Altered:
    """An object with other values at some of its keys."""
    return cast(Altered, dict(value, **parts))


def entries_of(value: Mapping[str, object], key: str) -> list[Any]:
    """The entries at a key; none where there is no such key."""
    return cast(List[Any], value.get(key, []))


def osd_there(number: int, is_up: bool, weight: int) -> Osd:
    """An OSD that exists, with its reweight in units of 1/65,536."""
    return {"exists": True, "id": number, "up": is_up, "weight": weight}


def osd_gone(number: int, weight: int = 0) -> Osd:
    """An OSD that does not exist, with the reweight that it has kept."""
    return {"exists": False, "id": number, "up": False, "weight": weight}


def devices_in(value: Map) -> set[int]:
    """The devices that stand in a map's buckets."""
    return {item for bucket in value["buckets"] for item, _ in bucket["items"] if item >= 0}


def rule_for(value: Map, pool: Pool) -> Rule:
    """The rule of a pool."""
    return next(rule for rule in value["rules"] if rule["id"] == pool["rule"])


# Exceptions


def exceptions_where(exceptions: Mapping[str, object], keeps: Callable[[str], bool]) -> Exceptions:
    """The exceptions of those groups that a function keeps."""
    found = {key: [entry for entry in entries_of(exceptions, key) if keeps(entry[0])] for key in EXCEPTIONS}
    return cast(Exceptions, found)


def excepted_groups(exceptions: Mapping[str, object]) -> set[str]:
    """The groups that have exceptions."""
    return {entry[0] for key in EXCEPTIONS for entry in entries_of(exceptions, key)}


def without_exceptions(value: Map) -> Map:
    """The map without exceptions."""
    none: dict[str, list[Entry]] = {key: [] for key in EXCEPTIONS}
    return altered(value, **none)


# What writes values: compact JSON, keys in byte order.
WRITER = json.JSONEncoder(separators=(",", ":"), sort_keys=True)


def written(value: object) -> str:
    """The written form of a value."""
    return WRITER.encode(value)


@lru_cache(maxsize=1 << 16)
def group_key(group: str) -> tuple[int, int]:
    """Where a group stands among all."""
    pool, number = group.split(".")
    return int(pool), int(number, 16)


def needs_stock(value: object) -> bool:
    """Whether a map has a straw2 bucket, or a rule that sets how leaves are sought, so that the program reads it under
    `--stock` alone; a value, or a text that may be none.
    """
    if isinstance(value, str):
        if not any(word in value for word in ("straw2", *LEAF_WORDS, "\\")):
            return False
        try:
            value = json.loads(value)
        except (ValueError, RecursionError):
            return False
    buckets, rules = objects_at(value, "buckets"), objects_at(value, "rules")
    steps = [own["steps"] for own in rules if isinstance(own.get("steps"), list)]
    words = [step[0] for own in steps for step in own if isinstance(step, list) and step]
    return any(own.get("kind") == "straw2" for own in buckets) or any(word in LEAF_WORDS for word in map(str, words))


def objects_at(value: object, key: str) -> list[dict[str, Any]]:
    """The objects in a list of what may be an object; none where there is none."""
    entries = value.get(key) if isinstance(value, dict) else None
    return [own for own in entries if isinstance(own, dict)] if isinstance(entries, list) else []


@lru_cache(maxsize=None)
def numbers_written(count: int) -> tuple[str, ...]:
    """So many numbers from 0 on as groups have them in their names."""
    return tuple([f"{number:x}" for number in range(count)])


@lru_cache(maxsize=None)
def group_names(pool: int, count: int) -> tuple[str, ...]:
    """The names of so many groups of a pool: one object for each, which is asked for again and again."""
    return tuple(map(f"{pool}.".__add__, numbers_written(count)))


def groups_in(pool: Pool) -> list[str]:
    """All groups of a pool."""
    return list(group_names(pool["id"], pool["pg_num"]))


def groups_of(value: Map) -> list[str]:
    """All groups of a map, pool by pool."""
    return [group for pool in value["pools"] for group in groups_in(pool)]


def with_all_up(value: Map) -> Map:
    """The map with every OSD up that is there, so that up sets are the mapped ones."""
    return altered(value, osds=[altered(osd, up=osd["exists"]) for osd in value["osds"]])
