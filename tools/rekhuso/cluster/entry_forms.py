"""What stands in the lists of an OSD dump and of a map, each in the form of the other: pools, OSDs and exceptions."""

from __future__ import annotations

from collections.abc import Mapping
from typing import Callable

from ..files import JsonObject
from ..program.map_forms import EXCEPTIONS, ExceptionKind, FULL_WEIGHT
from ..program.maps import Entry, Exceptions, Osd, Pool, entries_of, osd_there
from .dump_types import DumpOsd, DumpPool

HASHPSPOOL = 1
KINDS_BY_TYPE = {1: "replicated", 3: "erasure"}
TYPES_BY_KIND = {name: number for number, name in KINDS_BY_TYPE.items()}


def osd_of(osd: DumpOsd) -> Osd:
    """An OSD in the map's form; a reweight above 1 is one of 1 to Ceph."""
    return osd_there(osd["osd"], bool(osd["up"]), min(round(osd["weight"] * FULL_WEIGHT), FULL_WEIGHT))


def pool_of(pool: DumpPool) -> Pool:
    """A pool in the map's form."""
    return {
        "id": pool["pool"],
        "kind": KINDS_BY_TYPE[pool["type"]],
        "pg_num": pool["pg_num"],
        "pgp_num": pool["pg_placement_num"],
        "rule": pool["crush_rule"],
        "size": pool["size"],
    }


def dump_pool(pool: Pool, name: str) -> DumpPool:
    """A pool as `ceph osd dump` has it."""
    return {
        "pool": pool["id"],
        "pool_name": name,
        "type": TYPES_BY_KIND[pool["kind"]],
        "size": pool["size"],
        "crush_rule": pool["rule"],
        "pg_num": pool["pg_num"],
        "pg_placement_num": pool["pgp_num"],
        "flags": HASHPSPOOL,
    }


def dump_osd(osd: Osd) -> DumpOsd:
    """An OSD that exists as `ceph osd dump` has it."""
    return {"osd": osd["id"], "up": int(osd["up"]), "weight": osd["weight"] / FULL_WEIGHT, "state": ["exists"]}


def exceptions_in(dump: Mapping[str, object]) -> Exceptions:
    """All exceptions of an OSD dump in the map's form."""
    return {
        "pg_upmap": [[entry["pgid"], entry["osds"]] for entry in entries_of(dump, "pg_upmap")],
        "pg_upmap_items": [
            [entry["pgid"], [[pair["from"], pair["to"]] for pair in entry["mappings"]]]
            for entry in entries_of(dump, "pg_upmap_items")
        ],
    }


def told_entries(kind: ExceptionKind, entries: list[Entry]) -> list[JsonObject]:
    """Exceptions of a kind as an OSD dump has them."""
    if kind.is_set:
        return [{"pgid": group, "osds": osds} for group, osds in entries]
    return [{"pgid": group, "mappings": [{"from": was, "to": now} for was, now in pairs]} for group, pairs in entries]


def told_exceptions(exceptions: Mapping[str, object]) -> dict[str, list[JsonObject]]:
    """All exceptions of a map as an OSD dump has them."""
    return {key: told_entries(kind, entries_of(exceptions, key)) for key, kind in EXCEPTIONS.items()}


def acting(exceptions: Exceptions, is_there: Callable[[int], bool]) -> tuple[list[Entry], list[Entry]]:
    """The explicit sets and the pairs that may act, where OSDs that are not there count as out: as in Ceph, an explicit
    set with an OSD that is out does nothing, and keeps the pairs of its group from acting too.
    """
    idle = {group for group, osds in exceptions["pg_upmap"] if not all(map(is_there, osds))}
    items = []
    for group, pairs in exceptions["pg_upmap_items"]:
        own = [pair for pair in pairs if all(map(is_there, pair)) and pair[0] != pair[1]]
        if own and group not in idle:
            items.append([group, own])
    return [entry for entry in exceptions["pg_upmap"] if entry[0] not in idle], items
