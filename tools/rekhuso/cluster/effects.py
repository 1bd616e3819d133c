"""The dumps of a cluster as a Ceph monitor has them after a command."""

from __future__ import annotations

import struct
from dataclasses import dataclass
from typing import Any

from ..program.map_forms import EXCEPTIONS, ExceptionKey, FULL_WEIGHT
from ..program.maps import Change, altered, entries_of
from ..values import SLOTS
from .cluster import Cluster
from .dump_types import CrushDump, DumpBucket, DumpOsd, DumpPool, OsdDump
from .entry_forms import dump_pool, told_entries
from .shadows import free_id, total, weight_of, with_shadows


def weight_units(weight: float) -> int:
    """A weight in units of 1/65,536 as Ceph takes it: as a number of 32 bits, and the rest cut off."""
    number: float = struct.unpack("f", struct.pack("f", weight))[0]
    return int(number * FULL_WEIGHT)


# Weights in the CRUSH map


def with_weights(crush: CrushDump, weights: dict[int, int]) -> CrushDump:
    """The CRUSH map where some items have other weights, in units of 1/65,536, in each bucket that holds them, and
    each bucket above weighs what its items do. All items of a uniform bucket have one weight, the last that one of
    them gets.
    """
    buckets = {own["id"]: altered(own, items=[altered(item) for item in own["items"]]) for own in crush["buckets"]}
    left = list(weights.items())
    while left:
        number, weight = left.pop(0)
        for own in buckets.values():
            if any(item["id"] == number for item in own["items"]):
                for item in own["items"]:
                    if item["id"] == number or own["alg"] == "uniform":
                        item["weight"] = weight
                left.append((own["id"], total(own)))
    return altered(crush, buckets=list(buckets.values()))


# A host that comes


@dataclass(frozen=True, **SLOTS)
class Host:
    """A host that comes: its name, the bucket below which it comes, the type and the kind of its bucket, and the
    class of its OSDs, None where the cluster has no classes.
    """

    name: str
    under: int
    kind: int
    alg: str
    device_class: str | None


def first_osd(cluster: Cluster) -> int:
    """The number that Ceph gives the next new OSD: the first of one that does not exist."""
    return next(osd for osd in range(len(cluster.osds) + 1) if osd not in cluster.osds)


def without_osd(crush: CrushDump, osd: int) -> CrushDump:
    """The CRUSH map without an OSD, where it stands in buckets."""
    buckets = with_weights(crush, {osd: 0})["buckets"]
    return altered(
        crush, buckets=[altered(own, items=[item for item in own["items"] if item["id"] != osd]) for own in buckets]
    )


def with_host(crush: CrushDump, host: Host, osd: int) -> CrushDump:
    """The CRUSH map with an OSD of weight 0 more on a host, which comes where it is not there."""
    buckets: list[DumpBucket] = [altered(own, items=list(own["items"])) for own in crush["buckets"]]
    own = next((bucket for bucket in buckets if bucket["name"] == host.name), None)
    if own is None:
        number = free_id({bucket["id"] for bucket in buckets})
        own = {"id": number, "name": host.name, "type_id": host.kind, "alg": host.alg, "items": []}
        next(bucket for bucket in buckets if bucket["id"] == host.under)["items"].append({"id": number, "weight": 0})
        buckets.append(own)
    own["items"].append({"id": osd, "weight": 0})
    kept = [device for device in crush["devices"] if device["id"] != osd]
    device = {"id": osd, "name": f"osd.{osd}", **({"class": host.device_class} if host.device_class else {})}
    return altered(crush, buckets=buckets, devices=[*kept, device])


def with_class(crush: CrushDump, host: Host, osd: int) -> CrushDump:
    """The CRUSH map with an OSD of the class of a host, where that class is new: an OSD has its class before it has its
    place, so all shadows of the class come before the host.
    """
    if host.device_class in (None, *(device.get("class") for device in crush["devices"])):
        return crush
    kept = [device for device in crush["devices"] if device["id"] != osd]
    device = {"id": osd, "name": f"osd.{osd}", "class": host.device_class}
    return with_shadows(altered(crush, devices=[*kept, device]))


def with_osd(cluster: Cluster, host: Host, weight: int) -> Cluster:
    """The cluster with one more OSD, up and in and of a weight in units of 1/65,536, on a host that comes with its
    first. An OSD of its number that was removed and still stands in a bucket is moved and keeps its weight there, as
    Ceph has it.
    """
    osd = first_osd(cluster)
    crush = with_class(cluster.crush, host, osd)
    there = [weight_of(item) for bucket in crush["buckets"] for item in bucket["items"] if item["id"] == osd]
    crush = with_host(without_osd(crush, osd) if there else crush, host, osd)
    new: DumpOsd = {"osd": osd, "up": 1, "weight": 1.0, "state": ["exists", "up"]}
    dump = cluster.osd_dump
    dump = altered(dump, osds=[*dump["osds"], new], max_osd=max(dump["max_osd"], osd + 1))
    gone = {other: own for other, own in cluster.gone.items() if other != osd}
    return Cluster(dump, with_shadows(with_weights(crush, {osd: there[0] if there else weight})), cluster.torn, gone)


# States, reweights, pools and exceptions


def counts_at_rest(groups: int, placed: int) -> dict[str, int]:
    """What a pool has that has so many groups, placed by such a number, and is to keep them."""
    return {
        "pg_num": groups,
        "pg_num_pending": groups,
        "pg_num_target": groups,
        "pg_placement_num": placed,
        "pg_placement_num_target": placed,
    }


def pools_after(dump: OsdDump, change: Change) -> list[DumpPool]:
    """The pools after a change."""
    grown = {number: (groups, placed) for number, groups, placed in change.get("grow_pool", [])}
    pools = [pool for pool in dump["pools"] if pool["pool"] not in change.get("old_pools", [])]
    pools += [dump_pool(pool, f"pool {pool['id']}") for pool in change.get("new_pools", [])]
    return [altered(pool, **counts_at_rest(*grown[pool["pool"]])) if pool["pool"] in grown else pool for pool in pools]


def osds_after(dump: OsdDump, change: Change) -> list[DumpOsd]:
    """The OSDs after a change."""
    ups = {**dict.fromkeys(change.get("down", []), 0), **dict.fromkeys(change.get("up", []), 1)}
    weights = {osd: weight / FULL_WEIGHT for osd, weight in change.get("weight", [])}
    return [
        altered(osd, up=ups.get(osd["osd"], osd["up"]), weight=weights.get(osd["osd"], osd["weight"]))
        for osd in dump["osds"]
    ]


def exceptions_after(dump: OsdDump, change: Change, key: ExceptionKey) -> list[Any]:
    """The exceptions of a kind after a change, those of pools that go among them."""
    found, kind = {entry["pgid"]: entry for entry in entries_of(dump, key)}, EXCEPTIONS[key]
    for group in change.get(kind.old, []):
        found.pop(group, None)
    found.update({entry["pgid"]: entry for entry in told_entries(kind, change.get(kind.new, []))})
    return list(found.values())


def with_change(dump: OsdDump, change: Change) -> OsdDump:
    """An OSD dump after a change, its part `new_crush` aside."""
    tables: dict[str, list[Any]] = {key: exceptions_after(dump, change, key) for key in EXCEPTIONS}
    if "pg_upmap_primaries" in dump:
        tables["pg_upmap_primaries"] = entries_of(dump, "pg_upmap_primaries")
    gone = {str(number) for number in change.get("old_pools", [])}
    kept = {key: [entry for entry in table if entry["pgid"].split(".")[0] not in gone] for key, table in tables.items()}
    return altered(dump, pools=pools_after(dump, change), osds=osds_after(dump, change), **kept)
