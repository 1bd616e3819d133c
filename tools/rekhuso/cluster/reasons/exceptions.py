"""Reasons by exceptions: their form, and OSDs that are not there."""

from __future__ import annotations

from collections import Counter

from ...files import JsonObject
from ...program.map_forms import FULL_WEIGHT
from ...program.maps import entries_of
from ...words import some
from ..cluster import Cluster
from .counts import FEW, range_reason
from .kinds import Against

# The exceptions of an OSD dump: the key, what one is called, and how it names OSDs.
SETS, PAIRS = ("pg_upmap", "explicit set", "names"), ("pg_upmap_items", "pairs", "name")


# Exceptions


def size_of(cluster: Cluster, group: str) -> int:
    """The size of a group's pool, which is there."""
    size: int = next(pool["size"] for pool in cluster.pools if pool["pool"] == int(group.split(".")[0]))
    return size


def targets(entry: JsonObject) -> list[int]:
    """The OSDs that an exception may lead to."""
    return [pair["to"] for pair in entry["mappings"]] if "mappings" in entry else list(entry["osds"])


def exception_reasons(cluster: Cluster) -> list[Against]:
    """Exceptions of groups that are there, in a form that no map has."""
    found, code = list[Against](), "exception-form"
    explicit = [entry for entry in entries_of(cluster.osd_dump, "pg_upmap") if cluster.is_group(entry["pgid"])]
    for entry in explicit:
        name, size, osds = f"the explicit set of {entry['pgid']}", size_of(cluster, entry["pgid"]), entry["osds"]
        if not 1 <= len(osds) <= size:
            found.append(Against(code, f"{name} has {len(osds)} entries, 1 to the pool's size, {size}"))
        if len(set(osds)) < len(osds):
            found.append(Against(code, f"{name} has an OSD twice"))
    for group, pairs in cluster.exceptions[1]:
        found += range_reason(code, f"the pairs of {group} are {len(pairs)}", len(pairs), 1, size_of(cluster, group))
    for key, word, _ in (SETS, PAIRS):
        groups = Counter(entry["pgid"] for entry in entries_of(cluster.osd_dump, key))
        twice = [group for group, count in groups.items() if count > 1]
        found += [Against("exception-twice", f"the OSD dump has the {word} of {group} twice") for group in twice]
    return found


def absent_reasons(cluster: Cluster, is_high: bool) -> list[Against]:
    """Exceptions that lead to OSDs which are not there: those not below max_osd, of which Ceph takes the set or pair
    and drops the OSD at look-up; or those below it, with which it does the same unless they have kept a reweight of
    0, which no dump tells.
    """
    found, most = list[Against](), cluster.osd_dump["max_osd"]
    code = "exception-high" if is_high else "not-in-osd-dump"
    one = f"which is not below max_osd, {most}" if is_high else "which the OSD dump does not list"
    many = one.replace("which is", "which are")
    for key, word, verb in (SETS, PAIRS):
        named = [
            (entry["pgid"], osd)
            for entry in entries_of(cluster.osd_dump, key)
            if cluster.is_group(entry["pgid"])
            for osd in dict.fromkeys(targets(entry))
            if osd not in cluster.osds.keys() | cluster.gone.keys() and (osd >= most) == is_high
        ]
        if len(named) > FEW:
            osds = [f"osd.{osd}" for osd in sorted({osd for _, osd in named})]
            found.append(Against(code, f"{len(named)} {word.removesuffix('s')}s name OSDs {many}: {some(osds)}"))
        else:
            found += [Against(code, f"the {word} of {group} {verb} osd.{osd}, {one}") for group, osd in named]
    return found


def kept_reasons(cluster: Cluster) -> list[Against]:
    """Exceptions that lead to an OSD which does not exist and has kept a reweight above 0: Ceph takes them and drops
    the OSD at look-up.
    """
    kept = {osd: weight for osd, weight in cluster.gone.items() if weight}
    told = "which does not exist and has kept the reweight"
    return [
        Against(
            "exception-kept", f"the {word} of {entry['pgid']} {verb} osd.{osd}, {told} {kept[osd] / FULL_WEIGHT:.5f}"
        )
        for key, word, verb in (SETS, PAIRS)
        for entry in entries_of(cluster.osd_dump, key)
        if cluster.is_group(entry["pgid"])
        for osd in dict.fromkeys(targets(entry))
        if osd in kept
    ]
