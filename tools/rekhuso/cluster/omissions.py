"""What a cluster's maps leave out without harm, each in one line."""

from __future__ import annotations

from ..program.maps import entries_of
from ..words import some
from .cluster import Cluster
from .unrest import unrest_lines


def omissions_of(cluster: Cluster, has_names: bool) -> list[str]:
    """What the map does not hold and the up sets do not need, each in one line."""
    kept = " (--names FILE keeps them)"
    found = [] if has_names else [f"names of OSDs, buckets, pools and rules{kept}"]
    if any("class" in device for device in cluster.crush["devices"]) and not has_names:
        found.append(f"classes of devices{kept}")
    for key, what in (
        ("pg_temp", "temporary sets (pg_temp), which change the acting set and not the up set"),
        ("primary_temp", "temporary primaries (primary_temp)"),
    ):
        count = len(entries_of(cluster.osd_dump, key))
        if count:
            found.append(f"{count} {what}")
    other = [f"osd.{osd}" for osd, own in cluster.osds.items() if own.get("primary_affinity", 1) != 1]
    if other:
        found.append(
            f"primary affinity of {some(other)}: `up` lines over the map tell primaries, and the order of "
            "replicated sets, without it; explain, df --json and whatif over the dumps apply it"
        )
    named = len(entries_of(cluster.osd_dump, "pg_upmap_primaries"))
    if named:
        what, them = ("1 primary", "it") if named == 1 else (f"{named} primaries", "them")
        found.append(
            f"{what} named by pg_upmap_primaries: `up` lines over the map tell primaries, and the order of sets, "
            f"without {them}; explain, df --json and whatif over the dumps apply {them}"
        )
    explicit, items = cluster.exceptions
    idle = (
        len(entries_of(cluster.osd_dump, "pg_upmap"))
        - len(explicit)
        + len(entries_of(cluster.osd_dump, "pg_upmap_items"))
        - len(items)
    )
    found += [
        f"what becomes of pools, of which a plan of the map knows nothing: {line}" for line in unrest_lines(cluster)
    ]
    return found + ([f"{idle} exceptions that cannot act"] if idle else []) + weightless(cluster)


def weightless(cluster: Cluster) -> list[str]:
    """What gets no groups, as it weighs 0 or holds nothing: OSDs and buckets, a line a kind."""
    lost = cluster.stands - set(cluster.kept) - set(cluster.devices)
    osds = [f"osd.{number}" for number in sorted(lost) if number >= 0]
    names = [cluster.bucket_name(number) for number in sorted(lost & cluster.buckets.keys(), reverse=True)]
    least = [
        cluster.bucket_name(number)
        for number in cluster.kept
        if len(cluster.listed_in(number)) > 1 and not any(cluster.weights(cluster.buckets[number]))
    ]
    count = "1 OSD of weight 0, which gets" if len(osds) == 1 else f"{len(osds)} OSDs of weight 0, which get"
    found = [f"{count} no groups: {some(osds)}"] if osds else []
    if names:
        what = (
            "1 bucket that weighs 0 or holds nothing"
            if len(names) == 1
            else f"{len(names)} buckets that weigh 0 or hold nothing"
        )
        found.append(f"{what}: {some(names)}")
    if least:
        found.append(f"all but the first item of {some(least)}, as all their items weigh 0 and Ceph takes the first")
    return found
