"""Primary affinity: which OSD of an up set is the primary, where some OSDs are to be it less often (Ceph 16.2 and 18.2,
OSDMap.cc `_apply_primary_affinity`). No map has affinities; the dumps of a cluster do.
"""

from __future__ import annotations

from collections.abc import Iterable, Mapping

from ..program.answers import Up
from ..program.maps import Pool, group_key
from ..words import some
from .cluster import Cluster

FULL_AFFINITY = 65536
WORD = 2**32 - 1
SEED = 1315423911


def mixed(first: int, second: int, third: int) -> tuple[int, int, int]:
    """Three words of 32 bits, mixed (Ceph, crush/hash.c `crush_hashmix`)."""
    for right, left, last in ((13, 8, 13), (12, 16, 5), (3, 10, 15)):
        first = (first - second - third ^ third >> right) & WORD
        second = (second - third - first ^ first << left) & WORD
        third = (third - first - second ^ second >> last) & WORD
    return first, second, third


def hash_of(one: int, two: int) -> int:
    """The hash of two words (`crush_hash32_2`)."""
    one, two = one & WORD, two & WORD
    found, left, right = SEED ^ one ^ two, 231232, 1232
    one, two, found = mixed(one, two, found)
    left, one, found = mixed(left, one, found)
    two, right, found = mixed(two, right, found)
    return found


def seed_of(pool: Pool, number: int) -> int:
    """The number by which a group of a pool is placed, as a pool with `hashpspool` has it."""
    mask = (1 << (pool["pgp_num"] - 1).bit_length()) - 1
    placed = number & mask if number & mask < pool["pgp_num"] else number & mask >> 1
    return hash_of(placed, pool["id"])


def affinities_of(cluster: Cluster) -> dict[int, int]:
    """The affinities of a cluster's OSDs in units of 1/65,536, those of 1 aside."""
    found = {osd: round(own.get("primary_affinity", 1) * FULL_AFFINITY) for osd, own in cluster.osds.items()}
    return {osd: affinity for osd, affinity in found.items() if affinity != FULL_AFFINITY}


def with_affinity(pool: Pool, number: int, up: Up, affinities: Mapping[int, int]) -> Up:
    """The up set of a group of a pool with the primary that affinities choose: the first OSD whose hash lets it be,
    or the first of all. In a replicated pool it comes to the front.
    """
    osds = [osd for osd in up.places if osd is not None]
    if not any(osd in affinities for osd in osds):
        return up
    seed = seed_of(pool, number)
    fit = (osd for osd in osds if hash_of(seed, osd) >> 16 < affinities.get(osd, FULL_AFFINITY))
    primary = next(fit, osds[0])
    if pool["kind"] == "erasure":
        return up._replace(primary=primary)
    return up._replace(places=[primary, *(osd for osd in osds if osd != primary)], primary=primary)


def all_with_affinity(pools: Iterable[Pool], ups: Mapping[str, Up], affinities: Mapping[int, int]) -> dict[str, Up]:
    """The up set of each group with the primary that affinities choose."""
    if not affinities:
        return dict(ups)
    by_id = {pool["id"]: pool for pool in pools}
    found = {}
    for group, up in ups.items():
        pool, number = group_key(group)
        found[group] = with_affinity(by_id[pool], number, up, affinities)
    return found


def told_affinities(affinities: Mapping[int, int]) -> list[dict[str, float]]:
    """The affinities below 1 that are applied, as JSON has them."""
    return [{"osd": osd, "affinity": affinity / FULL_AFFINITY} for osd, affinity in sorted(affinities.items())]


def applied_words(affinities: Mapping[int, int]) -> str:
    """That affinities are applied, and whose."""
    return f"primary affinity is applied, which is below 1 for {some([f'osd.{osd}' for osd in sorted(affinities)])}"
