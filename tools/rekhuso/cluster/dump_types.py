"""The types of what Ceph's tools dump."""

from __future__ import annotations

from typing import Any, TypedDict


class DumpItem(TypedDict):
    """An item of a bucket, with its weight in units of 1/65,536."""

    id: int
    weight: int


class Hashed(TypedDict, total=False):
    """What a bucket of a CRUSH dump may have."""

    hash: str


class DumpBucket(Hashed):
    """A bucket of a CRUSH dump."""

    id: int
    name: str
    type_id: int
    alg: str
    items: list[DumpItem]


class DumpStep(TypedDict, total=False):
    """A step of a rule; each word has its own keys."""

    op: str
    item: int
    item_name: str
    num: int
    type: str


class DumpRule(TypedDict):
    """A rule of a CRUSH dump."""

    rule_id: int
    rule_name: str
    type: int
    steps: list[DumpStep]


class DumpType(TypedDict):
    """A type of buckets."""

    type_id: int
    name: str


Device = TypedDict("Device", {"id": int, "name": str, "class": str}, total=False)


class CrushDump(TypedDict):
    """What `ceph osd crush dump` prints."""

    devices: list[Device]
    types: list[DumpType]
    buckets: list[DumpBucket]
    rules: list[DumpRule]
    tunables: dict[str, int]
    choose_args: dict[str, list[Any]]


class Flagged(TypedDict, total=False):
    """What a pool of an OSD dump may have."""

    flags: int
    object_hash: int
    min_size: int
    erasure_code_profile: str
    pg_num_pending: int
    pg_num_target: int
    pg_placement_num_target: int


class DumpPool(Flagged):
    """A pool of an OSD dump."""

    pool: int
    pool_name: str
    type: int
    size: int
    crush_rule: int
    pg_num: int
    pg_placement_num: int


class Stated(TypedDict, total=False):
    """What an OSD of an OSD dump may have."""

    state: list[str]
    primary_affinity: float


class DumpOsd(Stated):
    """An OSD of an OSD dump."""

    osd: int
    up: int
    weight: float


class OfCluster(TypedDict, total=False):
    """What an OSD dump may have: of which cluster it is, how often its CRUSH map has changed, and up to which part OSDs
    may be filled.
    """

    fsid: str
    crush_version: int
    nearfull_ratio: float
    erasure_code_profiles: dict[str, Any]


class OsdDump(OfCluster):
    """What `ceph osd dump -f json` prints, beside tables of exceptions that `entries_of` reads."""

    epoch: int
    max_osd: int
    pools: list[DumpPool]
    osds: list[DumpOsd]


class Node(TypedDict, total=False):
    """An OSD or a bucket of what `ceph osd tree -f json` prints."""

    id: int
    exists: int
    reweight: float


class Tree(TypedDict):
    """What `ceph osd tree -f json` prints."""

    nodes: list[Node]
