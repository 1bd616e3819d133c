"""The forms of what is told of a cluster as JSON: its OSDs, what moves between two maps, and what changes from epoch
to epoch.
"""

from __future__ import annotations

from typing import Dict, TypedDict, cast

from ..program.map_forms import GROWING
from ..program.maps import Entry, Pool


class ItemParts(TypedDict):
    """What is told of a bucket or an OSD."""

    id: int
    weight: float
    groups: int
    share: float
    reach: float


class RowParts(ItemParts, total=False):
    """The same with the type of a bucket, and what an OSD alone has."""

    type: int
    reweight: float
    state: str
    deviation: float


class TotalParts(TypedDict):
    """What a tree comes to."""

    weight: float
    groups: int
    share: float
    reach: float


class FullParts(TypedDict):
    """A bucket that holds so many places of each group of a pool, as many as it can, and weighs for another number."""

    id: int
    type: int
    places: int
    wanted: float


class PoolRowParts(TypedDict):
    """What is told of a pool."""

    id: int
    size: int
    groups: int
    rule: int
    places: int
    short: int
    full: list[FullParts]


class UnrestParts(TypedDict):
    """What becomes of a pool that is not at rest: how many groups it has, will have next and is to have in the end, by
    how many they are placed, now and in the end, and all of it in words.
    """

    id: int
    name: str
    pg_num: int
    pg_num_pending: int
    pg_num_target: int
    pgp_num: int
    pgp_num_target: int
    why: str


class PoolBesideParts(TypedDict):
    """A pool that `--pools` leaves out: how many groups and places it has, how many of its groups may move, and whether
    what places them changes; None for what is not known of one that cannot be read.
    """

    id: int
    name: str
    groups: int | None
    places: int | None
    may_move: int | None
    changes: bool


class AgainstParts(TypedDict):
    """Why a cluster stays out: the kind by its code, in words, and what is done about it, if that is known."""

    code: str
    why: str
    advice: str | None


class VerifiedParts(TypedDict):
    """How many groups there are, how many lie where the cluster says, how many elsewhere, and of how many the cluster
    does not tell it yet.
    """

    groups: int
    same: int
    differ: int
    untold: int


class SpreadParts(TypedDict):
    """How even OSDs are: the least and the greatest number of groups, and the standard deviation from the shares."""

    least: int
    greatest: int
    deviation: float


class OsdFillParts(TypedDict):
    """What an OSD has, groups or bytes, its share, and the ratio of the two."""

    id: int
    has: float
    share: float
    ratio: float


class FillParts(TypedDict):
    """How even a cluster is: its fullest OSD and its emptiest, to their shares, None where no OSD has a share, and the
    standard deviation: of groups in groups, of bytes as a part of the share.
    """

    fullest: OsdFillParts | None
    emptiest: OsdFillParts | None
    deviation: float


class UseParts(TypedDict):
    """The fullest OSD and the emptiest by what of their disks is in use: there a share is a disk."""

    fullest: OsdFillParts
    emptiest: OsdFillParts


class MovedParts(TypedDict):
    """How many groups and places differ, and which OSDs take part."""

    groups: int
    places: int
    osds: list[int]


class FullestParts(TypedDict):
    """The fullest OSD, None where no OSD has a group; its groups; and its share of them where it is the fullest by
    share.
    """

    osd: int | None
    groups: int
    share: float | None


class OutageParts(TypedDict):
    """An outage: the OSDs that are down, and how many groups are short."""

    down: list[int]
    short: int


class MisplacedParts(TypedDict):
    """How many groups have a temporary set, how many places are still to come, and their share of all."""

    groups: int
    places: int
    share: float


class GrowthParts(TypedDict):
    """The numbers of groups of a pool that grows, and those that it had."""

    id: int
    pg_num: int
    pgp_num: int
    pg_num_before: int
    pgp_num_before: int


def grown_numbers(parts: GrowthParts) -> dict[str, tuple[int, int]]:
    """Each number of a pool that a change lets grow: what it was, and what it is then."""
    numbers = cast(Dict[str, int], parts)
    return {key: (numbers[f"{key}_before"], numbers[key]) for key in GROWING}


class CrushParts(TypedDict):
    """How many buckets and rules a CRUSH map has."""

    buckets: int
    rules: int


class ExceptionChangeParts(TypedDict):
    """The exceptions of one kind that come, each with its group; those that become others; and the groups whose
    exceptions go, also with their pools.
    """

    added: list[Entry]
    changed: list[Entry]
    removed: list[str]


class EpochParts(TypedDict):
    """What is other in the map of an epoch than in the one before. Reweights are from 0 to 1: those with which OSDs
    came in, and of OSDs that are in before and after, the two. `made` is when the change was made, in milliseconds
    since 1970 by the clock of the machine, and `by` who made it, where the store tells.
    """

    epoch: int
    made: int | None
    by: str | None
    profile: str
    went_down: list[int]
    came_up: list[int]
    went_out: list[int]
    came_in: list[Entry]
    reweighted: list[Entry]
    pools_removed: list[int]
    pools_created: list[Pool]
    pools_grown: list[GrowthParts]
    new_crush: CrushParts | None
    pg_upmap: ExceptionChangeParts
    pg_upmap_items: ExceptionChangeParts


class PairParts(TypedDict):
    """What is told of a pair: where it leads, why it does nothing, and the set behind it."""

    was: int
    now: int
    idle: str | None
    places: list[int | None]


class NamedParts(TypedDict):
    """What is told of the primary that is named for a group: which OSD, why it does nothing, and the set behind it."""

    osd: int
    idle: str | None
    set: list[int | None]
