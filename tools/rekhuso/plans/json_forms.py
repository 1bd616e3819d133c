"""The forms of what is told of plans, what-ifs and what is held as JSON."""

from __future__ import annotations

from typing import TypedDict

from ..cluster.json_forms import (
    FillParts,
    FullestParts,
    MisplacedParts,
    OsdFillParts,
    OutageParts,
    SpreadParts,
    UnrestParts,
    UseParts,
)
from ..program.maps import Entry


class PoolSpreadParts(SpreadParts):
    """How even the OSDs of a pool are: the least and the greatest number of groups, and the standard deviation from the
    shares and the greatest.
    """

    farthest: float


class LeadParts(TypedDict):
    """How many groups OSDs lead: the least and the greatest number, and the greatest distance from a share."""

    least: int
    greatest: int
    farthest: float


class KnownParts(TypedDict, total=False):
    """What is told of a cluster whose disks are known."""

    use: UseParts


class ClusterParts(KnownParts):
    """What is told of a cluster over all pools: by groups and, where it is known what the pools hold, by bytes, and
    the bytes that the pool with most data may still take.
    """

    groups: FillParts
    bytes: FillParts | None
    room: int | None


class HindranceParts(TypedDict):
    """A pool of which an OSD has many bytes in so many groups, and what keeps them there."""

    id: int
    groups: int
    bytes: int
    by: str


class StayParts(OsdFillParts):
    """An OSD that stays far above what it is to have, with the pools of which it has most."""

    pools: list[HindranceParts]


class DataParts(TypedDict):
    """What is known of data: by means of pools or by groups, whether the disks are known, the pools that hold data and
    are in no map of those that are planned, and the OSDs that stay far above what they are to have.
    """

    by: str
    has_disks: bool
    pools_beside: list[int]
    stays: list[StayParts]


class AllPoolsParts(TypedDict):
    """How even a cluster is before and after a plan of some pools, by all pools that can be placed, which are told by
    their ids.
    """

    pools: list[int]
    before: FillParts
    after: FillParts


class MovingParts(TypedDict):
    """What a plan, or a part of it, moves; bytes and their share of the data of all pools are None where nobody tells
    how much the pools hold.
    """

    groups: int
    places: int
    bytes: int | None
    share: float | None


class PoolMovingParts(MovingParts):
    """The same of one pool, which has so many groups."""

    id: int
    of: int


class OsdMovingParts(TypedDict):
    """How many places come to an OSD and go from it, and where it is known their bytes."""

    id: int
    come: int
    go: int
    bytes_come: int | None
    bytes_go: int | None


class FirstParts(TypedDict):
    """So many first commands of a plan, and how full the fullest OSD is after them, to its share."""

    commands: int
    fullest: float


class WorthParts(TypedDict):
    """What a plan is worth in its order: by bytes or by groups how full the fullest OSD is, to its share, before it and
    after each hundred places; and the first commands, by which most of that is gained.
    """

    by: str
    fullest: list[list[float]]
    first: FirstParts


class WayParts(TypedDict):
    """A plan that was tried, by what it goes by: how full the fullest OSD is after it, to its share by weight."""

    by: str
    bytes: float | None
    groups: float
    places: int
    keeps_room: bool


class ChosenParts(TypedDict):
    """By what a plan goes, of those that were tried, and how full any leaves the fullest OSD, to its weight, at
    least.
    """

    by: str
    ways: list[WayParts]
    least: float | None


class PlanParts(TypedDict):
    """What is told of a pool's plan."""

    id: int
    name: str
    moves: int
    groups: int
    refused: str | None
    left_alone: bool
    moves_within: int | None
    moves_whole: int | None
    left_out: list[str]
    left_out_by: str
    before: PoolSpreadParts
    after: PoolSpreadParts


class ExceptionParts(TypedDict):
    """How many groups have exceptions before a change, which then have none, and of which some pairs go."""

    before: int
    gone: list[str]
    fewer: list[str]


class FlowParts(TypedDict):
    """What moves, from where to where; what is left short, and what anew; the fullest OSDs; what exceptions go, and
    the groups whose named primary does nothing any more.
    """

    groups: int
    places: int
    short: list[str]
    short_anew: list[str]
    below_min_size: list[str]
    fullest_by_count: FullestParts
    fullest_by_share: FullestParts
    exceptions: ExceptionParts
    outage: OutageParts | None
    misplaced: MisplacedParts | None
    unrest: list[UnrestParts]
    notes: list[str]
    idle_primaries: list[str]
    unbalanced: list[Entry]
    flows: list[list[int]]


class LeftParts(TypedDict):
    """A group that is not held: the set that it had and the one that it gets, how many places move, and why: by its
    code, and by which step or part of the check.
    """

    group: str
    was: list[int | None]
    now: list[int | None]
    places: int
    code: str | None
    step: str
    why: str


class CountParts(TypedDict):
    """Groups, and places of theirs."""

    groups: int
    places: int


class HoldParts(CountParts):
    """The groups that a change would move, and their places; how many of them are held; the groups that are not; how
    many get places that they lacked; those that have another primary; those that lose their pairs again, and the pools
    that are not at rest; and those that have explicit sets.
    """

    held: int
    left: list[LeftParts]
    filled: CountParts
    other_primary: list[str]
    losing: list[str]
    unrest: list[UnrestParts]
    explicit: list[str]


class BytePeakParts(TypedDict):
    """The OSD that gets fullest by bytes while parts move, of those to which places come, and how many times its share
    it then has, where nothing of a part has gone yet.
    """

    osd: int
    ratio: float


class ByteFillParts(TypedDict):
    """How full OSDs are by bytes before parts and after them, and meanwhile, None where nothing comes."""

    before: FillParts
    after: FillParts
    peak: BytePeakParts | None


class PeakParts(TypedDict):
    """The OSD that has most groups while a part moves, of those to which places come (None where none does), and how
    many it has, where nothing has gone yet.
    """

    osd: int | None
    groups: int
