"""Pools beside those that `--pools` has chosen. No program places their groups, so what may move of them is told: all
groups of a pool where what places them changes, or that is not at rest; of others those with exceptions, which a
monitor may take away at any map.
"""

from __future__ import annotations

from collections.abc import Sequence
from dataclasses import dataclass

from ..faults import Fault
from ..program.map_forms import EXCEPTIONS
from ..program.maps import altered, entries_of
from ..values import SLOTS
from ..words import counted, some
from .cluster import Cluster
from .dump_types import DumpBucket, DumpPool, DumpRule
from .entry_forms import exceptions_in
from .json_forms import PoolBesideParts
from .names import pools_named
from .unrest import unrest_in

# What of a pool decides where its groups lie, beside its rule.
OF_POOL = ("type", "size", "crush_rule", "pg_num", "pg_placement_num", "flags", "object_hash")


@dataclass(frozen=True, **SLOTS)
class PoolBeside:
    """A pool that is left out: its id, name and rule, how many groups and places it has, how many of its groups may
    move, and whether what places them changes. None for what is not known of one that cannot be read.
    """

    number: int
    name: str
    rule: int | None
    groups: int | None
    places: int | None
    moving: int | None
    is_touched: bool

    def __str__(self) -> str:
        """What may move of it, in words."""
        if self.groups is None or self.places is None:
            return f"{self.name}, which cannot be read: all of it may move"
        own = f"{self.name}, {counted(self.groups, 'group')} and {counted(self.places, 'place')}"
        if self.is_touched:
            return f"{own}: all may move, as its rule or OSDs change"
        if self.moving:
            return f"{own}: {self.moving} may move, as it is not at rest or a monitor takes exceptions away"
        return f"{own}: its rule and OSDs stay as they are"

    def parts(self) -> PoolBesideParts:
        """The same as JSON has it."""
        return {
            "id": self.number,
            "name": self.name,
            "groups": self.groups,
            "places": self.places,
            "may_move": self.moving,
            "changes": self.is_touched,
        }


@dataclass(frozen=True, **SLOTS)
class PoolsBeside:
    """All pools that are left out."""

    pools: tuple[PoolBeside, ...] = ()

    @property
    def touched(self) -> list[PoolBeside]:
        """Those whose rule or OSDs change."""
        return [own for own in self.pools if own.is_touched]

    @property
    def of_read(self) -> str:
        """Of which pools something is said, where it is not said of all."""
        return " of the pools that were read" if self.pools else ""

    @property
    def state_words(self) -> str:
        """That pools are left out, behind a state."""
        return f"; left out by --pools: {some([own.name for own in self.pools])}" if self.pools else ""

    def lines(self) -> list[str]:
        """What may move of each, in lines of text."""
        return [f"left out by --pools, and placed by no program: {own}" for own in self.pools]

    def notes(self) -> list[str]:
        """The same as the head of a script has it."""
        return [f"beside: {own}; no program has placed it" for own in self.pools]

    def parts(self) -> dict[str, object]:
        """The same as JSON has it; nothing where no pool is left out."""
        return {"beside": [own.parts() for own in self.pools]} if self.pools else {}


def of_bucket(cluster: Cluster, bucket: DumpBucket) -> object:
    """What of a bucket decides where groups lie."""
    items = [(item["id"], cluster.weight(item)) for item in bucket["items"]]
    return bucket["id"], bucket["type_id"], bucket["alg"], bucket.get("hash"), items


def of_rule(cluster: Cluster, rule: DumpRule) -> object:
    """What of a rule decides where groups lie."""
    types = cluster.types
    return [
        (step["op"], step.get("item"), step.get("num"), types.get(step.get("type", ""), step.get("type")))
        for step in rule["steps"]
    ]


def placing(cluster: Cluster, pool: DumpPool, excepted: set[int]) -> object:
    """All that decides where the groups of a pool lie, whose exceptions name some OSDs."""
    rules = [own for own in cluster.crush["rules"] if own["rule_id"] == pool["crush_rule"]]
    roots = [root for rule in rules for root in cluster.takes(rule)]
    reached = {number for root in roots for number in cluster.reached(root, cluster.listed_in)}
    osds = sorted({number for number in reached if number >= 0} | excepted)
    return (
        [pool.get(key) for key in OF_POOL],
        [of_rule(cluster, rule) for rule in rules],
        [of_bucket(cluster, cluster.buckets[number]) for number in sorted(reached) if number in cluster.buckets],
        [(osd, cluster.osds.get(osd), cluster.gone.get(osd)) for osd in osds],
        cluster.crush["tunables"],
        cluster.crush["choose_args"],
    )


def exceptions_by_pool(cluster: Cluster) -> dict[str, dict[str, set[int]]]:
    """The groups with exceptions of each pool, by its id as a text, and the OSDs that these name."""
    found: dict[str, dict[str, set[int]]] = {}
    explicit, items = (entries_of(exceptions_in(cluster.osd_dump), key) for key in EXCEPTIONS)
    named = [(group, osds) for group, osds in explicit]
    named += [(group, [osd for pair in pairs for osd in pair]) for group, pairs in items]
    for group, osds in named:
        found.setdefault(group.split(".")[0], {}).setdefault(group, set()).update(osds)
    return found


def whole_then(whole: Cluster, new: Cluster) -> Cluster:
    """A cluster with all its pools as a change leaves it: as the dumps of then tell it, or with the OSDs and the CRUSH
    map that some of its pools have then.
    """
    if new.whole is not None:
        return new.whole
    dump = altered(whole.osd_dump, osds=new.osd_dump["osds"], max_osd=new.osd_dump["max_osd"])
    return Cluster(dump, new.crush, new.torn, new.gone)


def placed_by(cluster: Cluster, numbers: set[int]) -> dict[int, object]:
    """All that decides where the groups of some pools lie, by their ids."""
    excepted, found = exceptions_by_pool(cluster), dict[int, object]()
    for pool in cluster.pools:
        if pool["pool"] in numbers:
            own = excepted.get(str(pool["pool"]), {})
            osds = {osd for named in own.values() for osd in named}
            found[pool["pool"]] = placing(cluster, pool, osds), own
    return found


def beside(cluster: Cluster, states: Sequence[Cluster] = (), is_unknown: bool = False) -> PoolsBeside:
    """The pools beside those that were chosen of a cluster, with what may move of them where it becomes some others one
    after the other, or where nobody knows what has changed.
    """
    whole = cluster.whole
    if whole is None:
        return PoolsBeside()
    pools = [pool for pool in whole.pools if pool["pool"] not in cluster.sizes]
    numbers = {pool["pool"] for pool in pools}
    now, then = placed_by(whole, numbers), [placed_by(whole_then(whole, new), numbers) for new in states]
    excepted, found = exceptions_by_pool(whole), []
    for pool in pools:
        number = pool["pool"]
        is_touched = is_unknown or any(own.get(number) != now[number] for own in then)
        found.append(pool_beside(pool, len(excepted.get(str(number), {})), is_touched))
    unread = [PoolBeside(number, f"pool {number}", None, None, None, None, True) for number in sorted(cluster.unread)]
    return PoolsBeside((*found, *unread))


def pool_beside(pool: DumpPool, excepted: int, is_touched: bool) -> PoolBeside:
    """A pool that is left out, of whose groups so many have exceptions."""
    groups, name = pool["pg_num"], pool["pool_name"]
    moving = groups if is_touched or unrest_in(pool) is not None else excepted
    return PoolBeside(pool["pool"], name, pool["crush_rule"], groups, groups * pool["size"], moving, is_touched)


def beside_lines(cluster: Cluster) -> list[str]:
    """That pools are left out, where no change is asked for, and with how many groups if each of them can be read."""
    found = beside(cluster).pools
    if not found:
        return []
    groups = [own.groups for own in found if own.groups is not None]
    many = f", with {counted(sum(groups), 'group')}" if len(groups) == len(found) else ""
    return [f"left out by --pools: {some([own.name for own in found])}{many}"]


def check_leaving(found: PoolsBeside, words: Sequence[str], what: str) -> None:
    """A fault where the rule or the OSDs of pools change that are left out, and words do not name each of them."""
    names = {own.number: own.name for own in found.pools}
    named = pools_named(words, names)
    unnamed = [own for own in found.touched if own.number not in named]
    if unnamed:
        leaving = ",".join(str(own.number) for own in found.touched)
        raise Fault(*map(str, unnamed), f"nothing is {what}: --leaving {leaving} does it nonetheless")
