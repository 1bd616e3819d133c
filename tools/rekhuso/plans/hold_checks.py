"""What is looked at before groups are held: whether both sides are of one cluster, and whether it moves already."""

from __future__ import annotations

from collections.abc import Mapping, Sequence

from ..cluster.aftermath import Command, StateChange
from ..cluster.cluster import Cluster
from ..cluster.conversion import map_of
from ..cluster.map_parts import map_clusters
from ..cluster.misplaced import MOST, misplaced_of, temporary_sets
from ..cluster.new_crush import PoolChange
from ..cluster.outage import outage_of
from ..cluster.told_view import verified_view
from ..cluster.view import ClusterView
from ..faults import Fault, Wait
from ..program.answers import Up
from ..program.maps import Program, entries_of
from ..running import tell
from ..words import counted
from .question import sets_of_maps


def check_sides(old: Cluster, new: Cluster) -> None:
    """A fault where two sides are of different clusters, or the later one stands first."""
    one, two = (cluster.osd_dump.get("fsid") for cluster in (old, new))
    if one is not None and two is not None and one != two:
        raise Fault(f"the two sides are of different clusters: their fsid is {one}, then {two}")
    before, after = ({pool["pool"]: pool for pool in cluster.pools} for cluster in (old, new))
    faults = []
    for number in sorted(before.keys() & after.keys()):
        was, now = before[number], after[number]
        if was["type"] != now["type"]:
            faults.append(f"pool {number} ({now['pool_name']}) is of another kind on the other side")
        elif was["pool_name"] != now["pool_name"] and (one is None or two is None):
            faults.append(f"pool {number} is {was['pool_name']}, then {now['pool_name']}")
        elif was["pg_num"] > now["pg_num"]:
            faults.append(f"pool {number} ({now['pool_name']}) has {was['pg_num']} groups, then {now['pg_num']}")
    if before and after and not before.keys() & after.keys():
        faults.append("they have no pool in common")
    if faults:
        raise Fault(*(f"the two sides do not fit: {fault}" for fault in faults))
    if old.epoch > new.epoch:
        raise Fault(f"the later side stands first: epoch {old.epoch}, then {new.epoch}")


def counted_pools(step: Command) -> set[int]:
    """The pools to which a command gives other numbers of groups."""
    if isinstance(step, PoolChange):
        return {step.pool} if step.pg_num is not None or step.pgp_num is not None else set()
    return {entry[0] for entry in step.change.get("grow_pool", [])} if isinstance(step, StateChange) else set()


def check_counts(cluster: Cluster, steps: Sequence[Command]) -> None:
    """A fault where commands give pools other numbers of groups: they only set a target, to which the manager goes step
    by step.
    """
    names = {pool["pool"]: pool["pool_name"] for pool in cluster.pools}
    pools = sorted({number for step in steps for number in counted_pools(step)})
    if pools:
        raise Fault(
            *(
                f"{names.get(number, number)}: the command for its pg_num or pgp_num only sets a target, to which the "
                "manager goes step by step: no group can be held before it is there"
                for number in pools
            ),
            "nothing is held: give the command under norebalance, wait until pgp_num is pg_num, and hold then by four "
            "dumps, those before it and those behind it",
        )


def outage_words(cluster: Cluster, program: Program) -> list[str]:
    """Why a cluster is amid an outage: OSDs are down, and groups short."""
    if all(osd["up"] for osd in cluster.osds.values()):
        return []
    maps = [map_of(part) for part in map_clusters(cluster)]
    osds = {osd["id"]: osd for value in maps for osd in value["osds"]}
    pools = [pool for value in maps for pool in value["pools"]]
    outage = outage_of(osds.values(), pools, sets_of_maps(maps, program))
    return [] if outage is None else [str(outage)]


def moving_words(cluster: Cluster, program: Program) -> list[str]:
    """Why a cluster is not still: groups whose data is not where their sets are, or OSDs that are down."""
    found, temporary = [], len(entries_of(cluster.osd_dump, "pg_temp"))
    if temporary:
        have = f"{temporary} groups have" if temporary > 1 else "1 group has"
        found.append(f"the cluster moves already: {have} a pg_temp, as their data is not where their sets are")
    return found + outage_words(cluster, program)


def much_moving(cluster: Cluster, program: Program) -> list[str]:
    """The same, where few places are still to move and are told alone: that is borne as a plan bears it."""
    temporary = temporary_sets(cluster.osd_dump)
    maps = [map_of(part) for part in map_clusters(cluster)] if temporary else []
    found = misplaced_of(cluster.osd_dump, sets_of_maps(maps, program)) if temporary else None
    if found is not None and found.share < MOST:
        tell(found)
    much = [] if found is None or found.share < MOST else [str(found)]
    return much + outage_words(cluster, program)


def torn_words(groups: Sequence[str], path: str) -> list[str]:
    """That groups are not whole by a dump of groups."""
    are = f"{counted(len(groups), 'group')} {'is' if len(groups) == 1 else 'are'}"
    return [f"{path}: {are} degraded or not active: their data is not all at the sets that act"] if groups else []


def check_torn(groups: Sequence[str], count: int, path: str, is_asked: bool) -> frozenset[str]:
    """The groups that stay as they are, of so many, as their data is not all at their sets: that is told on standard
    error. None do where they are asked for nonetheless. A fault where all of them are so.
    """
    found = torn_words(groups, path)
    if len(groups) == count or is_asked:
        check_still(found, is_asked, "held")
        return frozenset()
    for line in found:
        tell(f"{line}; they stay as they are")
    return frozenset(groups)


def told_words(view: ClusterView, sets: Mapping[str, Up], path: str, is_whole: bool) -> list[str]:
    """Why these maps are not those of a cluster, by a dump of groups that tells where these lie; none where it tells
    nothing of that.
    """
    found = verified_view(view, sets, path, is_whole)
    return [] if found is None else [f"{path}: {line}" for line in found.against()]


def check_still(found: list[str], is_asked: bool, what: str) -> None:
    """Tells on standard error why a cluster is not still. A fault where nothing is asked for nonetheless."""
    check_told(found, is_asked, what, Wait)


def check_told(found: list[str], is_asked: bool, what: str, kind: type[Fault] = Fault) -> None:
    """Tells on standard error what is against something. A fault where it is not asked for nonetheless."""
    if found and not is_asked:
        raise kind(*found, f"nothing is {what}: --anyway does it nonetheless")
    for line in found:
        tell(line)
