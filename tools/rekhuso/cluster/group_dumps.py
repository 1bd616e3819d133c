"""Where the data of a cluster's groups is, by what `ceph pg dump -f json` prints."""

from __future__ import annotations

from dataclasses import dataclass

from ..faults import Fault
from ..files import JsonObject, json_of, remembered
from ..program.maps import group_key
from ..values import SLOTS
from ..words import some
from .cleanup import NONE
from .cluster import Cluster
from .dump_forms import DumpForm, GROUP, misfits
from .file_kinds import PG_DUMP, check_kind
from .reports import GROUPS_PART, beside_dumps, check_no_report

# What it tells of each group where its data is asked for.
ACTING = {"pgid": GROUP, "acting": [int], "?state": str}
# What a state says of a group that has not all of its data at its set.
NOT_WHOLE = ("degraded", "undersized", "recover", "peering", "incomplete", "stale", "unknown", "down", "creating")


@dataclass(frozen=True, **SLOTS)
class GroupData:
    """The set that acts for each group, from which its data has not moved yet; how many groups each pool has there;
    and the groups that are not whole.
    """

    sets: dict[str, list[int | None]]
    counts: dict[int, int]
    torn: list[str]


@remembered(1)
def pg_dump_in(path: str) -> JsonObject:
    """The object of a file, which a command may ask for several things, and which is long; of what `gather` writes the
    part that tells of groups. A fault where it is a report.
    """
    own = beside_dumps(path, GROUPS_PART)
    if own is not None:
        return {GROUPS_PART: own}
    check_no_report(path, "of groups one by one: give what `ceph pg dump -f json` prints")
    value = json_of(path)
    check_kind(path, value, PG_DUMP)
    return value


def stats_in(path: str, form: DumpForm) -> list[JsonObject]:
    """What a file tells of each group. A fault for each place of another form, and where a group stands there twice."""
    value = pg_dump_in(path)
    value = value["pg_map"] if isinstance(value.get("pg_map"), dict) else value
    faults = misfits(value, {"pg_stats": [form]}, "")
    if faults:
        raise Fault(*(f"{path}: {fault}" for fault in faults[:20]))
    found: list[JsonObject] = value["pg_stats"]
    if len({own["pgid"] for own in found}) < len(found):
        raise Fault(f"{path}: a group stands there twice")
    return found


def check_groups(path: str, stats: list[JsonObject], cluster: Cluster, is_whole: bool) -> dict[int, int]:
    """How many groups each pool has in a file. A fault where it lacks groups of a pool, has more of one, or, where all
    pools of the cluster are taken, has others.
    """
    names = {pool["pool"]: pool["pool_name"] for pool in cluster.pools}
    counts: dict[int, int] = {}
    for own in stats:
        pool, number = group_key(own["pgid"])
        counts[pool] = max(counts.get(pool, 0), number + 1)
    there, faults = {own["pgid"] for own in stats}, []
    for pool, count in sorted(cluster.sizes.items()):
        if pool not in counts:
            faults.append(f"no group of pool {pool} ({names[pool]})")
        elif counts[pool] > count:
            faults.append(f"pool {pool} ({names[pool]}) has {counts[pool]} groups there, and {count} in the cluster")
        else:
            missing = [f"{pool}.{at:x}" for at in range(counts[pool]) if f"{pool}.{at:x}" not in there]
            faults += [f"no group {some(missing)}"] if missing else []
    faults += [f"the cluster has no pool {pool}" for pool in sorted(counts.keys() - names.keys()) if is_whole]
    if faults:
        raise Fault(*(f"{path}: {fault}" for fault in faults))
    return counts


def group_data_in(path: str, cluster: Cluster, is_whole: bool) -> GroupData:
    """Where the data of a cluster's groups is by a file. A fault where the file is of another cluster, as its groups
    say.
    """
    stats = stats_in(path, ACTING)
    counts = check_groups(path, stats, cluster, is_whole)
    sets = {own["pgid"]: [None if osd in (NONE, -1) else osd for osd in own["acting"]] for own in stats}
    torn = [own["pgid"] for own in stats if any(word in own.get("state", "") for word in NOT_WHOLE)]
    return GroupData(sets, {pool: counts[pool] for pool in cluster.sizes}, sorted(torn, key=group_key))
