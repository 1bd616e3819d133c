"""What becomes of a cluster by commands: each makes a map, at which the monitor takes exceptions away (`cleanup`)."""

from __future__ import annotations

from collections.abc import Mapping
from dataclasses import dataclass
from typing import Union

from ..faults import Fault
from ..program.map_forms import FULL_WEIGHT
from ..program.maps import (
    Change,
    Exceptions,
    Map,
    Program,
    altered,
    entries_of,
    excepted_groups,
    with_all_up,
    without_exceptions,
)
from ..values import SLOTS
from .cleanup import Cleaned, cleaned, group_fault
from .cluster import Cluster
from .conversion import map_of, monitor_of
from .effects import Host, with_change, with_osd, with_weights
from .entry_forms import exceptions_in, pool_of, told_exceptions
from .judge import Places, Present, Reason, judge_of_cluster
from .map_dumps import cluster_of_map
from .map_parts import map_clusters
from .new_crush import NewCrush, PoolChange, with_new_crush, with_pool_change
from .reasons import reasons
from .reasons.kinds import Against
from .shadows import with_shadows


@dataclass(frozen=True, **SLOTS)
class StateChange:
    """A command that changes states, reweights, pools or exceptions, as a change of the program has them."""

    change: Change


@dataclass(frozen=True, **SLOTS)
class CrushWeights:
    """`ceph osd crush reweight`, or of all OSDs below a bucket `reweight-subtree`: weights in units of 1/65,536."""

    weights: dict[int, int]
    is_subtree: bool


@dataclass(frozen=True, **SLOTS)
class Arrival:
    """A new OSD on a host that comes, with its weight in units of 1/65,536."""

    host: Host
    weight: int


@dataclass(frozen=True, **SLOTS)
class NewMap:
    """A map in place of another, with which nothing else is known of the cluster."""

    value: Map


Command = Union[StateChange, CrushWeights, Arrival, NewMap, NewCrush, PoolChange]


@dataclass(frozen=True, **SLOTS)
class Aftermath:
    """A cluster after some commands: it itself, the groups whose exceptions went on the way with the reason of each,
    those of whose pairs some went, and those whose exceptions go at a later map.
    """

    cluster: Cluster
    gone: dict[str, Reason]
    fewer: list[str]
    later: dict[str, Reason]


def with_primaries_of(old: Cluster, new: Cluster) -> Cluster:
    """A cluster with the primaries that are named for groups of another, where their pools are there."""
    entries, pools = entries_of(old.osd_dump, "pg_upmap_primaries"), {str(pool) for pool in new.sizes}
    kept = [entry for entry in entries if entry["pgid"].split(".")[0] in pools]
    return Cluster(altered(new.osd_dump, pg_upmap_primaries=kept), new.crush, new.torn, new.gone) if kept else new


def with_command(cluster: Cluster, step: Command) -> Cluster:
    """A cluster after a command, before the monitor looks at exceptions."""
    if isinstance(step, NewMap):
        return with_primaries_of(cluster, cluster_of_map(step.value, cluster.all_names()))
    if isinstance(step, Arrival):
        return with_osd(cluster, step.host, step.weight)
    if isinstance(step, NewCrush):
        return with_new_crush(cluster, step)
    if isinstance(step, PoolChange):
        return with_pool_change(cluster, step)
    dump, crush = cluster.osd_dump, cluster.crush
    if isinstance(step, StateChange):
        dump = with_change(dump, step.change)
    else:
        crush = with_weights(crush, step.weights)
        crush = with_shadows(crush) if step.is_subtree else crush
    return Cluster(dump, crush, cluster.torn, cluster.gone)


def with_exceptions(cluster: Cluster, kept: Exceptions) -> Cluster:
    """A cluster with other exceptions, in the map's form."""
    dump = altered(cluster.osd_dump, **told_exceptions(kept))
    return Cluster(dump, cluster.crush, cluster.torn, cluster.gone)


def raw_sets(maps: list[Map], groups: set[str], program: Program) -> dict[str, Places]:
    """What the rules of some groups give, by the program."""
    found: dict[str, Places] = {}
    for value in maps:
        pools = {str(pool["id"]) for pool in value["pools"]}
        own = sorted(group for group in groups if group.split(".")[0] in pools)
        if own:
            with monitor_of(without_exceptions(with_all_up(value)), program) as monitor:
                found.update({group: up.places for group, up in monitor.ups(own).items()})
    return found


def present_in(cluster: Cluster) -> Present:
    """What a monitor looks at in a cluster beside the CRUSH map."""
    reweights = {**cluster.gone, **{osd: round(own["weight"] * FULL_WEIGHT) for osd, own in cluster.osds.items()}}
    return Present({pool["pool"]: pool_of(pool) for pool in cluster.pools}, reweights, cluster.osd_dump["max_osd"])


def cleaned_at(
    cluster: Cluster, program: Program, known: Mapping[str, Places] | None = None
) -> tuple[Cleaned, Cleaned]:
    """What a monitor leaves of a cluster's exceptions at one map, and what of these at the next. What the rules of
    groups give is asked of the program where it is not known.
    """
    exceptions, judge, present = exceptions_in(cluster.osd_dump), judge_of_cluster(cluster), present_in(cluster)
    groups = excepted_groups(exceptions)
    there = {group for group in groups if group_fault(group, present.pools, judge.pending) is None}
    raw = known or (raw_sets([map_of(part) for part in map_clusters(cluster)], there, program) if there else {})
    first = cleaned(judge, present, raw, exceptions)
    return first, cleaned(judge, present, raw, first.kept)


def after_command(cluster: Cluster, step: Command, known: set[Against]) -> Cluster:
    """A cluster after a command, before the monitor looks at exceptions. A fault where it then stays out for reasons
    that are not known.
    """
    cluster = with_command(cluster, step)
    found = [own for own in reasons(cluster, True, False) if own not in known]
    if found:
        raise Fault(*(f"after the change {own.line}" for own in found))
    return cluster


def aftermath(cluster: Cluster, steps: list[Command], program: Program) -> Aftermath:
    """What becomes of a cluster by commands, each of which makes a map. A fault where the cluster then stays out."""
    known = set(reasons(cluster, True, False))
    gone: dict[str, Reason] = {}
    later: Mapping[str, Reason] = {}
    fewer: set[str] = set()
    for step in steps:
        cluster = after_command(cluster, step, known)
        if excepted_groups(exceptions_in(cluster.osd_dump)):
            now, then = cleaned_at(cluster, program)
            cluster = with_exceptions(cluster, now.kept)
            gone.update(now.gone)
            fewer |= set(now.fewer)
            later = then.gone
    return Aftermath(cluster, gone, sorted(fewer - gone.keys()), dict(later))
