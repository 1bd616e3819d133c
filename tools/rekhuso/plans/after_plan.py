"""A cluster as it is once the commands of a plan are given."""

from __future__ import annotations

import math

from ..cluster.cluster import Cluster
from ..cluster.effects import with_change
from ..cluster.view import ClusterView, view_of_cluster
from ..program.maps import Program
from .json_forms import PlanParts
from .measures import counts_after, pool_spread
from .plan import Outcome
from .rounds import Live
from .steps import PlanStep, change_by, steps_by_pool


def after_steps(whole: ClusterView, steps: list[PlanStep]) -> ClusterView:
    """A cluster of dumps once the commands of some steps are given."""
    if whole.found is None:
        return whole
    own, change = whole.found.cluster, change_by([line for step in steps for line in step.commands])
    return view_of_cluster(Cluster(with_change(own.osd_dump, change), own.crush, own.torn, own.gone))


def rested_after(whole: ClusterView, steps: list[PlanStep], program: Program) -> list[str]:
    """The groups whose named primary does nothing any more after some steps."""
    before = whole.primaries(program)
    return before.rested(after_steps(whole, steps).primaries(program)) if before.osds else []


def farthest_by_weight(live: Live, parts: PlanParts, steps: list[PlanStep]) -> float:
    """How far an OSD is at most from its share of a pool by weight after the pool's steps."""
    shares, number = live.before.shares_by[parts["id"]], parts["id"]
    if live.goals[number] is shares:
        return parts["after"]["farthest"]
    return pool_spread(counts_after(live.before.counts_in[number], steps), shares)["farthest"]


def quiet_deviation(lives: list[Live], outcome: Outcome) -> int | None:
    """The least `upmap_max_deviation` with which Ceph's own balancer has nothing to do after a plan: it plans each pool
    by itself until no OSD is farther from its share by weight (OSDMap.cc `calc_pg_upmaps`). None where that is not
    known: of pools that were not planned, or are left alone, and while OSDs are down that are in, whose groups it does
    not count.
    """
    several = {number for live in lives for number, pool in live.pools.items() if pool["pg_num"] > 1}
    if several - {parts["id"] for parts in outcome.pools if not parts["left_alone"]}:
        return None
    if any(osd["exists"] and osd["weight"] and not osd["up"] for live in lives for osd in live.value["osds"]):
        return None
    steps, live_of = steps_by_pool(outcome.steps), {number: live for live in lives for number in live.pools}
    far = (farthest_by_weight(live_of[own["id"]], own, steps.get(own["id"], [])) for own in outcome.pools)
    return max(1, math.ceil(max(far, default=0.0)))
