"""How even a whole cluster is before and after a plan of some of its pools: by all pools that can be placed."""

from __future__ import annotations

from dataclasses import dataclass, replace

from ..cluster.cluster import Cluster
from ..cluster.dumps import chosen_cluster
from ..cluster.evenness import Spread
from ..cluster.imports import free_pools, imported
from ..cluster.json_forms import FillParts
from ..cluster.reasons import reasons
from ..cluster.sources import DumpFiles
from ..cluster.view import ClusterView, view_of_cluster
from ..faults import Fault
from ..program.maps import Program
from ..values import SLOTS
from .after_plan import after_steps
from .json_forms import AllPoolsParts
from .question import sets_of_maps
from .release import counts_of
from .steps import PlanStep


@dataclass(frozen=True, **SLOTS)
class AllPools:
    """All pools that can be placed, by their ids, and how even the cluster is by them before a plan and after it."""

    pools: list[int]
    before: FillParts
    after: FillParts

    def parts(self) -> AllPoolsParts:
        """The same as JSON has it."""
        return {"pools": self.pools, "before": self.before, "after": self.after}

    @property
    def is_worse(self) -> bool:
        """Whether the cluster is less even after the plan."""
        return self.after["deviation"] > self.before["deviation"]


def placeable(files: DumpFiles, chosen: Cluster) -> Cluster | None:
    """The cluster with all pools that can be placed; None where these are no more than were chosen."""
    everything = replace(files, pools=None)
    cluster, faults = chosen_cluster(everything)
    is_whole = not faults and not reasons(cluster, files.is_unmatched, False)
    free = None if is_whole else free_pools(cluster, faults, files.is_unmatched)
    if free == "":
        return None
    try:
        found = imported(replace(files, pools=free)).cluster
    except Fault:
        return None
    return found if found.sizes.keys() > chosen.sizes.keys() else None


def spread_of(view: ClusterView, program: Program) -> Spread:
    """What the OSDs of a cluster have, and their shares."""
    ups = sets_of_maps(view.maps, program)
    return Spread(dict(counts_of(ups)), view.shares(ups).reached)


def all_pools(files: DumpFiles, chosen: Cluster, steps: list[PlanStep]) -> AllPools | None:
    """How even a cluster of which pools were chosen is before and after some steps, by all pools that can be placed;
    None where there are no others.
    """
    cluster = placeable(files, chosen)
    if cluster is None:
        return None
    before = view_of_cluster(cluster)
    spreads = [spread_of(view, files.program).fill() for view in (before, after_steps(before, steps))]
    return AllPools(sorted(cluster.sizes), *spreads)
