"""`report`: one HTML page of a map, or of two dumps, without outside parts: OSDs, pools, exceptions and the plan.

With --next the page also tells how far a plan is that is being carried out, as `next` does: what is done, under way
and left, and OSD by OSD the places that are still to come and to go. --pgs tells where the data is; without it the
temporary sets of the dump do.
"""

from __future__ import annotations

from dataclasses import dataclass

from ..cluster.disks import disks_of
from ..cluster.group_states import states_by_temps, states_in
from ..cluster.imports import imported
from ..cluster.reports import OSD_PART, dump_in_report
from ..cluster.sources import Source
from ..cluster.view import view_of_cluster, view_with_sets
from ..faults import Misuse
from ..files import json_of
from ..output.page import PageParts, page
from ..plans.busy import NO_LIMIT
from ..plans.carried import parts_of_plan
from ..plans.guards import NO_GUARDS
from ..plans.next_step import NextStep, NextWish, next_step
from ..plans.question import sets_of_maps
from ..values import SLOTS
from .arguments import Arguments, Commands, add_files, add_osds, reading, set_work, source_of


def title_of(source: Source) -> str:
    """The cluster that the OSD dump tells by its id; else the name of the file."""
    path = source.paths[0]
    dump = (dump_in_report(path, OSD_PART) or json_of(path)) if source.has_dumps else {}
    cluster = dump.get("fsid")
    return f"Cluster {cluster}" if isinstance(cluster, str) else source.paths[0]


@dataclass(frozen=True, **SLOTS)
class ReportOptions:
    """What the page is of; the file of disks if there is one; and the plan that is carried out, if there is one, and
    the file that tells where the data is.
    """

    source: Source
    osds: str | None
    plan: str | None
    pgs: str | None


def options_of(arguments: Arguments) -> ReportOptions:
    """The options of the command line. An error of use where one would be passed over."""
    own, source = arguments, source_of(arguments)
    if own.next is not None and not source.has_dumps:
        raise Misuse("--next goes with two dumps alone, or a report of a cluster")
    if own.pgs is not None and own.next is None:
        raise Misuse("--pgs tells where the data is, and goes with --next")
    return ReportOptions(source, own.osds, own.next, own.pgs)


def carried(options: ReportOptions) -> NextStep | None:
    """How far the plan is that is carried out, if there is one. A fault where the cluster is not that of the plan."""
    if options.plan is None:
        return None
    source, parts = options.source, parts_of_plan(options.plan)
    cluster = imported(source.dumps()).cluster
    if options.pgs is not None:
        states = states_in(options.pgs, cluster, source.pools is None)
    else:
        states = states_by_temps(cluster, sets_of_maps(view_of_cluster(cluster).maps, source.program))
    return next_step(cluster, parts, states, NextWish(None, NO_LIMIT, NO_GUARDS), source.program)


def work(options: ReportOptions) -> None:
    """Writes the page on standard output."""
    source = options.source
    view, sets = view_with_sets(source)
    disks = disks_of(options.osds, view.shares(sets), source.has_dumps)
    print(page(view, sets, source.program, PageParts(title_of(source), disks, carried(options))), end="")


def add_to(commands_of: Commands) -> None:
    """The subcommand."""
    own = commands_of.add_parser("report", help="one HTML page of a map", description=__doc__)
    add_files(own)
    add_osds(own)
    group = reading(own)
    group.add_argument("--next", metavar="PLAN", help="also how far a plan is: a script, a folder of scripts, or JSON")
    group.add_argument(
        "--pgs", metavar="PGS", help="with --next, what `ceph pg dump -f json` prints: where the data is"
    )
    set_work(own, options_of, work)
