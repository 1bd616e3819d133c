"""`next`: the commands of a plan that may be given now, by where the data of the cluster is.

The plan is what `plan`, `release`, `drain` or `hold` has put out: a script, a folder of scripts, or JSON. --pgs tells
where the data is (`ceph pg dump -f json`). --report tells the whole cluster (`ceph report`) in place of the dumps,
and without --pgs its temporary sets tell where the data is. Nothing is kept between two runs: what the cluster has,
has been given. So a run that is cut off, or made twice, does no harm.

Without --most a part comes once the groups of the one before have moved. With --most N the next commands come as soon
as fewer than N places are under way, and --osd-most M lets no OSD take part in more than M moves at a time. Standard
error tells what is done, under way and left. Status 0: all is done; 10: commands are put out; 11: nothing may be
given now; 1: the cluster has changed, or is amid an outage. The program judges the commands as printed, over the
cluster as it is now, and their guards ask that it is so still when they are given.
"""

from __future__ import annotations

import json
import pathlib
import tempfile
from dataclasses import dataclass, replace

from ..cluster.binary_maps import is_binary_map
from ..cluster.cluster import Cluster
from ..cluster.group_states import GroupState, states_by_temps, states_in
from ..cluster.imports import imported
from ..cluster.pools_beside import beside, beside_lines
from ..cluster.reports import with_both
from ..cluster.sources import Source
from ..cluster.view import view_of_cluster
from ..faults import Fault, Misuse
from ..files import json_of
from ..output.json_output import put_json
from ..output.next_words import next_lines
from ..plans.carried import parts_of_plan
from ..plans.guards import NO_GUARDS, guards_of
from ..plans.next_step import Amount, NextStep, NextWish, next_step
from ..plans.question import sets_of_maps
from ..running import tell
from ..values import SLOTS
from .arguments import MORE, Arguments, Commands, add_dump_options, add_guard, add_json, reading, set_work, source_of
from .part_words import PartWords, add_part_words, number_of_moves


@dataclass(frozen=True, **SLOTS)
class NextOptions:
    """The dumps of the cluster as it is now, or its report; the plan; where the data is, if it is told; how many places
    are under way at most, and in how many moves OSDs and hosts take part; and whether all is told as JSON, or without
    guards.
    """

    source: Source
    plan: str
    report: str | None
    pgs: str | None
    most: int | None
    parts: PartWords
    is_json: bool
    is_guarded: bool


def options_of(arguments: Arguments) -> NextOptions:
    """The options of the command line. An error of use where files are missing, or one would be passed over."""
    own = arguments
    own.words = [*with_both(own.words[:1]), *own.words[1:]] if own.report is None else own.words
    count = 1 if own.report is not None else 3
    if len(own.words) != count:
        raise Misuse("next takes the two dumps of a cluster and a plan; or --report and a plan")
    if own.report is None and own.pgs is None:
        raise Misuse("next wants --pgs, which tells where the data is; or --report")
    parts = PartWords(None, own.osd_most, own.host_most)
    forms = own.report, own.pgs, own.most, parts, own.json, not own.no_guard
    return NextOptions(source_of(own, own.words[:-1]), own.words[-1], *forms)


def cluster_of(options: NextOptions) -> Cluster:
    """The cluster of two dumps, or of a report. A fault where it stays out."""
    if options.report is None:
        return imported(options.source.dumps()).cluster
    if is_binary_map(options.report):
        return imported(replace(options.source, paths=(options.report, options.report)).dumps()).cluster
    report = json_of(options.report, "osdmap", "crushmap")
    with tempfile.TemporaryDirectory() as folder:
        paths = [pathlib.Path(folder, name) for name in ("osdmap", "crushmap")]
        for path in paths:
            path.write_text(json.dumps(report[path.name]), encoding="utf-8")
        try:
            return imported(replace(options.source, paths=tuple(map(str, paths))).dumps()).cluster
        except Fault as fault:
            raise Fault(*(line.replace(folder, options.report) for line in fault.lines)) from None


def states_of(options: NextOptions, cluster: Cluster) -> dict[str, GroupState]:
    """Where the data of each group is."""
    if options.pgs is not None:
        return states_in(options.pgs, cluster, options.source.pools is None)
    return states_by_temps(cluster, sets_of_maps(view_of_cluster(cluster).maps, options.source.program))


def progress_parts(own: Amount) -> dict[str, int | None]:
    """What is still to come of some groups as JSON."""
    return {"groups": own.groups, "places": own.places, "bytes": own.size}


def put_next_json(found: NextStep, cluster: Cluster) -> None:
    """Puts out what is done, under way and left, and the commands, as one object."""
    put_json(
        "next",
        cluster.epoch,
        status=found.status,
        commands=[line for line in found.text.splitlines() if line.startswith("ceph ")],
        part=found.part or None,
        done=found.done,
        under_way=progress_parts(found.under_way),
        left=progress_parts(found.left),
        moving=found.moving,
        left_out=[{"command": line, "why": why} for line, why in found.left_out],
        osds=[
            {"id": osd, "under_way": come, "left": left, "to_go": go} for osd, (come, left, go) in found.by_osd.items()
        ],
        **beside(cluster).parts(),
    )


def work(options: NextOptions) -> int:
    """Tells what of a plan may be done now, and ends with the status that says so."""
    parts, cluster = parts_of_plan(options.plan), cluster_of(options)
    guards = guards_of(cluster) if options.is_guarded else NO_GUARDS
    wish = NextWish(options.most, options.parts.size(cluster).busy, guards)
    found = next_step(cluster, parts, states_of(options, cluster), wish, options.source.program)
    tell("\n".join(next_lines(found) + beside_lines(cluster)))
    if options.is_json:
        put_next_json(found, cluster)
    else:
        print(found.text, end="")
    return found.status


def add_to(commands_of: Commands) -> None:
    """The subcommand."""
    own = commands_of.add_parser("next", help="the commands of a plan that may be given now", description=__doc__)
    own.usage = (
        f"%(prog)s OSD_DUMP CRUSH_DUMP SCRIPT|FOLDER|PLAN.json --pgs PGS {MORE}\n"
        f"       %(prog)s --report REPORT SCRIPT|FOLDER|PLAN.json [--pgs PGS] {MORE}"
    )
    own.add_argument(
        "words",
        metavar="OSD_DUMP CRUSH_DUMP SCRIPT|FOLDER|PLAN.json",
        nargs="+",
        help="what `ceph osd dump -f json` and `ceph osd crush dump` print now, and the plan: a script, a folder of "
        "scripts, or what a command has told by --json",
    )
    reading(own).add_argument("--report", metavar="REPORT", help="what `ceph report` prints, in place of the dumps")
    reading(own).add_argument("--pgs", metavar="PGS", help="what `ceph pg dump -f json` prints: where the data is")
    own.add_argument(
        "--most", metavar="N", type=number_of_moves, help="at most N places are under way in the whole cluster"
    )
    add_part_words(own)
    add_dump_options(own)
    add_guard(own)
    add_json(own)
    own.set_defaults(names=None)
    set_work(own, options_of, work)
