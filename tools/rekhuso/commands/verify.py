"""`verify`: whether the groups of a cluster lie where its dumps say, by what the cluster itself tells of them.

For each group of the pools that come in, the set that the program gives over the imported maps, with named primaries
and affinities applied, is held against `up` and `up_primary` of `ceph pg dump`. So it tries what reads dumps and makes
maps of them, on your release and your cluster. A group is not told yet where its state says that nobody knows its set,
or where its set is another and was told at an earlier epoch than that of the OSD dump. Of the first groups that lie
elsewhere their story is told, and at which step the ways part; --case writes one group as a file that can be sent to
the project, without names.

Status 0: all groups that are told lie there. Status 1: some lie elsewhere. Status 3: fewer than 90 % are told.
"""

from __future__ import annotations

import json
from dataclasses import dataclass, replace

from ..cluster.cases import case_of
from ..cluster.cluster import Cluster
from ..cluster.dumps import chosen_cluster
from ..cluster.imports import free_pools
from ..cluster.parting import parting
from ..cluster.sources import Source
from ..cluster.told_sets import Verified
from ..cluster.told_view import verified_view
from ..cluster.view import ClusterView, view_with_sets
from ..faults import Fault, Untold
from ..files import JsonObject, put
from ..output.json_output import put_json
from ..output.verify_words import told_lines, verify_lines
from ..program.answers import Up
from ..program.maps import Program
from ..values import SLOTS
from .arguments import (
    ABOUT_DUMPS,
    DUMPS,
    MORE,
    Arguments,
    Commands,
    Dumps,
    add_json,
    add_names,
    putting,
    reading,
    set_work,
    source_of,
)
from .explain import GroupStory

# Of how many groups that lie elsewhere the story is told.
FIRST = 5


@dataclass(frozen=True, **SLOTS)
class VerifyOptions:
    """The dumps; the file that tells where groups lie; the file for a case, if there is one; and whether it is told as
    JSON.
    """

    source: Source
    pgs: str
    case: str | None
    is_json: bool


@dataclass(frozen=True, **SLOTS)
class GroupTold:
    """What is told of a group that lies elsewhere: its story, a line each, and at which step the ways part."""

    group: str
    story: list[str]
    parts_at: str


def options_of(arguments: Arguments) -> VerifyOptions:
    """The options of the command line."""
    return VerifyOptions(source_of(arguments), arguments.pgs, arguments.case, arguments.json)


def view_of_some(source: Source) -> tuple[ClusterView, dict[str, Up], list[str]]:
    """The pools of a cluster that come in with the sets of their groups, and the names of those that stay out. A fault
    where none comes in.
    """
    try:
        return (*view_with_sets(source), [])
    except Fault as fault:
        cluster, faults = chosen_cluster(source.dumps())
        free = free_pools(cluster, faults, source.is_unmatched)
        if not free:
            raise fault from None
    view, sets = view_with_sets(replace(source, pools=free))
    there = {pool["id"] for pool in view.pools}
    return view, sets, [pool["pool_name"] for pool in cluster.pools if pool["pool"] not in there]


def group_told(view: ClusterView, found: Verified, group: str, program: Program) -> GroupTold:
    """What is told of a group that lies elsewhere."""
    story = GroupStory(view, group, program)
    return GroupTold(group, story.lines(view.names), parting(story.stages(view.names), found.told[group]))


def told_parts(found: Verified, group: str, own: GroupTold | None) -> JsonObject:
    """The same as JSON has it."""
    here, there = found.ups[group], found.told[group]
    return {
        "group": group,
        "up": here.places,
        "up_primary": here.primary,
        "told": there.places,
        "told_primary": there.primary,
        "state": there.state,
        "reported_epoch": there.epoch,
        "story": None if own is None else own.story,
        "parts_at": None if own is None else own.parts_at,
    }


def put_case(path: str, cluster: Cluster, found: Verified) -> None:
    """Writes a group as a case: the first that lies elsewhere, else the first that is told. A fault where none is."""
    told = found.differ or [group for group in found.ups if group not in set(found.untold)]
    if not told:
        raise Untold("no group is told: there is none for --case")
    put(path, json.dumps(case_of(cluster, told[0], found.told[told[0]]), indent=1) + "\n")


def check_verified(found: Verified) -> None:
    """A fault where groups lie elsewhere, or too few are told."""
    if found.differ:
        raise Fault(f"{len(found.differ):,} of {len(found.ups):,} groups lie elsewhere than the cluster says")
    if not found.is_enough:
        raise Untold(f"fewer than 90 % are told: {len(found.untold):,} of {len(found.ups):,} groups are not told yet")


def work(options: VerifyOptions) -> None:
    """Tells how many groups lie where the cluster says, and what is said of the first that do not."""
    source, program = options.source, options.source.program
    view, sets, beside = view_of_some(source)
    found = verified_view(view, sets, options.pgs, source.pools is None and not beside)
    if found is None or view.found is None:
        raise Untold(f"{options.pgs}: it tells the up set of no group of these pools")
    told = {group: group_told(view, found, group, program) for group in found.differ[:FIRST]}
    if options.case is not None:
        put_case(options.case, view.found.cluster, found)
    if options.is_json:
        differ = [told_parts(found, group, told.get(group)) for group in found.differ]
        parts = {"groups": len(found.ups), "same": found.same, "differ": differ, "untold": found.untold}
        put_json("verify", view.tree["epoch"], **parts, pools_beside=beside, **view.beside().parts())
    else:
        stories = [told_lines(found, own.group, own.story, own.parts_at) for own in told.values()]
        print("\n".join(verify_lines(found, stories, beside)))
    check_verified(found)


def add_to(commands: Commands) -> None:
    """The subcommand."""
    own = commands.add_parser("verify", help="whether a cluster lies where maps say", description=__doc__)
    own.usage = f"%(prog)s OSD_DUMP CRUSH_DUMP --pgs PGS [--case FILE] {MORE}"
    own.add_argument("files", metavar=DUMPS, nargs="+", action=Dumps, help=ABOUT_DUMPS)
    about = "what `ceph pg dump -f json` prints, dumped last"
    reading(own).add_argument("--pgs", metavar="PGS", required=True, help=about)
    putting(own).add_argument("--case", metavar="FILE", help="write one group as a case: the first that lies elsewhere")
    add_names(own)
    add_json(own)
    set_work(own, options_of, work)
