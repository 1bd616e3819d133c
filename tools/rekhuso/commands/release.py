"""`release`: lets go of what `hold` holds, as the commands that Ceph takes, in parts by the order of plans.

Over the dumps of a cluster with held groups the way leads to what the rules alone give; with --before OSD_DUMP to the
exceptions of a dump that was made before the hold, as far as a monitor lets them stay; and with --to-plan on to what
`plan` makes of that, where each group moves once. A group that would get fewer places, as its rule finds no more, stays
held, and is told. Each part tells what it moves, and how full the fullest OSD gets to
which places come. With --undo the same words give the way back, whichever part was run. The program judges the
commands as printed before anything is put out, as it does for `plan`.
"""

from __future__ import annotations

from dataclasses import dataclass

from ..cluster.cluster import Cluster
from ..cluster.data_files import DataFiles
from ..cluster.dump_forms import OSD_DUMP
from ..cluster.dump_types import OsdDump
from ..cluster.dumps import first_lines, read_dump
from ..cluster.entry_forms import exceptions_in
from ..cluster.imports import imported
from ..cluster.pool_data import Data
from ..cluster.releases import least_client
from ..cluster.reports import OSD_PART, dump_in_report
from ..cluster.sources import Source
from ..faults import Fault
from ..files import json_of
from ..output.byte_words import byte_lines
from ..output.json_output import put_json
from ..output.origins import Origin, origin_of
from ..output.plan_scripts import PlanScript, WATCH, balancer_words, client_words, part_file
from ..output.release_words import peak_words, release_lines
from ..plans.hold_checks import check_still, check_told, much_moving
from ..plans.movement import place_bytes
from ..plans.release import Goal, Release, release_of
from ..program.maps import Exceptions, altered, exceptions_where
from ..running import tell
from ..values import SLOTS
from .arguments import (
    ABOUT_DUMPS,
    DUMPS,
    MORE,
    Arguments,
    Commands,
    Dumps,
    add_dump_options,
    reading,
    rename,
    set_work,
    source_of,
)
from .data_words import add_data_words, data_files, data_of
from .filter_words import FilterWords, add_filter_words, filter_words
from .put_words import PutWords, add_put_words, check_bytes, file_or_folder, put_words

UNDO = "undo:   the same words with --undo, over the same files, which are to be kept"


@dataclass(frozen=True, **SLOTS)
class ReleaseOptions:
    """The dumps of the cluster as it is held; the OSD dump whose exceptions are kept, if there is one; whether the way
    leads to a plan; whether a cluster that moves is released too; how it is put out; which groups are let go; and the
    files that tell what pools hold.
    """

    source: Source
    keep: str | None
    is_planned: bool
    is_anyway: bool
    output: PutWords
    chosen: FilterWords
    data: DataFiles


def options_of(arguments: Arguments) -> ReleaseOptions:
    """The options of the command line. An error of use for options of which one would be passed over."""
    own = arguments
    return ReleaseOptions(
        source=source_of(own),
        keep=own.before,
        is_planned=own.to_plan,
        is_anyway=own.anyway,
        output=put_words(own, True, own.batch is not None, "--batch"),
        chosen=filter_words(own, own.leaves),
        data=data_files(own),
    )


def kept_in(path: str | None, cluster: Cluster) -> Exceptions:
    """The exceptions of an OSD dump, of pools that the cluster has; none where there is no path. A fault where it is no
    OSD dump, or that of another cluster.
    """
    if path is None:
        return exceptions_in({})
    value, _, faults = read_dump(path, dump_in_report(path, OSD_PART) or json_of(path), OSD_DUMP)
    if faults:
        raise Fault(*first_lines(faults))
    dump: OsdDump = altered(value)  # type: ignore[assignment]
    own, other = cluster.osd_dump.get("fsid"), dump.get("fsid")
    if own is not None and other is not None and own != other:
        raise Fault(f"{path}: of another cluster: its fsid is {other}, and that of the cluster {own}")
    return exceptions_where(exceptions_in(dump), cluster.is_group)


@dataclass(frozen=True, **SLOTS)
class Round:
    """What stands round the commands of all parts: the cluster, what its pools hold, and where the scripts come
    from.
    """

    cluster: Cluster
    data: Data | None
    origin: Origin


def script_of(found: Release, round_: Round, options: ReleaseOptions, number: int) -> PlanScript:
    """What stands round the commands of a part."""
    cluster, data = round_.cluster, round_.data
    count, names = len(found.parts), cluster.all_names()
    kind = "undo of a release" if options.output.is_undo else "release"
    origin = round_.origin.turned(kind, number, count)
    part = f", part {number} of {count}" if options.output.is_parted else ""
    weights = place_bytes(found.pools, data)
    before = balancer_words(None) + client_words(least_client(cluster.osd_dump)) + WATCH
    if options.output.is_undo:
        title = f"The way back from a release over epoch {found.epoch}{part}"
        return PlanScript(title, before, weights, names, origin)
    order = [f"order:  part {number - 1} is run before, and its groups have moved"] if number > 1 else []
    undo = UNDO + (f", write {part_file('undo', number, count)}" if part else "")
    notes = [f"peak:   {peak_words(found, number)}", *order, "stop:   give no further part", undo]
    title = f"Releases held groups over epoch {found.epoch}{part}"
    return PlanScript(title, before + notes, weights, names, origin)


def scripts_of(found: Release, round_: Round, options: ReleaseOptions) -> list[str]:
    """The parts, or the way back from them, a script each."""
    texts = []
    for number, part in enumerate(found.parts, 1):
        steps = [step.undone() for step in part] if options.output.is_undo else part
        texts.append(script_of(found, round_, options, number).text(steps))
    return texts


def check_printed(found: Release, scripts: list[str], options: ReleaseOptions) -> None:
    """Has the program judge what is to be put out. A fault where it is not what is told."""
    parts = ["\n".join(line for step in part for line in step.commands) for part in found.parts]
    undo = ["\n".join(line for step in part for line in step.undo) for part in found.parts]
    if options.output.is_json:
        found.printed.check_scripts(parts, found.lengths, undo)
    elif options.output.is_undo:
        found.printed.check_scripts(parts, found.lengths, scripts)
    else:
        found.printed.check_scripts(scripts, found.lengths, [])
        check_bytes(options.source, scripts, sum(found.lengths), found.printed.asked)


def put_release_json(found: Release, data: Data | None, origin: Origin) -> None:
    """Puts out the parts, their undoing and what they move as one object."""
    weights = place_bytes(found.pools, data)
    put_json(
        "release",
        found.epoch,
        moving=weights.moving(found.steps),
        stay=found.stay,
        left_alone=[own.parts() for own in found.alone.values()],
        fullest={"before": found.before, "after": found.after},
        data=None if found.fill is None else found.fill.parts(),
        parts=[
            {
                "commands": [line for step in part for line in step.commands],
                "undo": [line for step in part for line in step.undo],
                "moving": weights.moving(part),
                "peak": peak,
            }
            for part, peak in zip(found.parts, found.peaks)
        ],
        **origin.parts(),
    )


def fuller_words(found: Release) -> list[str]:
    """That the fullest OSD by bytes would be fuller than it is; nothing where it would not, or nobody tells."""
    if found.fill is None:
        return []
    before, after = round(found.fill.before.fullest(), 2), round(found.fill.after.fullest(), 2)
    told = (
        f"by bytes the fullest OSD has {before:.2f} of its share, and would have {after:.2f} by this plan, which goes "
    )
    return [f"{told}by groups: `plan` with the same files goes by bytes"] if after > before else []


def work(options: ReleaseOptions) -> None:
    """Tells the way from what is held."""
    source, program = options.source, options.source.program
    cluster = imported(source.dumps()).cluster
    check_still(much_moving(cluster, program), options.is_anyway, "released")
    data, chosen = data_of(options.data, cluster, source.pools is None), options.chosen.chosen(cluster)
    goal = Goal(kept_in(options.keep, cluster), options.is_planned, options.is_anyway, chosen, data)
    found = release_of(cluster, goal, options.output.parts.size(cluster), program)
    files = [*source.paths, source.tree, options.keep, options.data.df, options.data.pgs]
    origin = origin_of(program, files, cluster, options.output.is_guarded)
    scripts = scripts_of(found, Round(cluster, data, origin), options)
    check_printed(found, scripts, options)
    check_told(fuller_words(found) if options.is_planned else [], options.is_anyway, "released")
    weights = place_bytes(found.pools, data)
    lines = release_lines(found, weights) + byte_lines(found.fill, cluster.all_names()) + origin.beside.lines()
    tell("\n".join(lines))
    if options.output.is_json:
        put_release_json(found, data, origin)
    else:
        options.output.put("release", scripts)


def add_to(commands_of: Commands) -> None:
    """The subcommand."""
    own = commands_of.add_parser(
        "release", help="lets go of held groups, part by part; with --from undo upmaps", description=__doc__
    )
    own.usage = f"%(prog)s OSD_DUMP CRUSH_DUMP [--to-plan] [--from OSD|BUCKET,..] {MORE}"
    own.add_argument(
        "files", metavar=DUMPS, nargs="+", action=Dumps, help=f"{ABOUT_DUMPS}: those of the cluster as it is held"
    )
    about = "the dump before the hold, whose exceptions are kept"
    reading(own).add_argument("--before", metavar="OSD_DUMP", help=about)
    rename(own, {"--keep": "--before"})
    own.add_argument("--to-plan", action="store_true", help="on to what `plan` makes of the cluster, each group once")
    own.add_argument("--anyway", action="store_true", help="also where the cluster moves already, or amid an outage")
    add_put_words(own, "the way back to what is held in the dumps", file_or_folder("release"))
    own.add_argument(
        "--from",
        dest="leaves",
        metavar="OSD|BUCKET,..",
        help="only groups are let go that then leave one of these OSDs: it gives back what exceptions brought there",
    )
    add_filter_words(own, "let go")
    add_data_words(own)
    add_dump_options(own)
    own.set_defaults(names=None)
    set_work(own, options_of, work)
