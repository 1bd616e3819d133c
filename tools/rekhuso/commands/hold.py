"""`hold`: exceptions that keep the data of every group where it is behind a change, as the commands that Ceph takes.

The change is told in one of three forms: by the words of `whatif` behind two dumps of today; by the dumps before and
behind it; or by `--pgs` and the dumps behind it, where `ceph pg dump -f json` tells where the data is. Standard error
tells how many groups the change would move, how many of them are held, and each that cannot be, by its reason. The
program judges the commands as printed before anything is put out: each is accepted, each exception stays, and each
group has the set that is told.

The commands stand in a script that turns Ceph's balancer off and keeps data where it is until the last of them is
given. The change comes first, as pairs before it are taken away or move data: where it is still to come the script is
given its command. With --undo the same words give the commands that bring the exceptions of today back.
"""

from __future__ import annotations

from dataclasses import astuple, dataclass, replace

from ..cluster.group_dumps import group_data_in
from ..cluster.aftermath import Command
from ..cluster.cluster import Cluster
from ..cluster.imports import ImportedCluster, imported
from ..cluster.pools_beside import beside, check_leaving
from ..cluster.sources import Source
from ..cluster.unrest import growth_words
from ..cluster.told_view import in_placed_order
from ..cluster.view import ClusterView, as_in_ceph
from ..faults import Fault, Misuse, Wait
from ..output.hold_heads import HoldChange, head_of
from ..output.hold_words import ROUND, hold_lines, hold_script, idle_lines
from ..output.json_output import put_json
from ..output.origins import Origin, origin_of
from ..output.prepare_words import BEFORE_WORD, prepare_lines, prepare_scripts
from ..plans.drain_stages import after_all
from ..plans.hold import Hold, Sides, counts_in, hold_of, mapped_sets, sides_of_change
from ..plans.hold_checks import check_counts, check_sides, check_still, check_told, check_torn, much_moving, told_words
from ..plans.prepare import prepare_of
from ..plans.question import sets_of_maps
from ..running import tell
from ..values import SLOTS
from .arguments import (
    MORE,
    Arguments,
    Commands,
    add_dump_options,
    add_leaving,
    leaving_of,
    reading,
    rename,
    set_work,
    source_of,
)
from .change_words import ChangeWords, add_change_words, change_words, files_and_change
from .filter_words import FilterWords, add_filter_words, filter_words
from .hold_instead import Tried, instead_of
from .put_words import PutWords, add_put_words, check_bytes, file_or_folder, put_words

FORMS = "OSD_DUMP CRUSH_DUMP [CHANGE] | OLD_OSD_DUMP OLD_CRUSH_DUMP NEW_OSD_DUMP NEW_CRUSH_DUMP"


@dataclass(frozen=True, **SLOTS)
class HoldOptions:
    """The dumps before the change, and those behind it where they are given; the words of the change; the file that
    tells where the data is, if there is one; whether a cluster that moves is held too; how it is put out; which groups
    are held; whether it is told what goes before the change; and which pools are left out although they may move.
    """

    old: Source
    new: Source | None
    asked: ChangeWords
    at: str | None
    is_anyway: bool
    output: PutWords
    chosen: FilterWords
    is_before: bool
    leaving: tuple[str, ...]

    @property
    def is_made(self) -> bool:
        """Whether the change is made already."""
        return self.new is not None or self.at is not None

    @property
    def change(self) -> HoldChange:
        """How the change is made."""
        given = self.asked.given()
        is_by_crush = self.new is not None or set(given) <= {"--crush", "--weight"}
        return HoldChange(self.is_made, is_by_crush, given == ["--crush"])

    def files(self) -> list[str | None]:
        """All files that a hold goes by."""
        crush = [word.values[0] for word in self.asked.words if word.kind == "crush"]
        new = [] if self.new is None else list(self.new.paths)
        return [*self.old.paths, *new, *crush, self.at, self.old.tree]


def options_of(arguments: Arguments) -> HoldOptions:
    """The options of the command line. An error of use for options of which one would be passed over."""
    own = arguments
    files, change = files_and_change(own.words)
    asked = change_words(own, change)
    output = put_words(own, False, own.prepare and own.batch is not None, "--prepare and --batch")
    if len(files) not in (2, 4):
        raise Misuse("hold takes the two dumps of today and a change, or those before and behind it")
    if len(files) == 4 or own.pgs is not None:
        given = asked.given() + (["--pgs"] if own.pgs is not None and len(files) == 4 else [])
        if given:
            raise Misuse(f"{given[0]} does not go with {'four dumps' if len(files) == 4 else '--pgs'}")
    elif not asked.given():
        raise Misuse("nothing is changed: give CHANGE, an option as --crush, the dumps behind it, or --pgs")
    found = HoldOptions(
        old=source_of(own, files[:2]),
        new=source_of(own, files[2:]) if len(files) == 4 else None,
        asked=asked,
        at=own.pgs,
        is_anyway=own.anyway,
        output=output,
        chosen=filter_words(own),
        is_before=own.prepare,
        leaving=leaving_of(own),
    )
    check_before(found)
    return found


def check_before(options: HoldOptions) -> None:
    """An error of use where what goes before a change is asked for, and the change is made, or one would be passed
    over.
    """
    chosen = [own for own in astuple(options.chosen) if own is not None]
    if options.is_before and (options.is_made or options.output.is_json or chosen):
        raise Misuse("--prepare goes before a change that is still to come, for all groups, and is put out as scripts")
    if options.is_before and options.output.to is not None and not options.output.is_parted:
        raise Misuse("--prepare --to goes with --batch: files of so many commands, and their folder")


def cluster_in(source: Source) -> ImportedCluster:
    """The cluster of two dumps. A fault where it stays out."""
    return imported(source.dumps())


def change_by_words(options: HoldOptions) -> tuple[Cluster, list[Command]]:
    """A cluster, and the commands of a change that is still to come."""
    found, program = cluster_in(options.old), options.old.program
    check_still(much_moving(found.cluster, program) + growth_words(found.cluster), options.is_anyway, "held")
    view = ClusterView(found.maps, found.cluster.all_names(), found)
    steps = options.asked.commands(view, found.cluster, program)
    check_counts(found.cluster, steps)
    return found.cluster, steps


def sides_at(options: HoldOptions, path: str) -> tuple[Sides, frozenset[str]]:
    """Both sides of a change by where the data is behind it, and the groups that stay as they are."""
    found, program = cluster_in(options.old), options.old.program
    new, is_whole = found.cluster, options.old.pools is None
    data = group_data_in(path, new, is_whole)
    view = ClusterView(found.maps, new.all_names(), found)
    ups = sets_of_maps(view.maps, program)
    unlike = told_words(view, as_in_ceph(view, ups, program), path, is_whole)
    torn = check_torn(data.torn, len(data.sets), path, options.is_anyway)
    grows = growth_words(new)
    check_told(grows + unlike, options.is_anyway, "held", Fault if unlike else Wait)
    return Sides(in_placed_order(view, data.sets, ups), data.counts, new, frozenset(), None), torn


def sides_of(options: HoldOptions) -> tuple[Sides, frozenset[str]]:
    """What stands before and behind the change, and the groups that stay as they are."""
    if options.at is not None:
        return sides_at(options, options.at)
    if options.new is None:
        return sides_of_change(*change_by_words(options), options.old.program), frozenset()
    old, new, program = cluster_in(options.old).cluster, cluster_in(options.new).cluster, options.old.program
    check_sides(old, new)
    check_still(much_moving(old, program) + growth_words(new), options.is_anyway, "held")
    return Sides(mapped_sets(old, program), counts_in(old), new, frozenset(), old), frozenset()


def scripts_of(sides: Sides, hold: Hold, options: HoldOptions, origin: Origin) -> list[str]:
    """The commands, or those that take them back, as one script or in parts; none where there are no commands."""
    output = options.output
    lines = hold.undo if output.is_undo else hold.commands
    head = head_of(sides, hold, output.is_undo, options.change, origin)
    size = output.parts.batch or max(len(lines), 1)
    parts = [lines[at : at + size] for at in range(0, len(lines), size)]
    if not output.is_parted and output.to is not None:
        # A file of no commands says that nothing is to be held, where an empty one says nothing.
        parts = parts or [[]]
    return [hold_script(hold, head, options.is_made, at + 1, parts) for at in range(len(parts))]


def check_printed(hold: Hold, scripts: list[str], options: HoldOptions) -> None:
    """Has the program judge what is to be put out. A fault where it is not what is told."""
    commands, undo, printed = "\n".join(hold.commands), "\n".join(hold.undo), hold.printed(options.old.program)
    if options.output.is_json:
        printed.check_scripts([commands], [], [undo])
    elif options.output.is_undo:
        printed.check_scripts([commands], [], scripts, ROUND)
    else:
        printed.check_scripts(scripts, [], [], ROUND)
        if options.new is not None:
            check_bytes(options.new, scripts, sum("pg-upmap" in line for line in hold.commands), printed.asked)


def work_before(options: HoldOptions) -> None:
    """Tells what goes before the change, so that a hold then covers it."""
    cluster, steps = change_by_words(options)
    output, found_beside = options.output, beside(cluster, [after_all(cluster, steps)])
    check_leaving(found_beside, options.leaving, "moved or held")
    found = prepare_of(cluster, steps, output.parts.size(cluster), options.old.program)
    origin = origin_of(options.old.program, options.files(), cluster, output.is_guarded).leaving(found_beside)
    scripts = prepare_scripts(found, cluster.all_names(), output.is_undo, origin)
    commands = ["\n".join(line for step in part for line in step.commands) for part in found.parts]
    found.printed.check_scripts(
        *((commands, found.lengths, scripts) if output.is_undo else (scripts, found.lengths, []))
    )
    tell("\n".join(prepare_lines(found) + found_beside.lines()))
    output.put(BEFORE_WORD, scripts)


def tried_instead(options: HoldOptions) -> list[str]:
    """What can be held in place of a change that is still to come, where something is found."""
    if options.is_made:
        return []
    found, program = cluster_in(options.old), options.old.program
    view = ClusterView(found.maps, found.cluster.all_names(), found)
    steps = options.asked.commands(view, found.cluster, program)
    return instead_of(Tried(found.cluster, options.asked, steps, program))


def work(options: HoldOptions) -> None:
    """Tells the exceptions that hold groups, and which are not held."""
    if options.is_before:
        work_before(options)
        return
    sides, torn = sides_of(options)
    found_beside = sides.beside()
    check_leaving(found_beside, options.leaving, "held")
    hold = hold_of(sides, options.old.program, replace(options.chosen.chosen(sides.new), passed=torn))
    if hold.is_idle and not options.output.is_undo:
        raise Fault(*idle_lines(hold, [] if hold.is_beside else tried_instead(options)))
    origin = origin_of(options.old.program, options.files(), sides.new, options.output.is_guarded).leaving(found_beside)
    scripts = scripts_of(sides, hold, options, origin)
    check_printed(hold, scripts, options)
    tell("\n".join(hold_lines(hold) + found_beside.lines()))
    if options.output.is_json:
        put_json("hold", hold.epoch, **hold.told(), commands=hold.commands, undo=hold.undo, **origin.parts())
    else:
        options.output.put("hold", scripts)


def add_to(commands_of: Commands) -> None:
    """The subcommand."""
    own = commands_of.add_parser(
        "hold", help="exceptions that hold groups behind a change; with --pgs cancel backfill", description=__doc__
    )
    own.usage = (
        f"%(prog)s OSD_DUMP CRUSH_DUMP [CHANGE] [--crush FILE] {MORE}\n"
        f"       %(prog)s OLD_OSD_DUMP OLD_CRUSH_DUMP OSD_DUMP CRUSH_DUMP {MORE}\n"
        f"       %(prog)s OSD_DUMP CRUSH_DUMP --pgs PGS {MORE}"
    )
    own.add_argument(
        "words",
        metavar=FORMS,
        nargs="+",
        help="what `ceph osd dump -f json` and `ceph osd crush dump` print today, and a change as `whatif` takes it; "
        "or both before the change and behind it",
    )
    add_change_words(own)
    about = "what `ceph pg dump -f json` prints: hold the data where it is by it"
    reading(own).add_argument("--pgs", metavar="PGS", help=about)
    rename(own, {"--at": "--pgs"})
    own.add_argument("--anyway", action="store_true", help="also where the cluster moves already, or is degraded")
    add_put_words(own, "the commands that bring the exceptions of the dump back", file_or_folder("hold"))
    own.add_argument(
        "--prepare",
        action="store_true",
        help="what goes before the change: parts that bring the groups which a hold would leave to sets that both the "
        "rules of today and those behind the change allow",
    )
    add_filter_words(own, "held")
    add_dump_options(own)
    add_leaving(own)
    own.set_defaults(names=None)
    set_work(own, options_of, work)
