"""`drain`: empties OSDs, or all OSDs below a bucket, as the commands that Ceph takes, in scripts from beginning to end.

The first script gives them next to no weight and holds every group where it is, so that nothing moves. The parts then
move what lies on them, and nothing else: each group once, straight to where it can stay, which is the emptiest OSD that
may have it, or with --even where `plan` has it. No part brings a place to an OSD that is drained. The last script takes
them out, which moves nothing any more.

Standard error tells beforehand what moves, how full OSDs get, and which groups cannot be held. Where a pool would be
short without these OSDs, the groups are told with the reason, and nothing is put out. With --undo the same words give
the way back, whichever script was run. The program judges each script as printed, as it does for `hold` and `release`.
"""

from __future__ import annotations

from dataclasses import dataclass, replace

from ..cluster.advice import HELD
from ..cluster.cluster import Cluster
from ..cluster.data_files import DataFiles
from ..cluster.imports import imported
from ..cluster.moving_advice import compat_words
from ..cluster.pools_beside import beside, check_leaving
from ..cluster.reports import with_both
from ..cluster.sources import Source
from ..cluster.view import ClusterView
from ..faults import Fault, Misuse
from ..output.drain_words import (
    FIRST,
    LAST,
    WORD,
    around,
    drain_lines,
    first_script,
    last_script,
    part_scripts,
    undo_script,
)
from ..output.json_output import put_json
from ..output.origins import Origin, origin_of
from ..output.plan_scripts import part_file, put_scripts
from ..plans.drain import Drain, DrainWish, drain_of
from ..plans.drain_checks import check_once
from ..plans.drain_stages import Stage, after_all, ending
from ..plans.guards import pools_asked
from ..plans.heads import NOT_TOLD, sum_of_crush
from ..plans.hold_checks import check_still, moving_words
from ..plans.movement import PlaceBytes, place_bytes
from ..program.maps import Program
from ..running import tell
from ..values import SLOTS
from .arguments import MORE, Arguments, Commands, add_dump_options, add_leaving, leaving_of, set_work, source_of
from .data_words import add_data_words, data_files, data_of
from .put_words import PutWords, add_put_words, put_words
from .whatif_words import IN_FORCE, osds_named


@dataclass(frozen=True, **SLOTS)
class DrainOptions:
    """The dumps of the cluster; the words that name what is drained; whether places keep their device class; whether
    groups go to where a plan has them; whether a cluster that moves is drained too; how it is put out; the files that
    tell what pools hold; and which pools are left out although they may move.
    """

    source: Source
    words: tuple[str, ...]
    is_kept: bool
    is_even: bool
    is_anyway: bool
    output: PutWords
    data: DataFiles
    leaving: tuple[str, ...]


def options_of(arguments: Arguments) -> DrainOptions:
    """The options of the command line. An error of use for options of which one would be passed over."""
    own = arguments
    own.words = [*with_both(own.words[:1]), *own.words[1:]]
    if len(own.words) < 3:
        raise Misuse("drain takes the two dumps of a cluster, and the OSDs or buckets behind them")
    output = put_words(own, True, own.to is not None or own.json or own.undo, "--to", True)
    words = tuple(part for word in own.words[2:] for part in word.split(","))
    twice = next((word for at, word in enumerate(words) if word in words[:at]), None)
    if twice is not None:
        raise Misuse(f"{twice} is named twice")
    return DrainOptions(
        source=source_of(own, own.words[:2]),
        words=words,
        is_kept=own.keep_class,
        is_even=own.even,
        is_anyway=own.anyway,
        output=output,
        data=data_files(own),
        leaving=leaving_of(own),
    )


def osds_of(view: ClusterView, words: tuple[str, ...]) -> list[int]:
    """The OSDs that words name, each once. A fault where there are none, or one is named twice."""
    tree = view.named_tree()
    found = [osds_named(tree, view.names, word) for word in words]
    check_once(words, found)
    return sorted(osd for own in found for osd in own)


@dataclass(frozen=True, **SLOTS)
class Drained:
    """How OSDs are drained, the cluster, what the places of its groups hold, and where the scripts come from."""

    found: Drain
    cluster: Cluster
    weights: PlaceBytes
    origin: Origin


def drained(options: DrainOptions) -> Drained:
    """How the OSDs are drained. A fault where they cannot be."""
    found, program = imported(options.source.dumps()), options.source.program
    cluster = found.cluster
    if cluster.has_weight_set:
        moves = compat_words(cluster, program)
        raise Fault(
            f"{IN_FORCE}: `ceph osd crush weight-set rm-compat` first, which moves data{moves}; {HELD}",
            "nothing is drained",
        )
    check_still(moving_words(cluster, program), options.is_anyway, "drained")
    view = ClusterView(found.maps, cluster.all_names(), found)
    osds = osds_of(view, options.words)
    found_beside = beside(cluster, [after_all(cluster, ending(cluster, osds)[0])])
    check_leaving(found_beside, options.leaving, "drained")
    source = options.source
    data = data_of(options.data, cluster, source.pools is None)
    wish = DrainWish(osds, options.is_kept, options.is_even, options.output.parts.size(cluster), data)
    files = [*source.paths, source.tree, options.data.df, options.data.pgs]
    drain = drain_of(cluster, wish, program)
    origin = origin_of(program, files, cluster, options.output.is_guarded).leaving(found_beside)
    return Drained(drain, cluster, place_bytes(drain.pools, data), origin)


def files_of(own: Drained, program: Program) -> dict[str, str]:
    """The scripts by the names of their files, once the program has judged each as printed."""
    found, names, guards = own.found, own.cluster.all_names(), own.origin.guards
    whole = replace(own.origin, guards=guards.asking(pools_asked(own.cluster), True))
    first, last = first_script(found, whole), last_script(found, own.origin)
    parts = part_scripts(found, names, own.weights, own.origin)
    found.check_stage(found.begin, first, around, program)
    found.check_parts(parts)
    found.check_stage(found.end, last, around, program)
    numbered = {part_file(WORD, number, len(parts)): text for number, text in enumerate(parts, 1)}
    return {FIRST: first, **numbered, LAST: last}


def stage_parts(own: Stage) -> dict[str, object]:
    """A change with what holds the groups behind it, and its CRUSH map, as JSON."""
    crush = sum_of_crush(own.cluster)
    told = {"change": own.change, "commands": own.hold.commands, "left": own.hold.told()["left"]}
    return {**told, "crush_map": None if crush == NOT_TOLD else crush}


def put_drain_json(own: Drained) -> None:
    """Puts out the scripts' commands, what they move and the way back as one object."""
    found, weights = own.found, own.weights
    put_json(
        "drain",
        found.epoch,
        osds=found.osds,
        places=found.places,
        moving=weights.moving(found.steps),
        fullest={"before": found.before.fill(), "after": found.after.fill()},
        data=None if found.fill is None else found.fill.parts(),
        begin=stage_parts(found.begin),
        parts=[
            {
                "commands": [line for step in part for line in step.commands],
                "moving": weights.moving(part),
                "peak": peak,
            }
            for part, peak in zip(found.parts, found.peaks)
        ],
        end=stage_parts(found.end),
        waiting=[
            {"group": group, "code": why.code, "step": why.step, "why": why.why} for group, why in found.waiting.items()
        ],
        undo={"change": found.undo.change, "commands": found.undo.commands},
        **own.origin.parts(),
    )


def work(options: DrainOptions) -> None:
    """Tells how OSDs are drained."""
    own = drained(options)
    files, back = files_of(own, options.source.program), undo_script(own.found, own.origin.later(None))
    own.found.undo.check(back, around)
    lines = drain_lines(own.found, own.cluster.all_names(), own.weights) + own.origin.beside.lines()
    tell("\n".join(lines))
    if options.output.is_json:
        put_drain_json(own)
        return
    word, files = ("undo", {part_file("undo", 1, 1): back}) if options.output.is_undo else (WORD, files)
    if options.output.to is None:
        print("".join(files.values()), end="")
    else:
        put_scripts(options.output.to, word, files)


def add_to(commands_of: Commands) -> None:
    """The subcommand."""
    own = commands_of.add_parser("drain", help="drains OSDs or hosts, part by part", description=__doc__)
    own.usage = f"%(prog)s OSD_DUMP CRUSH_DUMP OSD|BUCKET.. [--to FOLDER [--batch N]] {MORE}"
    own.add_argument(
        "words",
        metavar="OSD_DUMP CRUSH_DUMP OSD|BUCKET",
        nargs="+",
        help="what `ceph osd dump -f json` and `ceph osd crush dump` print, and what is drained: OSDs, or buckets for "
        "all OSDs below them",
    )
    own.add_argument("--even", action="store_true", help="to where `plan` of the cluster without them has the groups")
    own.add_argument("--keep-class", action="store_true", help="each place stays on OSDs of its device class")
    own.add_argument("--anyway", action="store_true", help="also where the cluster moves already, or amid an outage")
    to = "the folder of the scripts: drain-000.sh, drain-001.sh, .. and drain-end.sh"
    add_put_words(own, "the way back to the dumps, whichever script was run", to, True)
    add_data_words(own)
    add_dump_options(own)
    add_leaving(own)
    own.set_defaults(names=None)
    set_work(own, options_of, work)
