"""`diff`: what differs between two maps, as a change where a change can say it, and what moves.

Each may also be the two dumps of a cluster that one map holds, which are then told by its own names.
"""

from __future__ import annotations

from dataclasses import dataclass

from ..cluster.cluster import Cluster
from ..cluster.conversion import monitor_of
from ..cluster.difference import change_of, moved_parts
from ..cluster.flows import flows
from ..cluster.imports import imported
from ..cluster.map_files import map_with_sets
from ..cluster.moving import erasure_pools, other_sets, with_split_groups
from ..cluster.names import Names, names_in, with_names
from ..cluster.pools_beside import PoolsBeside, beside
from ..cluster.primaries import named_primaries, other_primaries
from ..cluster.sources import Source
from ..faults import Refused
from ..output.flow_words import pair_lines
from ..output.json_output import put_json
from ..program.answers import Up
from ..program.maps import Change, Map, needs_stock, written
from ..program.questions import raw_answers
from ..values import SLOTS
from ..words import counted
from .arguments import MORE, Arguments, Commands, Files, add_json, add_names, set_work, source_of

DIFF_FILES = "OLD_MAP NEW_MAP | OLD_OSD_DUMP OLD_CRUSH_DUMP NEW_OSD_DUMP NEW_CRUSH_DUMP"


@dataclass(frozen=True, **SLOTS)
class DiffOptions:
    """What is before and after, and whether it is told as JSON."""

    old: Source
    new: Source
    is_json: bool


@dataclass(frozen=True, **SLOTS)
class Side:
    """A map with the up set of each of its groups, its names, and the primaries that dumps name for groups; and the
    cluster of these dumps, where there are any.
    """

    value: Map
    sets: dict[str, Up]
    names: Names
    primaries: dict[str, int]
    cluster: Cluster | None


def options_of(arguments: Arguments) -> DiffOptions:
    """The options of the command line."""
    files, half = arguments.files, len(arguments.files) // 2
    return DiffOptions(source_of(arguments, files[:half]), source_of(arguments, files[half:]), arguments.json)


def side_of(source: Source) -> Side:
    """A map, or that of two dumps. A fault where it is not lawful, or a cluster stays out or takes several maps."""
    if not source.has_dumps:
        source.check_map()
        return Side(*map_with_sets(source.paths[0], source.program), names_in(source.names), {}, None)
    found = imported(source.dumps(), True)
    value, names = found.maps[0], names_in(source.names) if source.names else found.cluster.all_names()
    with monitor_of(value, source.program) as monitor:
        sets, primaries = monitor.pool_ups(value["pools"]), named_primaries(found.cluster.osd_dump)
    return Side(value, sets, names, primaries, found.cluster)


def beside_between(old: Side, new: Side) -> PoolsBeside:
    """The pools that are left out, with what may move of them."""
    return PoolsBeside() if old.cluster is None or new.cluster is None else beside(old.cluster, [new.cluster])


def check_change(old: Map, new: Map, change: Change, source: Source) -> None:
    """`Refused` where the program does not take the change that was found."""
    is_stock = needs_stock(old) or needs_stock(new)
    answer = raw_answers(source.program, old, [f"change {written(change)}"], is_stock)[0]
    if not answer.startswith("ok "):
        raise Refused(answer.split(" ")[2], int(answer.split(" ")[1]))


def work(options: DiffOptions) -> None:
    """Tells the change between two maps and what it moves."""
    old, new = side_of(options.old), side_of(options.new)
    change, unsaid = change_of(old.value, new.value)
    if not unsaid:
        check_change(old.value, new.value, change, options.old)
    unsaid += other_primaries(old.primaries, new.primaries)
    names = {kind: {**old.names.get(kind, {}), **own} for kind, own in new.names.items()}
    erasure = erasure_pools(new.value["pools"])
    there = with_split_groups(old.sets, old.value["pools"], new.value["pools"])
    moved = other_sets(there, new.sets)
    unsaid, told = [with_names(line, names) for line in unsaid], moved_parts(moved, erasure)
    pairs = [[*pair, count] for pair, count in sorted(flows(moved, erasure).items(), key=lambda own: (-own[1], own[0]))]
    if options.is_json:
        epochs = old.value["epoch"], new.value["epoch"]
        told_beside = beside_between(old, new).parts()
        put_json(
            "diff", epochs[0], new_epoch=epochs[1], change=change, unsaid=unsaid, **told, flows=pairs, **told_beside
        )
        return
    lines = [f"change {written(change)}", *(f"no change says: {line}" for line in unsaid), *pair_lines(pairs, names)]
    moving = counted(told["groups"], "group"), counted(told["places"], "place"), counted(len(told["osds"]), "OSD")
    moves = f"{moving[0]}, {moving[1]} and {moving[2]} move"
    print("\n".join([*lines, moves, *beside_between(old, new).lines()]))


class Pair(Files):
    """Two files or four; an error of use where there are others."""

    counts, words = (2, 4), "two maps, or the two dumps of each"


def add_to(commands: Commands) -> None:
    """The subcommand."""
    own = commands.add_parser("diff", help="what differs between two maps", description=__doc__)
    own.usage = (
        f"%(prog)s OLD_MAP NEW_MAP {MORE}\n"
        f"       %(prog)s OLD_OSD_DUMP OLD_CRUSH_DUMP NEW_OSD_DUMP NEW_CRUSH_DUMP {MORE}"
    )
    own.add_argument(
        "files",
        metavar=DIFF_FILES,
        nargs="+",
        action=Pair,
        help="the map before and the one after, as `import` writes them (- is standard input); or the dumps of each",
    )
    add_names(own)
    add_json(own)
    set_work(own, options_of, work)
