"""`import`: a map of what `ceph osd dump` and `ceph osd crush dump` print, or several.

Kept are the rules that pools use and the buckets below what they take. What no map holds is told whole, a line each, in
the cluster's own names; what is left out without harm is told too. A map holds an OSD once: where pools take the same
OSD from two trees, such as a pool on `default` beside pools on classes of devices, each set of pools whose trees share
none is a map of its own.
"""

from __future__ import annotations

import json
from dataclasses import dataclass

from ..cluster.advice import Advised
from ..cluster.cluster import Cluster
from ..cluster.conversion import map_of, monitor_of
from ..cluster.dumps import chosen_cluster, first_reasons
from ..cluster.imports import ImportedCluster, imported, map_file, names_of_pools, several_words, with_advice
from ..cluster.map_parts import map_clusters
from ..cluster.names import with_pool_names
from ..cluster.omissions import omissions_of, weightless
from ..cluster.pools_beside import beside, beside_lines
from ..cluster.reasons import reasons
from ..cluster.sources import DumpFiles
from ..cluster.told_sets import Verified
from ..cluster.told_view import verified_view
from ..cluster.unrest import told_unrest, unrest_lines
from ..cluster.view import ClusterView, sets_in
from ..faults import Fault, Misuse
from ..files import JsonObject, put, put_folder
from ..output.json_output import put_json
from ..plans.hold_checks import check_told
from ..program.maps import Program, written
from ..running import tell
from ..values import SLOTS
from ..words import counted
from .arguments import (
    ABOUT_DUMPS,
    DUMPS,
    MORE,
    Arguments,
    Commands,
    Dumps,
    add_dump_options,
    add_json,
    putting,
    reading,
    rename,
    set_work,
)
from .put_words import check_place


@dataclass(frozen=True, **SLOTS)
class ImportOptions:
    """The dumps; the program; the folder for maps and the file for names, where there are these; whether it is only
    told if the cluster comes in; whether all is told as JSON; and the file that tells where groups lie, if there is
    one, and whether the cluster comes in nonetheless where they lie elsewhere.
    """

    dumps: DumpFiles
    program: Program
    out: str | None
    names: str | None
    is_check: bool
    is_json: bool
    pgs: str | None
    is_anyway: bool


def options_of(arguments: Arguments) -> ImportOptions:
    """The options of the command line. An error of use for options that write files beside those that do not."""
    own = arguments
    if own.check and (own.to is not None or own.names is not None):
        raise Misuse("--check writes no files: --to and --names do not go with it")
    if own.json and own.to is not None:
        raise Misuse("--json tells all maps at once: --to does not go with it")
    if (own.pgs is not None or own.anyway) and not own.check:
        raise Misuse("--pgs and --anyway go with --check")
    if own.to is not None:
        check_place(own.to, True)
    dumps = DumpFiles(own.files[0], own.files[1], own.tree, own.pools, own.unmatched, own.program)
    return ImportOptions(
        dumps=dumps,
        program=own.program,
        out=own.to,
        names=own.names,
        is_check=own.check,
        is_json=own.json,
        pgs=own.pgs,
        is_anyway=own.anyway,
    )


def reasons_against(options: ImportOptions) -> tuple[Cluster, list[Advised]]:
    """The cluster, and each reason that keeps it out, with what is done about it, pools by their names too."""
    cluster, faults = chosen_cluster(options.dumps)
    names = names_of_pools(cluster)
    found = first_reasons(faults) + reasons(cluster, options.dumps.is_unmatched, False)
    told = with_advice(cluster, faults, found, options.dumps)
    return cluster, [
        Advised(own.code, with_pool_names(own.why, names), with_pool_names(own.done, names)) for own in told
    ]


def verified_in(cluster: Cluster, parts: list[Cluster], options: ImportOptions) -> Verified | None:
    """Has the program see the maps of a cluster, and tells whether the sets by them are the cluster's; None where no
    file tells that.
    """
    maps = [map_of(part) for part in parts]
    if options.pgs is None or not maps:
        for value in maps:
            monitor_of(value, options.program).close()
        return None
    view = ClusterView(maps, cluster.all_names(), ImportedCluster(cluster, parts, maps))
    return verified_view(view, sets_in(view, options.program), options.pgs, options.dumps.pools is None)


def check(options: ImportOptions) -> None:
    """Tells whether a cluster comes in. A fault where it does not: each reason, and what is done about it; and where
    its groups lie elsewhere than its maps say.
    """
    cluster, found = reasons_against(options)
    parts = [] if found else map_clusters(cluster)
    lies, lines = verified_in(cluster, parts, options), [own.line() for own in found]
    if options.is_json:
        pools = [[pool["pool"] for pool in part.pools] for part in parts]
        told = {"comes_in": not found, "reasons": lines, "maps": [{"pools": own} for own in pools]}
        told.update(against=[own.parts() for own in found])
        told.update(unrest=told_unrest(cluster), verified=None if lies is None else lies.counts())
        told.update(beside(cluster).parts())
        put_json("import", cluster.epoch, **told)
    if found:
        raise Fault(*lines, f"the cluster stays out, for {counted(len(found), 'reason')}")
    if not options.is_json:
        comes = "the cluster comes in" + (f"; {several_words(parts)}" if len(parts) > 1 else " as one map")
        lines = [*unrest_lines(cluster), *([] if lies is None else [lies.summary()]), *beside_lines(cluster)]
        print("\n".join([comes, *lines]))
    check_told([] if lies is None else lies.against(), options.is_anyway, "taken for the cluster's")


def omission_lines(cluster: Cluster, has_names: bool) -> list[str]:
    """What is left out of the maps, and what stands otherwise in them."""
    found = [f"left out: {line}" for line in omissions_of(cluster, has_names)]
    if cluster.has_weight_set:
        found.append(
            "taken for placement: the compat weight set (choose_args); df goes by the weights themselves over the "
            "dumps, or with "
            "--names, and a plan of the map would undo what the set was tuned for"
        )
    return found


def names_file(cluster: Cluster) -> JsonObject:
    """What goes into the file of names: the names of what maps have; where the maps do not have all that weighs, or
    weigh otherwise, those of all buckets and the cluster's tree too, which `df` then shows.
    """
    has_other = cluster.has_weight_set or bool(weightless(cluster))
    return {**cluster.all_names(), "tree": cluster.shown()} if has_other else dict(cluster.names())


def put_maps(folder: str, maps: ImportedCluster) -> None:
    """Writes each map into a file of a folder, which is made where there is none, and tells the files. A fault where
    it cannot.
    """
    files = {map_file(part): written(value) + "\n" for part, value in zip(maps.parts, maps.maps)}
    for path in put_folder(folder, files):
        print(path)


def put_import_json(found: ImportedCluster) -> None:
    """Puts out all maps, each with its pools, the names and what is left out, as one object."""
    maps = [
        {"pools": [pool["pool"] for pool in part.pools], "map": value} for part, value in zip(found.parts, found.maps)
    ]
    notes = omission_lines(found.cluster, True)
    parts = {"maps": maps, "names": names_file(found.cluster), "notes": notes}
    put_json("import", found.cluster.epoch, **parts, **beside(found.cluster).parts())


def work(options: ImportOptions) -> None:
    """Writes the map on standard output, or all maps into a folder, the names into their file, and what is left out
    on standard error.
    """
    if options.is_check:
        check(options)
        return
    found = imported(options.dumps, options.out is None and not options.is_json)
    for value in found.maps:
        monitor_of(value, options.program).close()
    if options.names:
        put(options.names, json.dumps(names_file(found.cluster), indent=1) + "\n")
    if options.is_json:
        put_import_json(found)
        return
    for line in omission_lines(found.cluster, bool(options.names)) + beside_lines(found.cluster):
        tell(line)
    if options.out is None:
        print(written(found.maps[0]))
    else:
        put_maps(options.out, found)


def add_to(commands: Commands) -> None:
    """The subcommand."""
    own = commands.add_parser("import", help="a map of what Ceph's tools dump", description=__doc__)
    own.usage = f"%(prog)s OSD_DUMP CRUSH_DUMP {MORE}"
    own.add_argument("files", metavar=DUMPS, nargs="+", action=Dumps, help=ABOUT_DUMPS)
    read, written_to = reading(own), putting(own)
    written_to.add_argument("--to", metavar="FOLDER", help="write every map that the cluster takes into this folder")
    rename(own, {"--out": "--to"})
    own.add_argument(
        "--check", action="store_true", help="only tell whether the cluster comes in, and if not why, and what to do"
    )
    read.add_argument(
        "--pgs", metavar="FILE", help="with --check: also whether groups lie where `ceph pg dump -f json` says"
    )
    own.add_argument(
        "--anyway", action="store_true", help="with --check --pgs: status 0 also where groups lie elsewhere"
    )
    about = "write the names of OSDs, buckets, pools and rules into this file"
    written_to.add_argument("--names", metavar="FILE", help=about)
    add_dump_options(own)
    add_json(own)
    set_work(own, options_of, work)
