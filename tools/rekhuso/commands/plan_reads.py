"""`plan --reads`: the fewest commands that name primaries, after which each OSD leads its share of the groups.

In each replicated pool an OSD then leads the floor or the ceiling of its share, and over all pools that of their sum.
Its share of a group is one part in as many as the group has OSDs, by primary affinity. The commands are read back as
they are printed, over the same dumps, before anything is put out.
"""

from __future__ import annotations

from dataclasses import dataclass

from ..cluster.names import names_in, pools_named
from ..cluster.misplaced import check_misplaced, misplaced_of
from ..cluster.outage import check_outage, outage_of
from ..cluster.releases import PRIMARIES, knows_primaries, least_client, osd_release
from ..cluster.sources import Source
from ..cluster.cluster import Cluster
from ..cluster.view import ClusterView
from ..cluster.imports import imported
from ..faults import Fault, Misuse
from ..output.json_output import put_json
from ..output.origins import Origin, origin_of
from ..output.plan_states import BARRED, NOTHING_TO_DO, PLANNED
from ..output.read_words import BALANCER, RAISE, UNDO, WATCH_READS, primaries_words, osd_parts, pool_parts, read_lines
from ..output.read_words import script_text
from ..plans.printed_reads import PrintedReads
from ..plans.question import sets_of_maps
from ..plans.reads import Reads, plan_of_reads
from ..program.maps import Program
from ..running import tell
from ..values import SLOTS
from .arguments import Arguments, source_of
from .put_words import PutWords, put_words

# Options of other plans, which say what moves.
OTHERS = ["of_class", "first", "until", "deviation", "df", "pgs", "osds", "batch", "osd_most", "host_most", "picture"]
FLAGS = ["alone", "room", "by_weight", "by_reach"]


@dataclass(frozen=True, **SLOTS)
class ReadOptions:
    """The dumps of a cluster; which pools are planned, none where these are all; whether one is made although the
    cluster is not at rest or its clients are too old; how it is put out; and whether only its state is told.
    """

    source: Source
    pools: tuple[str, ...]
    is_anyway: bool
    output: PutWords
    is_state: bool


def read_options(arguments: Arguments) -> ReadOptions:
    """The options of the command line. An error of use for options of which one would be passed over."""
    own = vars(arguments)
    given = [name for name in OTHERS if own[name] is not None] + [name for name in FLAGS if own[name]]
    if given:
        words = given[0].replace("_", "-")
        raise Misuse(f"--{words} says what moves, and by --reads nothing does: the two do not go together")
    source = source_of(arguments)
    if not source.has_dumps:
        raise Misuse("--reads goes by two dumps: a map knows no named primaries")
    output = put_words(arguments, False, False, "--batch")
    return ReadOptions(source, tuple(arguments.of_pool or ()), arguments.anyway, output, arguments.status)


def check_release(cluster: Cluster, is_anyway: bool) -> None:
    """A fault where the monitors of a cluster name no primaries, and where clients need not know them, unless it is
    planned nonetheless.
    """
    release, client = osd_release(cluster.osd_dump), least_client(cluster.osd_dump)
    if release is not None and not knows_primaries(release):
        told = f"the cluster is of {release} (require_osd_release), and primaries are named from {PRIMARIES} on"
        raise Fault(f"{told}: no plan is made")
    if not knows_primaries(client):
        own = "what clients must know is not told" if client is None else f"clients may be of {client}"
        told = f"{own} (require_min_compat_client), and must know named primaries: {RAISE}, which is refused beside"
        if not is_anyway:
            raise Fault(f"{told} older ones; no plan is made: --anyway makes one")
        tell(f"{told} older ones")


def check_rest(view: ClusterView, cluster: Cluster, is_anyway: bool, program: Program) -> None:
    """A fault amid an outage, and while much is still to move, unless it is planned nonetheless."""
    ups = sets_of_maps(view.maps, program)
    osds = {osd["id"]: osd for value in view.maps for osd in value["osds"]}
    check_outage(outage_of(osds.values(), view.pools, ups), is_anyway)
    check_misplaced(misplaced_of(cluster.osd_dump, ups), is_anyway)


def state_of(found: Reads) -> str:
    """Which of three a plan of reads is, in one line."""
    if found.commands or found.pools:
        return PLANNED if found.commands else NOTHING_TO_DO
    return f"{BARRED}: {'; '.join(dict.fromkeys(found.alone.values())) or 'no pool'}"


def put_reads_json(found: Reads, view: ClusterView, cluster: Cluster, origin: Origin) -> None:
    """Puts out the plan, its undoing, and who leads before and after, as one object."""
    client = least_client(cluster.osd_dump)
    put_json(
        "reads",
        origin.epoch,
        state=state_of(found).split(":")[0],
        commands=found.commands,
        undo=found.undo,
        min_compat_client={"now": client, "needed": None if knows_primaries(client) else PRIMARIES},
        cluster={"before": found.leads(False).parts(), "after": found.leads(True).parts()},
        pools=pool_parts(found, view.names),
        osds=osd_parts(found),
        left_alone=[{"id": number, "why": why} for number, why in found.alone.items()],
        temporary=found.temporary,
        **origin.parts(),
    )


def put_reads(options: ReadOptions) -> None:
    """Tells a plan of reads."""
    source, program = options.source, options.source.program
    imports = imported(source.dumps())
    cluster = imports.cluster
    check_release(cluster, options.is_anyway)
    view = ClusterView(imports.maps, names_in(source.names) if source.names else cluster.all_names(), imports)
    check_rest(view, cluster, options.is_anyway, program)
    names = {pool["pool"]: pool["pool_name"] for pool in cluster.pools}
    chosen = pools_named(options.pools, names)
    are_named = chosen or (set(names) if source.pools is not None else set())
    found, leaders = plan_of_reads(view, are_named, options.is_anyway, program)
    origin = origin_of(program, [*source.paths, source.names, source.tree], cluster, options.output.is_guarded)
    is_undo = options.output.is_undo
    notes = [BALANCER, *primaries_words(least_client(cluster.osd_dump)), *WATCH_READS, *([] if is_undo else [UNDO])]
    script, undo = (script_text(found, view.names, origin, notes, own) for own in (False, True))
    wanted = {group: osd for own in found.pools for group, osd in own.after.items()}
    PrintedReads(view, leaders, program).check(script, undo, wanted)
    tell("\n".join(read_lines(found, view.names) + origin.beside.lines()))
    if options.output.is_json:
        put_reads_json(found, view, cluster, origin)
    elif options.is_state:
        print(state_of(found) + origin.beside.state_words)
    else:
        options.output.put("plan", [undo if is_undo else script])
