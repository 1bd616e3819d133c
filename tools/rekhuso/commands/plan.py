"""`plan`: a plan that evens a whole cluster, as the commands that Ceph takes, on standard output.

The proved balancer plans each pool beside what its OSDs carry from all others, so that the cluster gets more even too:
by groups, and with --df by bytes. A plan of a pool moves only between OSDs that differ by more than twice --deviation
groups; 0.5 is every move. A plan goes on until a plan over what it makes is empty, or tells how many commands that has.
The first commands are worth most. With --of-pool or --of-class only some pools are planned, for the sake of all; with
--alone each pool is planned by itself. Standard error tells how even the cluster is before and after, and then each
pool.

Comments above the commands tell what one must know before they are run, and a table below them what moves, by pool and
by OSD. The commands are the difference of the two maps' exceptions, where each group has the fewest pairs that lead to
its set (as `net` has them). With --undo the same words give the commands that take the exceptions of these groups back
to what they are now, whichever part of the plan was run. With --batch the commands go into files that are run one
after the other.

With --reads no data moves: the plan names the fewest primaries after which each OSD leads its share of the groups of
each replicated pool, and of all these pools together.

Before anything is put out the program judges it as printed: it accepts each command in this order, tells every count
on the way, and says of each exception that Ceph's monitor leaves it. Where something is wrong the command is named, and
nothing is put out.
"""

from __future__ import annotations

import argparse
import json
import re
from collections.abc import Callable, Mapping
from contextlib import ExitStack
from dataclasses import dataclass, replace
from fractions import Fraction

from ..cluster.conversion import monitor_of
from ..cluster.data_files import DataFiles, KnownData, known_data
from ..cluster.disks import NEARFULL
from ..cluster.imports import imported
from ..cluster.judge import judge_of_cluster, judge_of_map
from ..cluster.map_files import map_monitor
from ..cluster.misplaced import Misplaced, check_misplaced
from ..cluster.names import Names, names_in, pools_named
from ..cluster.outage import check_outage
from ..cluster.pool_data import Data
from ..cluster.primaries import rested_words
from ..cluster.releases import least_client
from ..cluster.sources import Source
from ..cluster.unrest import Unrest
from ..cluster.view import ClusterView, as_in_ceph, has_other_weights, no_plan_words, tree_in, under_tree
from ..faults import Fault, Misuse
from ..files import put
from ..output.json_output import put_json
from ..output.origins import Origin, origin_of, origin_of_map
from ..output.osd_picture import plan_picture
from ..output.plan_scripts import PlanScript, WATCH, balancer_words, client_words, part_file
from ..output.plan_states import reasons_of, state_line, state_of
from ..output.plan_words import all_pools_words, plan_lines, quiet_words, worth_words
from ..output.refusal_words import refusal_words
from ..plans.all_pools import AllPools, all_pools
from ..plans.after_plan import quiet_deviation, rested_after
from ..plans.busy import ALL
from ..plans.hold_checks import check_told, told_words
from ..plans.movement import PlaceBytes, place_bytes
from ..plans.plan import Outcome, Wish, leave_alone, misplaced_in, outage_in, planned
from ..plans.pool_choice import pools_on
from ..plans.printed import Asked, Printed
from ..plans.rounds import Live
from ..plans.steps import steps_by_pool
from ..program.maps import Map, Program, altered
from ..program.session import MOST_MOVES
from ..running import doing, tell
from ..values import SLOTS
from .arguments import Arguments, Commands, add_files, putting, reading, rename, set_work, source_of
from .filter_words import osds_of_classes
from .put_words import PutWords, add_put_words, check_bytes, commands_a_file, file_or_folder, put_words

# What is told above a plan of its other forms.
PARTS = "parts:  the same words with --batch N --to FOLDER write files of N commands each, with what each moves"
UNDO = "undo:   the same words with --undo, over the same files, which are to be kept"
# The least --deviation of a plan for the whole cluster, and the greatest of all: no pool has more groups.
LEAST, FARTHEST = Fraction(1, 2), 65536


@dataclass(frozen=True, **SLOTS)
class ToldPlan:
    """What is told of plans: the epoch of the map, what the plans are, what the groups weigh, names, from which number
    on Ceph's own balancer leaves the plan alone, if that is known; and of dumps the groups whose named primary does
    nothing any more afterwards, the release that clients must have at least, and what is still to come from before; and
    by what the commands are judged before they are put out; the pools that are not at rest; where the scripts come
    from; how even the cluster is by all pools that can be placed, where only some were read; and the picture of the
    OSDs before and after, if one is asked for.
    """

    epoch: int
    outcome: Outcome
    weights: PlaceBytes
    names: Names
    quiet: int | None
    rested: list[str]
    client: str | None
    misplaced: Misplaced | None
    printed: Printed
    unrest: Mapping[int, Unrest]
    origin: Origin
    all_pools: AllPools | None = None
    picture: str = ""

    def lines(self, deviation: Fraction | None) -> list[str]:
        """All that is told of plans on standard error."""
        found = plan_lines(self.outcome, self.names, deviation) + quiet_words(self.quiet)
        found += worth_words(self.outcome, self.weights.moving(self.outcome.steps))
        found += [rested_words(self.rested)] if self.rested else []
        return found + all_pools_words(self.all_pools, self.names) + self.origin.beside.lines()


@dataclass(frozen=True, **SLOTS)
class Holdings:
    """What a cluster holds: what files tell, and of it the data of its pools; the weights of all its OSDs; which OSDs
    it has, None where not all are known; how full one may get; the tree in which they stand; and the OSDs of the device
    classes on which pools lie that are planned, None where these are all.
    """

    known: KnownData
    data: Data | None
    weights: list[int]
    osds: frozenset[int] | None
    nearfull: float
    tree: Map
    chosen: frozenset[int] | None


@dataclass(frozen=True, **SLOTS)
class PlanOptions:
    """What is planned over, and how: which pools, by their names or by the device classes of their OSDs, at most how
    many commands, until the fullest OSD is at which ratio to its share, how near to the shares, whether each pool by
    itself, whether for room alone, whether by weights alone or by reach alone, whether amid an outage too, and by which
    file of data; how it is put out; whether only that is told, which of three it is; and the file for a picture, if
    there is one.
    """

    source: Source
    pools: tuple[str, ...]
    classes: str | None
    most: int | None
    until: float | None
    deviation: Fraction | None
    is_alone: bool
    is_room: bool
    is_by_weight: bool
    is_by_reach: bool
    is_anyway: bool
    data: DataFiles
    output: PutWords
    is_state: bool
    picture: str | None

    def files(self) -> list[str | None]:
        """All files that a plan goes by."""
        own, data = self.source, self.data
        return [*own.paths, own.names, own.tree, data.df, data.pgs, data.osds]


def options_of(arguments: Arguments) -> PlanOptions:
    """The options of the command line. An error of use for options of which one would be passed over."""
    own = arguments
    output = put_words(own, False, own.batch is not None, "--batch")
    if own.status and (own.json or own.to is not None or own.undo):
        raise Misuse("--status tells the state alone: --json, which has it, --to and --undo do not go with it")
    if own.deviation is not None and own.deviation < LEAST and not own.alone:
        raise Misuse(f"--deviation {float(own.deviation):g}: 0.5 is the whole plan; less goes with --alone")
    if own.room and (own.df is own.pgs is None or own.alone or own.deviation is not None):
        raise Misuse("--room goes by the data that --df tells; --alone and --deviation do not go with it")
    if own.by_weight and own.by_reach:
        raise Misuse("--by-weight and --by-reach do not go together")
    if own.osds is not None and own.df is own.pgs is None:
        raise Misuse("--osds goes with --df or --pgs, which tell what moves")
    if own.alone and own.until is not None:
        raise Misuse("--until takes the first commands, which are worth most: those of --alone are in no such order")
    if own.alone and own.first is not None and own.first > MOST_MOVES:
        raise Misuse(f"--first {own.first}: with --alone at most {MOST_MOVES} moves a pool")
    return PlanOptions(
        source=source_of(own),
        pools=tuple(own.of_pool or ()),
        classes=own.of_class,
        most=own.first,
        until=own.until,
        deviation=own.deviation,
        is_alone=own.alone,
        is_room=own.room,
        is_by_weight=own.by_weight,
        is_by_reach=own.by_reach,
        is_anyway=own.anyway,
        data=DataFiles(own.df, own.pgs, own.osds),
        output=output,
        is_state=own.status,
        picture=own.picture,
    )


def pools_of(options: PlanOptions, lives: list[Live], names: Names, held: Holdings) -> frozenset[int]:
    """The pools that are planned, none where these are all. Those that are passed over, as they lie on OSDs of other
    device classes too, are told on standard error. A fault for a word that names no pool, and where none is left.
    """
    pools = {number: pool for live in lives for number, pool in live.pools.items()}
    named_pools = pools_named(options.pools, {own: names.get("pools", {}).get(str(own), "") for own in pools})
    if held.chosen is None:
        return frozenset(named_pools)
    found = pools_on(lives, held.chosen).of(named_pools)
    for line in found.lines(names):
        tell(line)
    several = [own for own in found.within if own in named_pools or options.is_alone or pools[own]["pg_num"] > 1]
    if not several:
        raise Fault(f"no pool of several groups lies on OSDs of device class {options.classes} alone")
    return frozenset(several)


def wish_of(options: PlanOptions, lives: list[Live], names: Names, held: Holdings) -> Wish:
    """What is asked for. A fault for a word that names no pool, and where room is wanted and some pool is unknown."""
    most = options.most or (MOST_MOVES if options.is_alone else ALL)
    own = {number for live in lives for number in live.pools}
    named_pools = pools_of(options, lives, names, held)
    parts, data = options.output.parts, held.data
    beside = sorted((data.of_pool if data else {}).keys() - own)
    if options.is_room and beside:
        raise Fault(f"--room wants all pools of the cluster: pool {beside[0]} holds data, and is in no map here")
    forms = options.is_alone, options.is_room, options.is_by_weight
    busy = parts.busy(held.tree)
    return Wish(
        named_pools,
        options.deviation,
        most,
        parts.batch or ALL,
        *forms,
        data,
        held.nearfull,
        busy,
        options.until,
        options.is_by_reach,
        options.is_anyway,
    )


def chosen_in(options: PlanOptions, names: Names) -> frozenset[int] | None:
    """The OSDs of the device classes on which pools lie that are planned. A fault for a class that no OSD has."""
    return None if options.classes is None else osds_of_classes(names, options.classes)


def printed_over(lives: list[Live], outcome: Outcome, program: Program) -> Printed:
    """By what the commands of plans are judged."""
    maps = [live.value for live in lives]
    down = frozenset(osd["id"] for value in maps for osd in value["osds"] if osd["exists"] and not osd["up"])
    return Printed(maps, program, {step.group: step.now for step in outcome.steps}, outcome.measure, down, Asked.NAMED)


def told_by(lives: list[Live], options: PlanOptions, names: Names, held: Holdings, origin: Origin) -> ToldPlan:
    """The plans over some sessions, which end with them. A fault where a pool that is named gets none."""
    check_outage(outage_in(lives), options.is_anyway)
    pools = [pool for live in lives for pool in live.pools.values()]
    data = held.data
    if data is not None:
        needed = {osd for live in lives for pool in live.pools.values() for osd in live.before.weights_for(pool)}
        data = held.known.with_disks(data.weighed(held.weights), needed, held.osds)
    wish = wish_of(options, lives, names, replace(held, data=data))
    outcome = planned(lives, wish, doing)
    refused = [parts for parts in outcome.pools if parts["refused"]]
    if refused and options.pools:
        raise Fault(*(f"{parts['name']}: {refusal_words(parts['refused'] or '')}" for parts in refused))
    weighed = [pool for pool in pools if pool["id"] in {parts["id"] for parts in outcome.pools}]
    quiet, printed = quiet_deviation(lives, outcome), printed_over(lives, outcome, options.source.program)
    weights = place_bytes(weighed, data)
    return ToldPlan(origin.epoch, outcome, weights, names, quiet, [], None, None, printed, {}, origin)


def pictured(told: ToldPlan, whole: ClusterView, lives: list[Live], options: PlanOptions) -> ToldPlan:
    """Plans with their picture, where one is asked for."""
    if options.picture is None:
        return told
    ups = {group: up for live in lives for group, up in live.before.ups.items()}
    return replace(told, picture=plan_picture(whole, ups, told.outcome.steps))


def plan_of_map(options: PlanOptions, known: KnownData) -> ToldPlan:
    """The plans of a map in a file, and what is known of the data of its pools."""
    source = options.source
    if source.tree is not None or source.pools is not None:
        raise Misuse("--tree and --pools go with two dumps alone")
    names = names_in(source.names)
    text, monitor = map_monitor(source.paths[0], source.program, stock=True)
    with monitor:
        value: Map = json.loads(text)
        tree = tree_in(source.names)
        if has_other_weights(value, tree):
            raise Fault(no_plan_words(""))
        data = known.of_cluster(value["pools"], names.get("pools", {}), False, {})
        weights = {item: own for bucket in tree or value["buckets"] for item, own in bucket["items"] if item >= 0}
        held = Holdings(
            known,
            data,
            list(weights.values()),
            None,
            NEARFULL,
            altered(value, buckets=tree or value["buckets"]),
            chosen_in(options, names),
        )
        live = Live(value, value, names, judge_of_map(value, names), monitor)
        origin = origin_of_map(source.program, options.files(), value, names, options.output.is_guarded)
        told = told_by([live], options, names, held, origin)
    return pictured(told, under_tree(value, names, tree), [live], options)


def check_lies(whole: ClusterView, lives: list[Live], options: PlanOptions) -> None:
    """A fault where a dump of groups says that the cluster lies elsewhere than its maps say, unless it is planned
    nonetheless.
    """
    if options.data.pgs is not None:
        source, ups = options.source, {group: up for live in lives for group, up in live.before.ups.items()}
        sets = as_in_ceph(whole, ups, source.program)
        unlike = told_words(whole, sets, options.data.pgs, source.pools is None)
        check_told(unlike, options.is_anyway, "planned")


def plan_of_dumps(options: PlanOptions, known: KnownData) -> ToldPlan:
    """The plans of two dumps, over all maps that the cluster takes. A fault where a weight set is in force."""
    source = options.source
    found = imported(source.dumps())
    names = names_in(source.names) if source.names else found.cluster.names()
    whole = ClusterView(found.maps, names, found)
    if whole.has_weight_set:
        raise Fault(whole.no_plan(source.program))
    cluster, pools = found.cluster, [pool for value in found.maps for pool in value["pools"]]
    data = known.of_cluster(pools, names["pools"], source.pools is None, cluster.erasure_rates)
    weights, osds = list(cluster.osd_weights().values()), frozenset(cluster.osds)
    held = Holdings(known, data, weights, osds, cluster.nearfull, whole.tree, chosen_in(options, names))
    with ExitStack() as stack:
        lives = [
            Live(
                value,
                part.kept_exceptions(),
                names,
                judge_of_cluster(part),
                stack.enter_context(monitor_of(value, source.program, True)),
            )
            for part, value in zip(found.parts, found.maps)
        ]
        leave_alone(lives, cluster, options.is_anyway)
        misplaced = misplaced_in(lives, whole)
        check_misplaced(misplaced, options.is_anyway)
        check_lies(whole, lives, options)
        origin = origin_of(source.program, options.files(), cluster, options.output.is_guarded)
        told = pictured(told_by(lives, options, names, held, origin), whole, lives, options)
    rested = rested_after(whole, told.outcome.steps, source.program)
    others = None if source.pools is None else all_pools(source.dumps(), cluster, told.outcome.steps)
    # Ceph's own balancer takes a reweight above 1 as it is, and placement takes it as 1.
    is_known = all(own["weight"] <= 1 for own in found.cluster.osds.values())
    client = least_client(found.cluster.osd_dump)
    quiet = told.quiet if is_known else None
    told = replace(told, quiet=quiet, rested=rested, client=client, misplaced=misplaced, unrest=whole.unrest)
    return replace(told, all_pools=others)


# What is put out


def plan_value(told: ToldPlan) -> dict[str, object]:
    """The plan, its undoing, how even it leaves the cluster, and what moves as JSON has them."""
    weights, steps, outcome = told.weights, told.outcome.steps, told.outcome
    stopped = [[osd, count] for osd, count in sorted(outcome.stopped.items())]
    own, pools = steps_by_pool(steps), []
    for parts in outcome.pools:
        moving = weights.moving(own.get(parts["id"], []))
        pools.append(altered(parts, places=moving["places"], bytes=moving["bytes"], share=moving["share"]))
    return dict(
        state=state_of(outcome),
        why=reasons_of(outcome),
        commands=[line for step in steps for line in step.commands],
        undo=[line for step in steps for line in step.undo],
        cluster={
            "before": outcome.before,
            "after": outcome.after,
            "largest": outcome.largest,
            "least": round(outcome.least, 4),
        },
        **({} if outcome.data is None else {"data": dict(outcome.data, stopped=stopped)}),
        **({} if outcome.chosen is None else {"shares": outcome.chosen.parts()}),
        taken_out=outcome.taken_out,
        idle_primaries=told.rested,
        worth=None if outcome.worth is None else outcome.worth.parts(),
        upmap_max_deviation=told.quiet,
        misplaced=None if told.misplaced is None else told.misplaced.parts(),
        unrest=[own.parts() for own in told.unrest.values()],
        moving=weights.moving(steps),
        osds=weights.by_osd(steps),
        pools=pools,
        **({} if told.all_pools is None else {"all_pools": told.all_pools.parts()}),
        **told.origin.parts(),
    )


def script_of(told: ToldPlan, options: PlanOptions, number: int = 1, count: int = 1) -> PlanScript:
    """What stands round the commands of a plan or of one of several parts of it, or of what takes these back."""
    is_undo, part = options.output.is_undo, f", part {number} of {count}" if options.output.is_parted else ""
    before = balancer_words(None if is_undo else told.quiet) + client_words(told.client) + WATCH
    if is_undo:
        title = f"The way back from a plan over epoch {told.epoch}{part}"
        end = "after:  these groups have the exceptions of that epoch again, whichever part of the plan was run"
        origin = told.origin.turned("undo of a plan", number, count)
        return PlanScript(title, [*before, end], told.weights, told.names, origin)
    order = [f"order:  part {number - 1} is run before, and its groups have moved"] if number > 1 else []
    undo = UNDO + (f", write {part_file('undo', number, count)}" if part else "")
    notes = [*order, undo] if part else [PARTS, undo]
    title = f"A plan over epoch {told.epoch}{part}"
    return PlanScript(title, before + notes, told.weights, told.names, told.origin.turned("plan", number, count))


def scripts_of(told: ToldPlan, options: PlanOptions) -> list[str]:
    """The scripts of the plan, or of the way back from it: one, or one for each part of so many commands."""
    outcome = told.outcome
    parts = outcome.parts if options.output.is_parted else [outcome.steps] if outcome.steps else []
    found = []
    for number, part in enumerate(parts, 1):
        steps = [step.undone() for step in part] if options.output.is_undo else part
        found.append(script_of(told, options, number, len(parts)).text(steps))
    return found


def check_printed(told: ToldPlan, scripts: list[str], options: PlanOptions) -> None:
    """Has the program judge what is to be put out. A fault where it is not what is told."""
    steps, lengths = told.outcome.steps, [sum(len(step.commands) for step in part) for part in told.outcome.parts]
    commands = "\n".join(line for step in steps for line in step.commands)
    undo = "\n".join(line for step in steps for line in step.undo)
    if not steps:
        return
    if options.output.is_json:
        told.printed.check_scripts([commands], lengths, [undo])
    elif options.output.is_undo:
        told.printed.check_scripts([commands], lengths, scripts)
    else:
        told.printed.check_scripts(scripts, lengths, [])
        check_bytes(options.source, scripts, sum(lengths), told.printed.asked)


def work(options: PlanOptions) -> None:
    """Asks the program for its plans, in one session a map, and tells them."""
    known = known_data(options.data)
    told = plan_of_dumps(options, known) if options.source.has_dumps else plan_of_map(options, known)
    scripts = scripts_of(told, options)
    check_printed(told, scripts, options)
    if options.picture is not None:
        put(options.picture, told.picture)
    tell("\n".join(told.lines(options.deviation)))
    if options.output.is_json:
        put_json("plan", told.epoch, **plan_value(told))
    elif options.is_state:
        print(state_line(told.outcome) + told.origin.beside.state_words)
    else:
        options.output.put("plan", scripts)


# The command line


Asking = Callable[[], None]


def asked_for(arguments: Arguments) -> Asking:
    """The plan that the command line asks for: of who leads groups, or of what moves."""
    if arguments.reads:
        from .plan_reads import put_reads, read_options

        reads = read_options(arguments)
        return lambda: put_reads(reads)
    options = options_of(arguments)
    return lambda: work(options)


def make(asking: Asking) -> None:
    """Makes the plan that is asked for."""
    asking()


def ratio_word(word: str) -> float:
    """A ratio to a share, from 1 on; an error of use where it is none."""
    number = float(word) if re.fullmatch(r"[0-9]{1,4}(\.[0-9]{1,9})?", word) else 0.0
    if number < 1:
        raise argparse.ArgumentTypeError(f"{word}: no ratio to a share, from 1 to 9999")
    return number


def distance(word: str) -> Fraction:
    """A number of groups from a share; an error of use where it is none."""
    try:
        # Of a great exponent Python makes a number of as many digits, which takes long.
        number = Fraction(word if len(word) <= 40 and not re.search("[eE].*[0-9]{3}", word) else -1)
    except (ValueError, ZeroDivisionError):
        number = Fraction(-1)
    if not 0 <= number <= FARTHEST:
        raise argparse.ArgumentTypeError(f"{word}: no number of groups from 0 to {FARTHEST:,}")
    return number


def add_to(commands_of: Commands) -> None:
    """The subcommand."""
    own = commands_of.add_parser("plan", help="a balancer's plan as Ceph's commands", description=__doc__)
    add_files(own)
    undo = "the way back to the exceptions in the files given, for the groups of the plan"
    add_put_words(own, undo, file_or_folder("plan"))
    own.add_argument(
        "--of-pool",
        metavar="ID|NAME,..",
        action="append",
        help="plan only these pools, for the sake of all; may be given again (else all of several groups)",
    )
    own.add_argument(
        "--of-class", metavar="CLASS,..", help="plan only the pools that lie on OSDs of these device classes alone"
    )
    own.add_argument(
        "--first",
        metavar="N",
        type=commands_a_file,
        help="the first N commands, which are worth most; with --alone at most N moves a pool",
    )
    own.add_argument(
        "--until",
        metavar="RATIO",
        type=ratio_word,
        help="until the fullest OSD is at this ratio to its share, as 1.08: by bytes where --df or --pgs tells them, "
        "else by groups; the commands are the first ones of the plan",
    )
    own.add_argument(
        "--deviation",
        metavar="D",
        type=distance,
        help="move only between OSDs that differ by more than 2 D groups (1 where nothing is said; 0.5 is every "
        "move); with --alone: only as many moves as bring each OSD within D groups of its share",
    )
    own.add_argument("--alone", action="store_true", help="plan each pool by itself, whatever OSDs carry from others")
    own.add_argument(
        "--room",
        action="store_true",
        help="with --df: only the moves that make room, from the OSD that is fullest by bytes; far fewer commands",
    )
    own.add_argument(
        "--by-weight",
        action="store_true",
        help="go by shares by weight alone, as Ceph's balancer does, also where a rule can never give them",
    )
    own.add_argument(
        "--by-reach",
        action="store_true",
        help="go by what the rule of each pool can give; where that is not by weight, else the best plan is taken",
    )
    own.add_argument(
        "--anyway",
        action="store_true",
        help="a plan also amid an outage, or while 5 %% of the places are still to move: Ceph's balancer would wait",
    )
    putting(own).add_argument(
        "--status",
        action="store_true",
        help="in place of the commands one line: planned, nothing to do, or nothing can be planned and why",
    )
    putting(own).add_argument("--picture", metavar="FILE", help="writes beside it the OSDs before and after, as SVG")
    own.add_argument(
        "--reads",
        action="store_true",
        help="plan who leads and not what moves: the fewest primaries to name, after which each OSD leads its share of "
        "the groups of each replicated pool (Ceph 18.2 and later)",
    )
    add_data_files(own)
    rename(own, {"--pool": "--of-pool", "--class": "--of-class", "--max": "--first"})
    set_work(own, asked_for, make)


def add_data_files(own: argparse.ArgumentParser) -> None:
    """The options for what is known of the data."""
    group = reading(own)
    group.add_argument(
        "--df",
        metavar="FILE",
        help="what `ceph df --format json` prints: even the data too, and tell how much of it moves; by means of "
        "pools, "
        "without --pgs",
    )
    group.add_argument(
        "--pgs",
        metavar="FILE",
        help="what `ceph pg dump -f json` prints: go by what each group holds; erasure pools want --df too",
    )
    group.add_argument(
        "--osds",
        metavar="FILE",
        help="with --df or --pgs, what `ceph osd df -f json` prints: go by the disks, and let none get nearly full",
    )
