"""`give`: gives to a cluster what these commands put out, and looks at what stands behind it.

PLAN is a script, a folder of scripts, or what a command told by --json: of `plan`, `release`, `drain`, of `hold` with
its CRUSH map (--crush), and of the ways back from these. All goes over one connection: librados' Python (Debian:
python3-rados), or else the `ceph` command.

First the cluster is asked whether it is the one that was dumped, and whether it is the turn of the plan's next part: by
the CRUSH map, reweights, exceptions, and the sizes and rules of pools, as the script itself asks. The program foretells
the set of each group. Then the part is given, a drain's beginning and end under norebalance, and a hold with its CRUSH
map within one map; and the cluster is asked for each exception, each weight and the set of each group. Further parts
follow as long as no data moves; with --wait also once the data of the one before has moved.

Where not all stands, as where a signal comes or the leading monitor ends, the rest is given once more, or by --half
undo what was given of the part is taken back. The last line tells how the cluster stands. What a giver has left that
was killed is finished by the same words. One giver at a time gives to a cluster.

Status 0: all is given. 10: something was given, and more is to come. 11: nothing may be given now, as what is under way
comes first, or another giver is at work. 1: the cluster has changed, or not all stands.
"""

from __future__ import annotations

import argparse
import contextlib
import time
from collections.abc import Iterator
from dataclasses import dataclass

from .. import together
from ..cluster.connections import Connection, connection, go_on_where_librados_is
from ..cluster.giver_lock import GiverLock
from ..cluster.sources import Source
from ..faults import Fault, Misuse
from ..files import JsonObject
from ..output.json_output import put_json
from ..plans.begun_note import begun_in, put_settings_back
from ..plans.carried import PlanPart, check_whole, parts_of_plan
from ..plans.giver_signals import GiverSignals
from ..plans.hold_giver import HoldGiver, is_given_by_half, job_of, rest_begun, scripts_in
from ..plans.plan_giver import GiveWish, GivenPart, PlanGiver
from ..together import Ended, Job, Stop, seconds_in
from ..values import SLOTS
from .arguments import MORE, Arguments, Commands, add_dump_options, add_json, putting, set_work, source_of
from .gather import add_conf

# How a command ends: all is given, something was given, or nothing may be given now.
DONE, MORE_TO_COME, WAITS = 0, 10, 11
# How long it takes until a cluster whose data moves is asked again, in seconds.
PAUSE = 20
HALVES = "finish", "undo"


@dataclass(frozen=True, **SLOTS)
class GiveOptions:
    """The plan; the cluster's configuration; how dumps are taken; the compiled CRUSH map of a hold, how many groups it
    may leave to move, and for how long a monitor gathers meanwhile; what is asked for; whether data is waited for; and
    whether all is told as JSON.
    """

    plan: str
    conf: str
    source: Source
    crush: str | None
    moves: int | None
    seconds: float
    wish: GiveWish
    is_waiting: bool
    is_json: bool


@dataclass(frozen=True, **SLOTS)
class GiveOutcome:
    """How a command ends: its status, what was given, how many parts are left, and what is told last."""

    status: int
    given: list[GivenPart]
    left: int
    told: str

    def put(self, is_json: bool, epoch: int) -> None:
        """Puts it out in lines, or as one object."""
        if is_json:
            parts: list[JsonObject] = [own.parts() for own in self.given]
            put_json("give", epoch, status=self.status, parts=parts, left=self.left, told=self.told)
            return
        for own in self.given:
            print(f"{own.name}: {own.told}")
        print(self.told)


def options_of(arguments: Arguments) -> GiveOptions:
    """The options of the command line. An error of use for options of which one would be passed over."""
    own = arguments
    if own.wait and (own.dry_run or own.by_temps):
        raise Misuse("--wait goes with neither --dry-run nor --by-temps")
    wish = GiveWish(own.half == "undo", own.by_temps, own.dry_run)
    hold = own.crush, own.moves, own.seconds
    return GiveOptions(own.plan, own.conf, source_of(own, ()), *hold, wish, own.wait, own.json)


@contextlib.contextmanager
def locked(own: Connection, what: str, is_dry: bool) -> Iterator[GiverLock | None]:
    """The lock of a cluster; none where nothing is given."""
    lock = GiverLock(own, what)
    if is_dry:
        yield None
        return
    lock.take()
    try:
        yield lock
    finally:
        lock.leave()


def given_hold(own: Connection, job: Job, scripts: list[str], options: GiveOptions) -> GiveOutcome:
    """Gives a hold with its CRUSH map."""
    giver, name = HoldGiver(own, job, options.seconds), options.plan
    count = giver.check()
    lines = [f"ceph osd {' '.join([one.word, one.group, *map(str, one.osds)])}" for one in job.script.commands]
    if options.wish.is_dry:
        told = f"{count} commands would be given in one map"
        return GiveOutcome(MORE_TO_COME, [GivenPart(name, lines, len(job.script.goes), told)], 1, "nothing is given")
    told = giver.give(scripts)
    return GiveOutcome(DONE, [GivenPart(name, lines, len(job.script.goes), told)], 0, "all is given")


def given_parts(giver: PlanGiver, options: GiveOptions) -> GiveOutcome:
    """Gives the parts of a plan that may be given, and those that come once data has moved, where that is asked for."""
    while True:
        why = giver.step()
        if why and giver.is_moving and options.is_waiting and not giver.signals.has_come:
            with contextlib.suppress(Ended), giver.signals.ending():
                time.sleep(PAUSE)
        elif why:
            break
    status = DONE if not giver.left else MORE_TO_COME if giver.given else WAITS
    return GiveOutcome(status, giver.given, giver.left, why)


def outcome_of(own: Connection, options: GiveOptions, signals: GiverSignals) -> GiveOutcome:
    """Gives a plan to a cluster."""
    scripts = scripts_in(options.plan)
    job = job_of(scripts, options.crush, options.moves) if scripts else None
    if job is None and (options.crush is not None or options.moves is not None):
        raise Misuse("--crush and --moves go with a hold alone")
    parts: list[PlanPart] = [] if job is not None else parts_of_plan(options.plan)
    check_whole(options.plan, parts)
    with locked(own, options.plan, options.wish.is_dry) as lock:
        told = [] if options.wish.is_dry else put_settings_back(own, begun_in(own))
        if job is not None and not is_given_by_half(own, job):
            found = given_hold(own, job, scripts, options)
        else:
            parts = parts if job is None else [rest_begun(own, job, scripts)]
            giver = PlanGiver(own, parts, options.source, options.wish, signals)
            giver.check = giver.check if lock is None else lock.check
            found = given_parts(giver, options)
    return GiveOutcome(found.status, found.given, found.left, "; ".join([found.told, *told]))


def work(options: GiveOptions) -> int:
    """Gives a plan, and ends with the status that says what is given."""
    go_on_where_librados_is()
    signals = GiverSignals()
    signals.take()
    own = None
    try:
        own = connection(options.conf)
        found = outcome_of(own, options, signals)
        found.put(options.is_json, own.epoch())
        return found.status
    except Stop as fault:
        raise Fault(str(fault)) from None
    except Ended:
        raise Fault("interrupted; nothing was given") from None
    finally:
        if own is not None:
            own.rados.shutdown()


def add_hold_words(own: argparse.ArgumentParser) -> None:
    """The options of a hold."""
    own.add_argument("--crush", metavar="FILE", help="the compiled CRUSH map that a hold was made for")
    about = "give a hold also where so many groups move by it, as it does not hold them"
    own.add_argument("--moves", metavar="N", type=together.groups_in, help=about)
    about = "for how long the monitor gathers meanwhile at most (60 where nothing is said)"
    own.add_argument("--seconds", metavar="S", type=seconds_in, default=60.0, help=about)


def add_to(commands_of: Commands) -> None:
    """The subcommand."""
    own = commands_of.add_parser("give", help="gives a plan to a cluster, and looks at it", description=__doc__)
    own.usage = f"%(prog)s SCRIPT|FOLDER|PLAN.json [--conf FILE] [--crush FILE] [--wait] [--dry-run] {MORE}"
    about = "the plan: a script, a folder of scripts, or what a command has told by --json"
    own.add_argument("plan", metavar="SCRIPT|FOLDER|PLAN.json", help=about)
    add_conf(own)
    add_hold_words(own)
    about = "what becomes of a part that is given by half: the rest is given (where nothing is said), or it is undone"
    own.add_argument("--half", choices=HALVES, default=HALVES[0], help=about)
    own.add_argument("--wait", action="store_true", help="go on once data has moved, until all is given")
    about = "where no manager answers, let the temporary sets of the map tell where data is; one part a run"
    own.add_argument("--by-temps", action="store_true", help=about)
    putting(own).add_argument("--dry-run", action="store_true", help="ask all, and give nothing")
    add_dump_options(own)
    add_json(own)
    own.set_defaults(names=None)
    set_work(own, options_of, work)
