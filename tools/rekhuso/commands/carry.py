"""`carry`: carries plans to their end by itself, beside a cluster: look, judge, give, read back.

CONF is the configuration by which the cluster is found. Each look asks for flags, Ceph's own balancer, the states of
groups and what is misplaced; where nothing speaks against it, one map of one moment is verified, a plan is made or the
kept one goes on, and what `next` lets through is given at once, if the cluster is still as it was judged. What was
given is read back. With --plan the folder of a plan, a drain or a release is carried; else plans are made anew once all
is quiet and what is judged has changed.

The plan and the state are kept in the monitors, below `rekhuso/`. `carry status CONF` tells the state, `carry pause`
has the carrier give nothing and keep the plan, `carry resume` has it go on, also where it has stopped by itself, `carry
stop` has it drop the plan, and `carry undo` puts out the commands that take the plan back.

Status with --once: 0 nothing is to be gained, 10 commands were given, 11 not now, 1 stopped until a person says so, 2
the cluster or the program cannot be asked, 70 the program judges a plan to be false. Without it 0 behind a signal, and
1 where another carrier is at work.
"""

from __future__ import annotations

import argparse
import datetime
import re
from collections.abc import Sequence
from dataclasses import dataclass

from ..carry.carrier import Carrier, CarryWish
from ..carry.connection import CarryConnection, connected
from ..carry.kept import Keys
from ..carry.persons import SAYINGS, SILENT, ToldState, say, told_state, way_back
from ..carry.rules import CarryLimits, Window
from ..carry.service import Service, log_line
from ..faults import Misuse
from ..output.json_output import put_json
from ..values import SLOTS
from ..version import VERSION
from .arguments import Arguments, Commands, add_json, putting, reading, set_work
from .carry_engine import CarryEngine, EngineWish
from .part_words import PartWords, number_of_moves

# What is said to a carrier, or asked of it.
ASKING = ("status", *SAYINGS, "undo")
USE = "CONF [--plan FOLDER] [--once] [--dry-run] [OPTION ..]"
# Options that go with carrying alone.
OF_CARRYING = ("plan", "once", "dry_run", "window", "most_misplaced", "most_ops", "metrics", "host_most")


@dataclass(frozen=True, **SLOTS)
class CarryOptions:
    """What is said or asked, if anything is; the configuration, the name and the keys of the client; what is asked of
    judgements and of giving; whether it looks once alone, and how often else; the file of metrics, if there is one; and
    whether the state is told as JSON.
    """

    asked: str
    client: tuple[str, str, str | None]
    engine: EngineWish
    wish: CarryWish
    is_once: bool
    interval: float
    metrics: str | None
    is_json: bool


def options_of(arguments: Arguments) -> CarryOptions:
    """The options of the command line. An error of use where one would be passed over."""
    own, (asked, conf) = arguments, words_in(arguments.words)
    if asked and any(getattr(own, name) for name in OF_CARRYING):
        raise Misuse(f"carry {asked} takes CONF, --name, --keyring and --json alone")
    if own.plan is not None and own.by != "groups":
        raise Misuse("--by says how plans are made, and --plan carries one that is there")
    if own.json and not (asked == "status" or own.once or own.dry_run):
        raise Misuse("--json goes with status, --once and --dry-run")
    parts = PartWords(None, own.osd_most, own.host_most)
    limits = CarryLimits(own.most_misplaced, own.window, own.most_ops)
    return CarryOptions(
        asked=asked,
        client=(conf, own.name, own.keyring),
        engine=EngineWish(own.program, own.plan, parts, own.by, own.seconds),
        wish=CarryWish(own.plan is not None, f"{own.by} {VERSION}", own.dry_run, limits),
        is_once=own.once or own.dry_run,
        interval=own.interval,
        metrics=own.metrics,
        is_json=own.json,
    )


def words_in(words: Sequence[str]) -> tuple[str, str]:
    """What is said or asked, nothing where it is carried, and the configuration. An error of use for other words."""
    asked = words[0] if len(words) == 2 else ""
    if len(words) > 2 or asked and asked not in ASKING:
        raise Misuse(f"carry takes CONF, or one of {', '.join(ASKING)} and CONF")
    return asked, words[-1]


# What is asked


def put_state(told: ToldState) -> None:
    """Puts out the state of a carrier as one object."""
    own = dict(told.parts)
    epoch = (own.get("map") or {}).get("epoch")
    for key in ("version", "quiet", "quiet_at", "differs", "differs_at", "vain", "word"):
        own.pop(key, None)
    put_json("carry", epoch, **own, silent=round(told.silent, 3))


def state_lines(told: ToldState) -> list[str]:
    """The state of a carrier in words."""
    own = told.parts
    since = datetime.datetime.fromtimestamp(own["since"]).isoformat(" ", "seconds")
    found = [f"{own['state']} since {since}: {own['words']} ({own['code']})"]
    progress, plan = own.get("progress"), own.get("plan")
    if plan:
        found.append(f"plan: {plan['commands']} commands over epoch {plan['epoch']}")
    if progress:
        groups = [f"{progress[key]['groups']} groups {words}" for key, words in STEPS.items()]
        found.append(f"done: {progress['done']} groups, {', '.join(groups)}")
    if told.silent >= SILENT:
        found.append(f"the carrier has said nothing for {told.silent:.0f} seconds")
    return found


STEPS = {"under_way": "under way", "left": "left"}


def answer(options: CarryOptions, keys: Keys) -> None:
    """Says something to a carrier, or tells what is asked."""
    if options.asked in SAYINGS:
        say(keys, options.asked)
        print(f"{options.asked}: the carrier takes it at its next look")
    elif options.asked == "undo":
        print(way_back(keys), end="")
    elif options.is_json:
        put_state(told_state(keys))
    else:
        print("\n".join(state_lines(told_state(keys))))


# Carrying


def carried_by(options: CarryOptions, connection: CarryConnection) -> int:
    """Carries plans: the status."""
    carrier = Carrier(connection, CarryEngine(options.engine), options.wish, log_line)
    state = Service(carrier, options.interval, options.metrics).run(options.is_once)
    if options.wish.is_dry and not options.is_json:
        print("".join(line + "\n" for line in carrier.lines), end="")
    if options.is_json:
        put_state(ToldState({**carrier.record.parts(), "coming": carrier.record.coming}, 0.0))
    return state.status if options.is_once or state.state == "stopped" else 0


def work(options: CarryOptions) -> int:
    """Does what is asked over a connection, which ends with it."""
    connection = connected(*options.client)
    try:
        if options.asked:
            answer(options, Keys(connection))
            return 0
        return carried_by(options, connection)
    finally:
        connection.close()


# The command line


def share(word: str) -> float:
    """A share of all objects; an error of use where it is none."""
    number = float(word) if re.fullmatch(r"[0-9]{1,3}(\.[0-9]{1,12})?", word) else -1.0
    if not 0 < number <= 1:
        raise argparse.ArgumentTypeError(f"{word}: no share of all objects from 0 to 1, as 0.05")
    return number


def seconds_of(word: str) -> float:
    """A number of seconds; an error of use where it is none."""
    number = float(word) if re.fullmatch(r"[0-9]{1,6}(\.[0-9]{1,3})?", word) else -1.0
    if not 0.1 <= number <= 86400:
        raise argparse.ArgumentTypeError(f"{word}: no number of seconds from 0.1 to 86400")
    return number


def window_in(word: str) -> Window:
    """Hours of a day; an error of use where they are none."""
    found = re.fullmatch("([01][0-9]|2[0-3]):([0-5][0-9])-([01][0-9]|2[0-3]):([0-5][0-9])", word)
    if found is None or word[:5] == word[6:]:
        raise argparse.ArgumentTypeError(f"{word}: no hours of a day, as 22:00-06:00")
    begin, minute, end, last = map(int, found.groups())
    return datetime.time(begin, minute), datetime.time(end, last)


def add_to(commands_of: Commands) -> None:
    """The subcommand."""
    own = commands_of.add_parser("carry", help="carries plans to their end by itself", description=__doc__)
    own.usage = f"%(prog)s {USE}\n       %(prog)s {'|'.join(ASKING)} CONF [OPTION ..]"
    own.add_argument(
        "words",
        metavar=f"[{'|'.join(ASKING)}] CONF",
        nargs="+",
        help="what is said to a carrier or asked of it, if anything is, and the configuration of the cluster",
    )
    group = reading(own)
    group.add_argument("--name", metavar="CLIENT", default="client.rekhuso", help="the client (client.rekhuso)")
    group.add_argument("--keyring", metavar="FILE", help="the file of its key; else that of the configuration")
    group.add_argument(
        "--plan", metavar="FOLDER", help="carry this plan, as `next` takes it, in place of plans of its own"
    )
    about = "make plans by groups, by data too, or for room alone (groups)"
    group.add_argument("--by", choices=("groups", "data", "room"), default="groups", help=about)
    add_limits(own)
    add_looks(own)
    add_json(own)
    set_work(own, options_of, work)


def add_limits(own: argparse.ArgumentParser) -> None:
    """The options for how much is given, and when."""
    about = "at most this share of all objects is misplaced (what target_max_misplaced_ratio says)"
    own.add_argument("--most-misplaced", metavar="R", type=share, help=about)
    about = "no OSD takes part in more than M moves at a time (2)"
    own.add_argument("--osd-most", metavar="M", type=number_of_moves, default=2, help=about)
    own.add_argument("--host-most", metavar="M", type=number_of_moves, help="the same of hosts")
    about = "commands are given at these hours alone, as 22:00-06:00, by the clock of this machine"
    own.add_argument("--window", metavar="HOURS", type=window_in, help=about)
    about = "commands are given while clients have at most N operations a second"
    own.add_argument("--most-ops", metavar="N", type=number_of_moves, help=about)


def add_looks(own: argparse.ArgumentParser) -> None:
    """The options for looks."""
    own.add_argument("--once", action="store_true", help="look once, and end with the status of that")
    own.add_argument("--dry-run", action="store_true", help="look once, put out what would be given, and keep nothing")
    about = "seconds between two looks (60); while a plan is carried 5 at most"
    own.add_argument("--interval", metavar="S", type=seconds_of, default=60.0, help=about)
    about = "for how many seconds a judgement or a plan may take (600)"
    own.add_argument("--seconds", metavar="S", type=seconds_of, default=600.0, help=about)
    about = "write metrics for Prometheus into this file at each look"
    putting(own).add_argument("--metrics", metavar="FILE", help=about)
