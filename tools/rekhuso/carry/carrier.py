"""A carrier: one look at a cluster after the other, and what is done at each."""

from __future__ import annotations

import datetime
from collections.abc import Callable, Mapping, Sequence
from dataclasses import dataclass
from typing import Protocol

from ..cluster.giver_lock import GiverLock
from ..faults import Changed, Fault, Misjudged, Trouble, Untold, Wait
from ..files import JsonObject
from ..plans.next_step import DONE, OUT, NextStep
from ..values import SLOTS
from .connection import CarryConnection
from .giving import GivenCommand, check_guard, first_that_fit, give_all, is_stage, read_back
from .kept import STAGE, WISH, Keys, Torn, drop_plan, keep_plan, kept_plan, sum_of
from .lease import Lease
from .records import MOST_VAIN, Record, Teller, record_in
from .rules import AtWork, CarryLimits, check_all, check_hours
from .snapshots import Snapshot, taken
from .turns import check_turn, turn
from .states import GIVEN, MISJUDGED, NO_PROGRAM, CarrierState, Halted, NoAnswer, Waiting

# All of a plan is there; and for how many seconds a plan by data that has found nothing is not made again.
ALL_DONE, DAY = "done", 86400.0
# For how many seconds groups may lie elsewhere than the program says, as OSDs tell late where they are.
LATE = 120.0
# The states in which something is judged again soon.
AT_WORK = ("planning", "carries", "waits")
# What a person has said, and what that makes of a carrier.
ON, PAUSED, OFF = "on", "paused", "off"
SAID = {
    PAUSED: CarrierState("paused", "said", "a person has paused it; the plan is kept"),
    OFF: CarrierState("off", "said", "a person has stopped it"),
}


@dataclass(frozen=True, **SLOTS)
class JudgedStep:
    """What of a plan is to be done now; how many places of objects are under way; and how many each group is that is
    still to be sent.
    """

    found: NextStep
    moving: int
    costs: Mapping[str, int]


class Engine(Protocol):
    """What judges a cluster and makes plans, over the files of a snapshot."""

    def check(self, snapshot: Snapshot, files: Mapping[str, str]) -> None:
        """Halted where groups lie elsewhere than the program says; a fault where too few are told."""

    def plan(self, snapshot: Snapshot, files: Mapping[str, str]) -> JsonObject:
        """A plan, as `plan --json` tells it."""

    def next(self, snapshot: Snapshot, files: Mapping[str, str], plan: JsonObject | None, most: int) -> JudgedStep:
        """What of a plan, or of the one in the folder, is to be done now, with so many places under way at most."""

    def rest(self) -> None:
        """Nothing is judged for some time: what is open is closed."""


@dataclass(frozen=True, **SLOTS)
class CarryWish:
    """What is asked for: whether a folder is carried, or plans that are made; by what these are made, with the version
    of what makes them; whether nothing is given; and when something is given.
    """

    has_folder: bool
    by: str
    is_dry: bool
    limits: CarryLimits

    @property
    def is_by_data(self) -> bool:
        """Whether plans go by data."""
        return not self.by.startswith("groups")


def state_of(fault: Exception) -> CarrierState:
    """The state of a carrier that could not do its work."""
    words = "; ".join(fault.lines) if isinstance(fault, Fault) else f"{type(fault).__name__}: {fault}"
    if isinstance(fault, (Waiting, Halted)):
        return CarrierState("waits" if isinstance(fault, Waiting) else "stopped", fault.code, words)
    forms: list[tuple[type[Exception], str, str]] = [
        (Misjudged, "stopped", MISJUDGED),
        (NoAnswer, "failed", NoAnswer.code),
        (Changed, "waits", Changed.code),
        (Torn, "waits", Torn.code),
        (Untold, "waits", Untold.code),
        (Wait, "waits", "unrest"),
        (Trouble, "waits", NO_PROGRAM),
        (Fault, "waits", "refused"),
    ]
    for kind, state, code in forms:
        if isinstance(fault, kind):
            return CarrierState(state, code, words)
    return CarrierState("failed", "defect", words)


class Carrier:
    """A carrier of plans for one cluster."""

    def __init__(
        self, connection: CarryConnection, engine: Engine, wish: CarryWish, tell: Callable[[str], None]
    ) -> None:
        """Takes the connection, what judges, what is asked for, and what takes lines for a log."""
        self.connection, self.engine, self.wish, self.log = connection, engine, wish, tell
        self.keys = Keys(connection, wish.is_dry)
        self.lease, self.teller = Lease(self.keys), Teller(self.keys)
        self.record = Record()
        # What a look would give, or has given.
        self.lines: list[str] = []

    def begin(self) -> None:
        """Takes the lease, and what was kept. Halted where another carrier is at work."""
        if not self.wish.is_dry:
            self.lease.begin()
        self.record = record_in(self.keys)

    def end(self) -> None:
        """Leaves the lease, and closes what is open."""
        self.engine.rest()
        if not self.wish.is_dry:
            self.lease.leave()

    def look(self) -> CarrierState:
        """One look at the cluster, and what is done by it; the state is told, whatever comes."""
        self.lines = []
        try:
            if not self.wish.is_dry:
                self.lease.check_own()
            state = self.turn()
        except (Fault, OSError, ValueError, KeyError, TypeError, LookupError) as fault:
            state = self.with_plan_dropped(fault) if isinstance(fault, (Changed, Torn)) else state_of(fault)
        self.enter(state)
        return state

    def enter(self, state: CarrierState) -> None:
        """Is in a state from now on, and tells it."""
        before = self.record.state
        self.record.enter(state)
        if state.state not in AT_WORK:
            self.engine.rest()
        if state != before:
            self.log(f"{state.state}: {state.words} ({state.code})")
        if not self.lease.lost:
            why = self.teller.try_to_tell(self.record)
            if why:
                self.log(f"the state is not kept: {why}")

    def with_plan_dropped(self, fault: Fault) -> CarrierState:
        """The state where a plan is for a cluster no longer: it is made anew, but for one of a folder."""
        if self.wish.has_folder and isinstance(fault, Changed):
            return CarrierState("stopped", Changed.code, "; ".join(fault.lines))
        self.drop(fault.code)
        return state_of(fault)

    def drop(self, why: str) -> None:
        """The plan is carried no more."""
        if not self.wish.has_folder:
            drop_plan(self.keys, why)
        self.record.plan, self.record.progress, self.record.coming = None, {}, []
        self.record.vain.clear()
        self.log(f"the plan ends: {why}")

    def said(self) -> CarrierState | None:
        """The state that a person has asked for, or that only a person ends; None where the carrier goes on."""
        own = self.keys.value(WISH) or {}
        word, number = own.get("wish", ON), own.get("number", 0)
        if word == OFF and self.record.plan is not None:
            self.drop(OFF)
        if word in SAID:
            return SAID[word]
        if self.record.state.state == "stopped" and number == self.record.word and self.record.state.code != "carrier":
            return self.record.state
        if number != self.record.word:
            self.record.vain.clear()
        self.record.word = number
        return None

    def turn(self) -> CarrierState:
        """One look. Faults tell why nothing is given."""
        found = self.said()
        if found is not None:
            return found
        dump = self.connection.ask("osd dump")
        work = self.check(dump)
        snapshot = taken(self.connection, self.wish.is_by_data)
        self.record.map = {"epoch": snapshot.epoch, "fsid": snapshot.osd.get("fsid"), "sum": snapshot.sum}
        plan = None if self.wish.has_folder else kept_plan(self.keys)
        if plan is not None and plan.get("fsid") != snapshot.osd.get("fsid"):
            raise Halted("fsid", f"the plan that is kept is of another cluster: its fsid is {plan.get('fsid')}")
        if not self.wish.has_folder and plan is None and self.is_quiet(snapshot):
            return self.quiet(snapshot)
        with snapshot.files() as files:
            self.verify(snapshot, files)
            if not self.wish.has_folder and plan is None:
                plan = self.planned(snapshot, files, work)
                if plan is None:
                    return self.quiet(snapshot)
            return self.step(snapshot, files, plan, work)

    def check(self, dump: JsonObject) -> AtWork:
        """How the cluster is at work. Waiting where nothing may be given. The norebalance of a stage that was cut off
        is passed over, as the stage is to be given again.
        """
        if self.wish.has_folder and self.keys.get(STAGE) is not None:
            flags = [flag for flag in str(dump.get("flags", "")).split(",") if flag != "norebalance"]
            dump = {**dump, "flags": ",".join(flags)}
        return check_all(self.connection, dump, self.wish.limits)

    def verify(self, snapshot: Snapshot, files: Mapping[str, str]) -> None:
        """Asks that all groups lie where the program says. Halted where some do not for longer than OSDs take to tell
        it, Waiting till then.
        """
        try:
            self.engine.check(snapshot, files)
        except Halted as fault:
            now = datetime.datetime.now().timestamp()
            if self.record.differs != snapshot.sum:
                self.record.differs, self.record.differs_at = snapshot.sum, now
            if now - self.record.differs_at >= LATE:
                raise
            raise Waiting(fault.code, "; ".join(fault.lines)) from None
        self.record.differs = ""

    # Plans

    def is_quiet(self, snapshot: Snapshot) -> bool:
        """Whether nothing was to be gained over what is judged; by data that is asked again after a day."""
        is_old = self.wish.is_by_data and datetime.datetime.now().timestamp() - self.record.quiet_at > DAY
        return self.record.quiet == f"{snapshot.sum} {self.wish.by}" and not is_old

    def quiet(self, snapshot: Snapshot) -> CarrierState:
        """The state where nothing is to be gained."""
        self.record.plan, self.record.progress = None, {}
        return CarrierState("quiet", "quiet", f"nothing is to be gained at epoch {snapshot.epoch}")

    def planned(self, snapshot: Snapshot, files: Mapping[str, str], work: AtWork) -> JsonObject | None:
        """A plan that is made and kept; None where nothing is to be gained. Waiting while data moves."""
        restless = [own["pgid"] for own in snapshot.stats if not {"active", "clean"} <= {*own["state"].split("+")}]
        if work.misplaced > 0 or restless:
            raise Waiting("moving", f"a plan is made once all is quiet: {len(restless)} groups are not")
        self.enter(CarrierState("planning", "planning", f"a plan over epoch {snapshot.epoch} is made"))
        found = self.engine.plan(snapshot, files)
        commands = found["commands"]
        if not commands:
            self.record.quiet = f"{snapshot.sum} {self.wish.by}"
            self.record.quiet_at = datetime.datetime.now().timestamp()
            return None
        keep_plan(self.keys, found)
        self.record.plan = {"epoch": snapshot.epoch, "commands": len(commands), "sum": snapshot.sum}
        self.log(f"a plan over epoch {snapshot.epoch}: {len(commands)} commands, map {snapshot.sum}")
        return found

    def step(self, snapshot: Snapshot, files: Mapping[str, str], plan: JsonObject | None, work: AtWork) -> CarrierState:
        """What of a plan is done now."""
        places = sum(pool["pg_num"] * pool["size"] for pool in snapshot.osd["pools"])
        under = sum(len({*own["up"]} - {*own["acting"]}) for own in snapshot.stats)
        own = self.engine.next(snapshot, files, plan, max(1, under + int(work.room * places)))
        self.record.go_on(own.found)
        self.record.coming = []
        if plan is not None and self.record.plan is None:
            self.record.plan = {"epoch": plan["epoch"], "commands": len(plan["commands"]), "sum": ""}
        if own.found.status == DONE:
            return self.done(own.found)
        if own.found.status != OUT:
            left = f"{own.found.moving} places are under way, {own.found.left.groups} groups are left"
            return CarrierState("carries", "under-way", left)
        self.record.coming = self.lines = self.fitting(own, snapshot, work)
        return self.give(self.lines, snapshot, own.found.after)

    def done(self, found: NextStep) -> CarrierState:
        """The state where all of a plan is there."""
        words = f"all is done: {found.done} groups"
        if self.wish.has_folder:
            return CarrierState("quiet", ALL_DONE, words)
        self.drop(ALL_DONE)
        return CarrierState("carries", ALL_DONE, words)

    def fitting(self, own: JudgedStep, snapshot: Snapshot, work: AtWork) -> list[str]:
        """The commands by which no more is misplaced than may be. Waiting where not even the first fits."""
        lines = [line for line in own.found.text.splitlines() if line.startswith("ceph ")]
        if is_stage(lines):
            return lines
        whole = snapshot.object_places()
        there = max(own.moving, round(work.misplaced * whole))
        found = first_that_fit(lines, lambda line: own.costs.get(line.split(" ")[3], 0), int(work.most * whole) - there)
        if not found:
            raise Waiting("room", f"the next group does not fit below {work.most:.4f} of all objects misplaced")
        return found

    # Commands

    def given(self, lines: Sequence[str]) -> list[GivenCommand]:
        """What comes of commands; of those of a stage a key tells meanwhile that they are amid."""
        if not is_stage(lines):
            return give_all(self.connection, lines)
        self.keys.put(STAGE, sum_of("\n".join(lines)))
        found = give_all(self.connection, lines)
        if not any(own.reply.status for own in found):
            self.keys.drop(STAGE)
        return found

    def give(self, lines: Sequence[str], snapshot: Snapshot, after: Mapping[str, Sequence[int | None]]) -> CarrierState:
        """Gives commands where all is as it was judged, and reads back what they made."""
        check_hours(self.wish.limits, datetime.datetime.now())
        vain = [line for line in lines if self.record.vain[line] >= MOST_VAIN]
        if vain:
            raise Halted("vain", f"given {MOST_VAIN} times in vain: {vain[0]}")
        words = f"{len(lines)} commands over epoch {snapshot.epoch}"
        if self.wish.is_dry:
            return CarrierState("carries", GIVEN, f"{words} would be given")
        with turn(self.connection, words) as lock:
            return self.give_now(lines, snapshot, after, lock)

    def give_now(
        self, lines: Sequence[str], snapshot: Snapshot, after: Mapping[str, Sequence[int | None]], lock: GiverLock
    ) -> CarrierState:
        """The same, while nobody else gives."""
        words = f"{len(lines)} commands over epoch {snapshot.epoch}"
        self.check(check_guard(self.connection, snapshot))
        self.lease.check_own()
        check_turn(lock)
        dump = check_guard(self.connection, snapshot)
        self.log(f"gives {words}, map {snapshot.sum}")
        given = self.given(lines)
        self.record.commands += len(given)
        self.record.last, self.record.coming = list(lines), []
        for own in given:
            self.record.vain[own.line] += not is_stage(lines)
            told = " ".join(own.reply.words.split())
            self.log(f"{own.line}: {own.reply.status} {told}; epoch {snapshot.epoch}, map {snapshot.sum}")
        # Sets are foretold behind all commands before the next stage, and so not those behind a stage.
        away = read_back(self.connection, dump, given, {} if is_stage(lines) else after)
        refused = [own for own in given if own.reply.status]
        if is_stage(lines) and refused:
            left = len(lines) - len(given)
            raise Halted("stage", f"{refused[0].line}: refused; {len(given) - 1} commands stand, {left} were not given")
        if away or refused:
            line = refused[0].line if refused else away[0]
            raise Waiting("not-taken", f"{len(away)} of {len(given)} commands do not stand, the first: {line}")
        return CarrierState("carries", GIVEN, f"{words} are given")
