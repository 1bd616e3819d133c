"""One part of a plan, given to a cluster: its change, then its commands on exceptions, all of them at once; and behind
that a look at each exception, each weight and the set of each group.

Where not all stands, as where a command is refused, a signal comes or no monitor answers for a time, the rest is given
once more, or what was given is taken back, as it is asked for. While OSDs change, norebalance keeps data where it is.
"""

from __future__ import annotations

import contextlib
from collections.abc import Callable, Mapping, Sequence
from concurrent.futures import Future, ThreadPoolExecutor, wait
from dataclasses import dataclass, replace

from .. import together
from ..cluster.connections import Connection
from ..cluster.judge import Places
from ..faults import Fault
from ..program.map_forms import FULL_WEIGHT
from ..together import FLAG, INTERRUPTED, Stop, Words, back_of, erasure_pools_of, goal_of, is_elsewhere
from ..values import SLOTS
from ..words import counted, some
from .begun_note import BegunNote, drop_note, put_note
from .giver_signals import GiverSignals

# At most so many commands wait for a map at once.
MOST_AT_ONCE = 400
BALANCER_OFF: Words = {"prefix": "balancer off"}
NOTHING: tuple[None, None] = (None, None)


@dataclass(frozen=True, **SLOTS)
class PartAim:
    """What a part brings: whether it is a stage; its change and the way back from that, as a monitor takes them; its
    commands on exceptions; and what the cluster has then: the sum of its CRUSH map, the reweights of those OSDs that
    get others, and the set of each group, as the program foretells it.
    """

    name: str
    is_stage: bool
    change: list[Words]
    back: list[Words]
    commands: list[together.Command]
    crush: str
    reweights: Mapping[int, int]
    sets: Mapping[str, Places]


@dataclass(frozen=True, **SLOTS)
class PartStanding:
    """How a cluster stands beside what a part brings: the groups that have not their exceptions, and those that are
    elsewhere than foretold; whether OSDs have what they are to have; and whether all is as it was before.
    """

    unlike: list[str]
    elsewhere: list[str]
    has_change: bool
    is_as_it_was: bool

    @property
    def is_done(self) -> bool:
        """Whether all stands."""
        return self.has_change and not self.unlike and not self.elsewhere

    def words(self) -> str:
        """How it stands, in one phrase."""
        found = [] if self.has_change else ["OSDs have not the weights that they are to have"]
        lack, are = (f"{counted(len(own), 'group')}" for own in (self.unlike, self.elsewhere))
        found += [f"{lack} without the exceptions of its command ({some(self.unlike)})"] if self.unlike else []
        found += [f"{are} elsewhere than foretold ({some(self.elsewhere)})"] if self.elsewhere else []
        return ", ".join(found) or "all stands"


@dataclass(frozen=True, **SLOTS)
class GiverRound:
    """What stands round the giving of a part: what is asked before anything is given, the note of what is begun, and
    whether there is one already, whether what is given by half is taken back, and the signals.
    """

    check: Callable[[], None]
    note: BegunNote
    is_begun: bool
    is_undone: bool
    signals: GiverSignals


def by_groups(commands: Sequence[together.Command]) -> list[list[together.Command]]:
    """The commands of each group, in their order."""
    found: dict[str, list[together.Command]] = {}
    for own in commands:
        found.setdefault(own.group, []).append(own)
    return list(found.values())


class PartGiver:
    """Gives a part to a cluster."""

    def __init__(self, connection: Connection, aim: PartAim, before: together.State, round_: GiverRound) -> None:
        """Takes the connection, the part, how the cluster stands, and what stands round the giving."""
        self.connection, self.aim, self.before, self.round = connection, aim, before, round_
        self.goal = goal_of(aim.commands, before.exceptions())
        self.is_flagged, self.is_begun = before.has_flag() and round_.is_begun and round_.note.has_flag, False
        self.again, self.maps = 0, 0
        self.notes: list[str] = []

    # What is asked

    def state(self) -> together.State:
        """How the cluster stands now."""
        with ThreadPoolExecutor(together.ASKING) as threads:
            return self.connection.state(threads)

    def has_change(self, now: together.State) -> bool:
        """Whether OSDs have what they are to have."""
        has = {own["osd"]: round(own["weight"] * FULL_WEIGHT) for own in now.dump["osds"]}
        return now.crush == self.aim.crush and all(has.get(osd) == own for osd, own in self.aim.reweights.items())

    def is_as_it_was(self, now: together.State) -> bool:
        """Whether nothing of the part is there."""
        has, was = now.exceptions(), self.before.exceptions()
        osds = [{own["osd"]: own["weight"] for own in one.dump["osds"]} for one in (now, self.before)]
        is_same = all(has.get(group, NOTHING) == was.get(group, NOTHING) for group in self.goal)
        return is_same and now.crush == self.before.crush and osds[0] == osds[1]

    def compared(self, now: together.State) -> PartStanding:
        """How the cluster stands beside the part."""
        has, alive = now.exceptions(), now.up() & self.before.up()
        erasure = erasure_pools_of(now.dump)
        elsewhere = [
            group
            for group, wanted in self.aim.sets.items()
            if is_elsewhere(now.sets.get(group), wanted, alive, group.split(".")[0] in erasure)
        ]
        unlike = [group for group, own in self.goal.items() if has.get(group, NOTHING) != own]
        return PartStanding(unlike, elsewhere, self.has_change(now), self.is_as_it_was(now))

    # What is given

    def ask_all(self, commands: Sequence[together.Command]) -> None:
        """Gives the commands of a group, one after the other."""
        for own in commands:
            self.connection.ask(own.words())

    def give_commands(self, commands: Sequence[together.Command]) -> None:
        """Gives commands, those of different groups at once. A Stop for the first that is refused."""
        groups = by_groups(commands)
        threads = ThreadPoolExecutor(min(len(groups), MOST_AT_ONCE) or 1)
        waits: list[Future[None]] = []
        try:
            with together.postponed_signals():
                waits += [threads.submit(self.ask_all, own) for own in groups]
            wait(waits)
        finally:
            # Whatever ends this: only behind the answers it is known what stands.
            for own in waits:
                own.cancel()
            threads.shutdown(True)
        for own in waits:
            own.result()

    def set_flag(self) -> None:
        """Keeps data where it is, and notes what is begun."""
        is_set = self.aim.is_stage and not self.before.has_flag()
        self.is_begun = True
        put_note(self.connection, replace(self.round.note, has_flag=is_set or self.is_flagged))
        if is_set:
            self.is_flagged = True
            self.connection.ask({"prefix": "osd set", "key": FLAG})

    def unset_flag(self) -> None:
        """Lets data move again, where that was kept back here: nothing is by half."""
        if self.is_flagged:
            self.connection.ask({"prefix": "osd unset", "key": FLAG})
            self.is_flagged = False
        if self.is_begun or self.round.is_begun:
            drop_note(self.connection)

    def stop_balancer(self) -> None:
        """Turns Ceph's balancer off, where a manager is there that has one."""
        if self.connection.has_manager():
            self.connection.manager(BALANCER_OFF)
        else:
            self.notes.append("no manager answers, whose balancer is to be off")

    def give_all(self) -> None:
        """Gives the change, and the commands behind it. A Stop where something is refused."""
        self.round.check()
        self.stop_balancer()
        epoch = self.connection.epoch()
        self.set_flag()
        for own in self.aim.change:
            self.connection.ask(own)
        self.round.check()
        self.give_commands(self.aim.commands)
        self.maps = self.connection.epoch() - epoch

    def back(self, now: together.State, goal: Mapping[str, together.Given]) -> list[together.Command]:
        """The commands that give groups the exceptions that they are to have and have not."""
        has = now.exceptions()
        return [own for group, to in goal.items() for own in back_of(group, to, has.get(group, NOTHING))]

    def finish(self, now: together.State) -> None:
        """Gives what does not stand once more."""
        if not self.has_change(now):
            for own in self.aim.change:
                self.connection.ask(own)
            now = self.state()
        missing = self.back(now, self.goal)
        self.again += len(missing)
        self.give_commands(missing)

    def take_back(self, now: together.State) -> None:
        """Takes back what was given."""
        for own in self.aim.back if not self.is_as_it_was(now) else []:
            self.connection.ask(own)
        was = self.before.exceptions()
        self.give_commands(self.back(self.state(), {group: was.get(group, NOTHING) for group in self.goal}))

    # All of it

    def why_not(self) -> str:
        """Gives all: why not all was given, or nothing where it was."""
        try:
            with self.round.signals.ending():
                self.give_all()
        except (Stop, Fault) as fault:
            return str(fault)
        except BaseException as fault:  # A signal, or what nobody has foreseen: how the cluster stands is told first.
            return repr(fault) if isinstance(fault, Exception) else INTERRUPTED
        return ""

    def mended(self, is_undone: bool) -> PartStanding:
        """How the cluster stands once the rest is given, or what was given is taken back."""
        now = self.state()
        found = self.compared(now)
        if self.is_begun and not found.is_done:
            # What is refused again is told by how the cluster stands.
            with contextlib.suppress(Stop):
                if is_undone:
                    self.take_back(now)
                else:
                    self.finish(now)
            found = self.compared(self.state())
        if found.is_done or found.is_as_it_was:
            self.unset_flag()
        return found

    def give(self) -> str:
        """Gives the part, and tells in a line what stands. A Stop where that is not all of it, with how the cluster
        stands.
        """
        why = self.why_not()
        try:
            found = self.mended(self.round.is_undone and bool(why))
        except Stop as fault:
            kept = f"; {FLAG} is left set" if self.is_flagged else ""
            raise Stop(f"{why and why + '; '}how the cluster stands is not known: {fault}{kept}") from None
        if not found.is_done:
            told = "the cluster is as it was" if found.is_as_it_was else found.words()
            told += f"; {FLAG} is left set" if self.is_flagged else ""
            raise Stop("; ".join([why or "not all stands", told, *self.notes]))
        if why:
            self.notes.append("a signal came meanwhile" if why == INTERRUPTED else why)
        again = f", {self.again} given once more" if self.again else ""
        made = f"in {counted(self.maps, 'map')}" if self.maps > 0 else "given"
        count = counted(len(self.aim.change) + len(self.aim.commands), "command")
        told = "all groups are where it was foretold"
        return "; ".join([f"{count} {made}{again}", told, *self.notes])
