"""A plan, given to a cluster part by part, each in its turn: `next` says which part that is, and the script itself what
must stand before it. Nothing is kept between two runs: what the cluster has, has been given.
"""

from __future__ import annotations

import pathlib
import tempfile
from collections.abc import Mapping, Sequence
from concurrent.futures import ThreadPoolExecutor
from dataclasses import dataclass, replace

from .. import together
from ..cluster.cluster import Cluster
from ..cluster.connections import Connection
from ..cluster.group_states import GroupState, states_by_temps, states_in
from ..cluster.imports import imported
from ..cluster.judge import Places
from ..cluster.moments import moment_of
from ..cluster.sources import Source
from ..cluster.view import view_of_cluster
from ..faults import Changed, Fault, Wait
from ..files import JsonObject
from ..program.map_forms import FULL_WEIGHT
from ..together import FLAG, Stop, Words
from ..values import SLOTS
from ..words import counted
from .begun_note import BegunNote, begun_in, drop_note, is_flagged, sum_of_text
from .busy import NO_LIMIT
from .carried import PlanPart, Settings, part_in
from .drain_stages import after_all, weights_in
from .giver_signals import GiverSignals
from .guards import NO_GUARDS
from .heads import sum_of_crush
from .next_step import Carrying, NextWish, carrying_of, check_cluster, courses_of, steps_of_stage
from .own_guards import OwnBegun, why_not_its_turn
from .part_giver import GiverRound, PartAim, PartGiver
from .question import sets_of_maps

NO_MANAGER = "no manager answers, which tells where data is"


@dataclass(frozen=True, **SLOTS)
class GiveWish:
    """What is asked for: whether what is given by half is taken back; whether temporary sets alone tell where data is;
    and whether nothing is given.
    """

    is_undone: bool
    is_by_temps: bool
    is_dry: bool


@dataclass(frozen=True, **SLOTS)
class GivenPart:
    """A part that was given, or would be: its name, its commands, how many groups move by it, and what is told."""

    name: str
    commands: list[str]
    moves: int
    told: str

    def parts(self) -> JsonObject:
        """The same as JSON has it."""
        return {"name": self.name, "commands": self.commands, "moves": self.moves, "told": self.told}


@dataclass(frozen=True, **SLOTS)
class Sight:
    """A cluster as it is now: its dump, it itself as it came in, the plan on it, and what is begun of that."""

    dump: JsonObject
    cluster: Cluster
    carrying: Carrying
    note: BegunNote | None


def no_check() -> None:
    """Asks nothing, where nobody has a lock that could be lost."""


def words_of_change(part: PlanPart) -> list[Words]:
    """The commands of a part that change OSDs, as a monitor takes them."""
    found: list[Words] = [
        {"prefix": "osd crush reweight", "name": f"osd.{osd}", "weight": weight / FULL_WEIGHT}
        for osd, weight in part.weights.items()
    ]
    found += [{"prefix": "osd out", "ids": [f"osd.{osd}" for osd in part.out]}] if part.out else []
    return found + [words_of_reweight(osd, own) for osd, own in part.reweights.items()]


def words_of_reweight(osd: int, units: int) -> Words:
    """The command that gives an OSD a reweight."""
    return {"prefix": "osd reweight", "id": osd, "weight": units / FULL_WEIGHT}


def words_back(part: PlanPart, cluster: Cluster) -> list[Words]:
    """The commands that give the OSDs of a part what they have now."""
    weights, osds = weights_in(cluster), [*part.out, *part.reweights]
    found: list[Words] = [
        {"prefix": "osd crush reweight", "name": f"osd.{osd}", "weight": weights[osd] / FULL_WEIGHT}
        for osd in part.weights
    ]
    return found + [words_of_reweight(osd, round(cluster.osds[osd]["weight"] * FULL_WEIGHT)) for osd in osds]


class PlanGiver:
    """Gives the parts of a plan to a cluster."""

    def __init__(
        self, connection: Connection, parts: Sequence[PlanPart], source: Source, wish: GiveWish, signals: GiverSignals
    ) -> None:
        """Takes the connection, the plan, how dumps are taken, what is asked for, and the signals."""
        self.connection, self.parts, self.source, self.wish = connection, parts, source, wish
        self.signals, self.check = signals, no_check
        self.given: list[GivenPart] = []
        # How many parts are left, and whether they wait for data that moves.
        self.left, self.is_moving = len(parts), False

    # What is asked

    def states(self, path: str, cluster: Cluster, has_groups: bool) -> Mapping[str, GroupState]:
        """Where the data of each group is. A fault where nobody tells."""
        if has_groups:
            return states_in(path, cluster, self.source.pools is None)
        if not self.wish.is_by_temps:
            raise Wait(f"{NO_MANAGER}: --by-temps goes by the temporary sets of the map alone; nothing is given")
        return states_by_temps(cluster, sets_of_maps(view_of_cluster(cluster).maps, self.source.program))

    def sight(self) -> Sight:
        """The cluster as it is now. A fault where it is another one than that of the plan."""
        moment = moment_of(self.connection, False)
        with tempfile.TemporaryDirectory() as folder:
            path = str(pathlib.Path(folder, "now"))
            pathlib.Path(path).write_text(moment.text(), encoding="utf-8")
            try:
                cluster = imported(replace(self.source, paths=(path, path)).dumps()).cluster
                check_cluster(cluster, self.parts)
                note = begun_in(self.connection)
                self.check_turn(cluster, moment.osd_dump, note)
                states = self.states(path, cluster, moment.groups is not None)
            except Fault as fault:
                raise type(fault)(*(line.replace(path, "the cluster") for line in fault.lines)) from None
        wish = NextWish(None, NO_LIMIT, NO_GUARDS)
        carrying = carrying_of(cluster, self.parts, states, wish, self.source.program)
        return Sight(moment.osd_dump, cluster, carrying, note)

    def check_turn(self, cluster: Cluster, dump: JsonObject, note: BegunNote | None) -> None:
        """A fault where it is not the turn of the first part that is not given, by what it asks itself, or where
        another is given by half.
        """
        settings = Settings(cluster, self.parts)
        at = next((at for at in range(len(self.parts)) if not settings.is_given(at)), len(self.parts))
        texts = [part.text for part in self.parts[: at + 1]]
        if note is not None and note.sum not in map(sum_of_text, texts[-2:]):
            note.check_own("")
        if at == len(self.parts):
            return
        part = self.parts[at]
        is_begun = note is not None and note.sum == sum_of_text(part.text)
        is_ours = note is not None and note.has_flag and is_flagged(dump)
        is_out = any(key[0] == "out" and settings.has(at, key) for key in settings.given[at])
        begun = OwnBegun(is_begun, is_ours, is_out and is_begun, sum_of_crush(cluster))
        why = why_not_its_turn(part.text, dump, lambda: self.connection.told("osd dump"), begun)
        if why is not None:
            raise Changed(f"{part.name}: {why}: nothing is given")

    # What is given

    def aim(self, sight: Sight, text: str) -> PartAim:
        """What the next part brings, by the text that is to be given of it."""
        own = sight.carrying
        part = replace(part_in(self.parts[own.at].name, text), is_stage=self.parts[own.at].is_stage)
        steps = steps_of_stage(part)
        after = after_all(sight.cluster, steps) if steps else sight.cluster
        courses = courses_of(own.maps(), part.commands, self.source.program)
        sets: dict[str, Places] = {group: places for course in courses for group, places in course.after.items()}
        lines = [line for line in text.splitlines() if line.startswith("ceph ")]
        reweights = {**dict.fromkeys(part.out, 0), **part.reweights}
        commands = together.commands_among(lines)
        change, back = words_of_change(part), words_back(part, sight.cluster)
        return PartAim(part.name, part.is_stage, change, back, commands, sum_of_crush(after), reweights, sets)

    def moving(self, sight: Sight, aim: PartAim) -> int:
        """How many groups move by a part."""
        ups, erasure = sight.carrying.now.ups, sight.carrying.now.erasure
        everyone = {osd for places in [*aim.sets.values(), *(up.places for up in ups.values())] for osd in places}
        alive = {osd for osd in everyone if osd is not None}
        return sum(
            together.is_elsewhere(ups[group].places, places, alive, group in erasure)
            for group, places in aim.sets.items()
        )

    def give_part(self, sight: Sight, text: str) -> GivenPart:
        """Gives the next part, or tells what would be given."""
        aim, own = self.aim(sight, text), self.parts[sight.carrying.at].text
        lines = [line for line in text.splitlines() if line.startswith("ceph ")]
        found = GivenPart(aim.name, lines, self.moving(sight, aim), "nothing of it is given yet")
        if self.wish.is_dry:
            return found
        with ThreadPoolExecutor(together.ASKING) as threads:
            before = self.connection.state(threads)
        if before.dump["epoch"] != sight.dump["epoch"]:
            raise Wait(f"{aim.name}: a map was made meanwhile: nothing is given; try again")
        note, is_begun = BegunNote(sum_of_text(own), aim.name, False), sight.note is not None
        round_ = GiverRound(self.check, sight.note or note, is_begun, self.wish.is_undone, self.signals)
        try:
            return replace(found, told=PartGiver(self.connection, aim, before, round_).give())
        except Stop as fault:
            raise Fault(f"{aim.name}: {fault}") from None

    def end_begun(self, sight: Sight) -> bool:
        """Whether a giver ended behind all of a part, and what it had left is put away now: norebalance is unset, if it
        had set that, and the note is gone.
        """
        at = sight.carrying.at
        if self.wish.is_dry or sight.note is None or at == 0 or sight.note.sum != sum_of_text(self.parts[at - 1].text):
            return False
        part, count = self.parts[at - 1], len(sight.carrying.now.moving)
        self.check()
        if part.is_stage and count:
            told = f"all of it stands, and {counted(count, 'group')} {'is' if count == 1 else 'are'} under way"
            raise Fault(f"{part.name}: {told}; {FLAG} is left as it is")
        told = "all of it stood already"
        if sight.note.has_flag and is_flagged(sight.dump):
            self.connection.ask({"prefix": "osd unset", "key": FLAG})
            told += f"; {FLAG} is unset"
        drop_note(self.connection)
        self.given.append(GivenPart(part.name, [], 0, told))
        return True

    def step(self) -> str:
        """The same as `part_step`; where it ends with a fault, what was given before is told first."""
        try:
            return self.part_step()
        except Fault as fault:
            raise type(fault)(*(f"{own.name}: {own.told}" for own in self.given), *fault.lines) from None

    def part_step(self) -> str:
        """Gives the next part, if one may be given now: nothing where it was given and the next may come, and else why
        no more is given: all is given, or what is under way comes first.
        """
        sight = self.sight()
        if self.end_begun(sight):
            return ""
        own = sight.carrying
        self.left, self.is_moving = len(self.parts) - own.at, False
        if not self.left:
            return self.done_words(own)
        text = own.text()
        if not text:
            self.is_moving = True
            count = counted(len(own.moving_before(own.at)), "group")
            return f"{self.parts[own.at].name} comes once {count} of the parts before it have moved"
        found = self.give_part(sight, text)
        self.given.append(found)
        if self.wish.is_dry:
            return "nothing is given, as --dry-run asks"
        self.left -= 1
        if not self.left:
            return "all is given"
        if self.signals.has_come:
            return "a signal came: no further part is given"
        if found.moves and self.wish.is_by_temps:
            return "the next part comes once the groups of this one have moved"
        return ""

    def done_words(self, own: Carrying) -> str:
        """That all is given, and what still moves."""
        return "all is given" + (f"; {counted(len(own.now.moving), 'group')} under way" if own.now.moving else "")
