"""Commands on their way to a cluster: as the monitors take them, guarded by a sum, at once, and read back."""

from __future__ import annotations

import re
from collections.abc import Callable, Mapping, Sequence
from dataclasses import dataclass

from ..plans.printed_commands import FORM, command_in
from ..files import JsonObject
from ..together import commands_among, exceptions_of_dump, goal_of
from ..values import SLOTS
from .connection import CarryConnection, MonCommand, Reply
from .snapshots import Snapshot, judged_sum
from .states import MISJUDGED, Halted, Waiting

# The commands of a stage beside those on exceptions, and the one that is not given: the balancer is off already.
WEIGHT = re.compile(r"ceph osd crush reweight (osd\.[0-9]+) ([0-9.]+)")
OUT = re.compile(r"ceph osd out((?: osd\.[0-9]+)+)")
FLAG = re.compile(r"ceph osd (set|unset) (norebalance)")
NOT_GIVEN = "ceph balancer off"
# What stands in a set for no OSD.
NOBODY = (2**31 - 1, -1)


def mon_command(line: str) -> MonCommand:
    """A printed command as the monitors take it. Halted for a line that a carrier never gives."""
    weight, out, flag = WEIGHT.fullmatch(line), OUT.fullmatch(line), FLAG.fullmatch(line)
    if weight:
        return {"prefix": "osd crush reweight", "name": weight[1], "weight": float(weight[2])}
    if out:
        return {"prefix": "osd out", "ids": [word.removeprefix("osd.") for word in out[1].split()]}
    if flag:
        return {"prefix": f"osd {flag[1]}", "key": flag[2]}
    if FORM.fullmatch(line) is None:
        raise Halted("line", f"{line}: no command that is carried")
    own = command_in(line)
    found: MonCommand = {"prefix": f"osd {line.split(' ')[2]}", "pgid": own.group}
    return {**found, "id": own.osds} if own.osds else found


def is_stage(lines: Sequence[str]) -> bool:
    """Whether commands are to be given one after the other: those that change OSDs, or keep data where it is."""
    return any(FORM.fullmatch(line) is None for line in lines)


@dataclass(frozen=True, **SLOTS)
class GivenCommand:
    """A command that was given: its line, and what came of it."""

    line: str
    reply: Reply


def give_all(connection: CarryConnection, lines: Sequence[str]) -> list[GivenCommand]:
    """Gives commands at once; those of a stage in their order, up to the first that is refused."""
    own = [line for line in lines if line != NOT_GIVEN]
    if not is_stage(own):
        return [GivenCommand(*pair) for pair in zip(own, connection.give([mon_command(line) for line in own]))]
    found: list[GivenCommand] = []
    for line, command in [(line, mon_command(line)) for line in own]:
        found.append(GivenCommand(line, connection.reply(command)))
        if found[-1].reply.status:
            break
    return found


def check_guard(connection: CarryConnection, snapshot: Snapshot) -> JsonObject:
    """The OSD dump as it is now. Waiting where it is no longer what was judged."""
    dump = connection.ask("osd dump")
    if dump.get("fsid") != snapshot.osd.get("fsid"):
        raise Halted("fsid", f"another cluster answers: its fsid is {dump.get('fsid')}")
    if judged_sum(dump) != snapshot.sum:
        raise Waiting("meanwhile", "the map has changed since it was judged")
    return dump


def not_standing(lines: Sequence[str], before: JsonObject, now: JsonObject) -> list[str]:
    """The commands on exceptions whose groups have not what they give."""
    own = commands_among(lines)
    goal, has = goal_of(own, exceptions_of_dump(before)), exceptions_of_dump(now)
    groups = {group for group, wanted in goal.items() if plain(has.get(group)) != plain(wanted)}
    return [line for line in lines if FORM.fullmatch(line) and line.split(" ")[3] in groups]


def plain(own: tuple[Sequence[int] | None, Sequence[int] | None] | None) -> tuple[list[int], list[int]]:
    """The exceptions of a group, empty where it has none."""
    explicit, pairs = own or (None, None)
    return list(explicit or []), list(pairs or [])


def has_set(up: Sequence[int], wanted: Sequence[int | None], is_erasure: bool) -> bool:
    """Whether a group has the OSDs of a set, in an erasure pool each in its place."""
    own = [None if osd in NOBODY else osd for osd in up]
    return own == list(wanted) if is_erasure else {*own} - {None} == {*wanted} - {None}


def check_sets(connection: CarryConnection, now: JsonObject, after: Mapping[str, Sequence[int | None]]) -> None:
    """Halted where a group is elsewhere than it was foretold."""
    erasure = {str(pool["pool"]) for pool in now["pools"] if pool["type"] == 3}
    for group, wanted in after.items():
        up = connection.ask("pg map", pgid=group)["up"]
        if not has_set(up, wanted, group.split(".")[0] in erasure):
            raise Halted(MISJUDGED, f"{group} has {up}, and {list(wanted)} was foretold")


def read_back(
    connection: CarryConnection,
    before: JsonObject,
    given: Sequence[GivenCommand],
    after: Mapping[str, Sequence[int | None]],
) -> list[str]:
    """The commands that do not stand. Halted where a set is another than was foretold, unless something else has
    changed meanwhile.
    """
    lines = [own.line for own in given if not own.reply.status]
    now = connection.ask("osd dump")
    away = not_standing([own.line for own in given], before, now)
    groups = {line.split(" ")[3] for line in lines if FORM.fullmatch(line)} - {line.split(" ")[3] for line in away}
    is_alone = judged_sum(now, False) == judged_sum(before, False)
    try:
        check_sets(connection, now, {group: after[group] for group in sorted(groups) if group in after})
    except Halted:
        if is_alone and judged_sum(connection.ask("osd dump")) == judged_sum(now):
            raise
    return away


def first_that_fit(lines: Sequence[str], cost: Callable[[str], int], room: int) -> list[str]:
    """The first commands that cost no more than there is room, those of a group together."""
    found: list[str] = []
    for line in lines:
        room -= cost(line) if not found or found[-1].split(" ")[3] != line.split(" ")[3] else 0
        if room < 0:
            break
        found.append(line)
    return found
