"""The commands that a script prints, judged by the proved program before the script is put out.

The text is read back, and nothing of what made it is asked. Its commands go as changes, one by one and in their order,
to a session of their own over each map that they were made for, with all OSDs up. Nothing is put out unless the program
accepts each of them, says of every exception at the end that Ceph's monitor leaves it, and has each group where it is
told to be: one that no command names where it was. No set gets shorter, the counts of the OSDs that a command names are
those that the sets come to, and no OSD passes the bounds of its part.
"""

from __future__ import annotations

from collections.abc import Mapping, Sequence
from dataclasses import dataclass
from enum import Enum
from itertools import chain

from ..cluster.names import set_words
from ..faults import DEFECT, Misjudged
from ..program.maps import Map, Program, group_key
from ..running import doing
from ..values import SLOTS
from .bounds import Measure
from .courses import Course, Play, excepted_in
from .printed_commands import PrintedCommand, commands_in, defect


class Asked(Enum):
    """Of which groups Ceph's monitor is to leave all exceptions: of all; of those that commands name; or of none, as
    where a compat weight set is in force, which a map has in place of the weights by which a monitor judges.
    """

    ALL = 1
    NAMED = 2
    NONE = 3


def cut_into(commands: list[PrintedCommand], lengths: Sequence[int]) -> list[list[PrintedCommand]]:
    """The commands of one script in parts of so many; what is left over is one more."""
    found, at = [], 0
    for length in lengths:
        found.append(commands[at : at + length])
        at += length
    return [*found, commands[at:]]


@dataclass(frozen=True, **SLOTS)
class Printed:
    """What printed commands are judged by: the maps for which they were made, the program, where some groups are to be
    in the end (all others where they were), by what OSDs are full, without which no OSD has a bound, the OSDs that are
    down, which stand in no set that is wanted; and of which groups the exceptions are to stay.
    """

    maps: Sequence[Map]
    program: Program
    wanted: Mapping[str, Sequence[int | None]]
    measure: Measure | None
    down: frozenset[int]
    asked: Asked

    def courses(self, commands: Sequence[PrintedCommand], maps: Sequence[Map]) -> list[Course]:
        """The courses of commands over some maps. A fault for a command of no map."""
        pools = {pool["id"]: pool["pg_num"] for value in maps for pool in value["pools"]}
        for command in commands:
            pool, number = group_key(command.group)
            if number >= pools.get(pool, 0):
                raise defect(command.line, "there is no such group")
        found = []
        for value in maps:
            numbers = {pool["id"] for pool in value["pools"]}
            own = [command for command in commands if group_key(command.group)[0] in numbers]
            found.append(Course(value, own, self.program))
        return found

    def as_up(self, places: Sequence[int | None], is_erasure: bool) -> list[int | None]:
        """What OSDs that are down leave of a set."""
        if not self.down:
            return list(places)
        if is_erasure:
            return [None if osd in self.down else osd for osd in places]
        return [osd for osd in places if osd not in self.down]

    def check_ends(self, course: Course, last: Mapping[str, str], wanted: Mapping[str, Sequence[int | None]]) -> None:
        """A fault where a group of a map ends elsewhere than it is told to be."""
        for group, places in course.after.items():
            was, is_named = course.before[group], group in last or group in wanted
            if places == was and not is_named:
                continue
            is_erasure = course.is_erasure(group)
            if group not in last and places != was:
                raise Misjudged(f"{group} moves, and no command names it: {DEFECT}")
            goal = list(wanted[group]) if group in wanted else self.as_up(was, is_erasure)
            if self.as_up(places, is_erasure) != goal:
                words = f"{set_words(places)} and not {set_words(goal)}"
                raise defect(last.get(group, "no command"), f"the set of {group} is then {words}")

    def check_left(self, course: Course, last: Mapping[str, str]) -> None:
        """A fault where Ceph's monitor would not leave an exception, of a group that commands name or of any."""
        for group, what in course.left.items():
            is_asked = self.asked is Asked.ALL or self.asked is Asked.NAMED and group in last
            if what != "all" and is_asked:
                verb = "takes its exceptions away" if what == "gone" else "takes some of its pairs away"
                raise defect(last.get(group, "no command"), f"Ceph's monitor {verb}, those of {group}")

    @staticmethod
    def check_same(course: Course, last: Mapping[str, str], wanted: Mapping[str, list[object]]) -> None:
        """A fault where a group of a map has other exceptions in the end than are wanted."""
        found = excepted_in(course.last)
        for group in course.groups:
            if found.get(group) != wanted.get(group):
                raise defect(last.get(group, "no command"), f"{group} has other exceptions then than before")

    def check(self, parts: Sequence[Sequence[PrintedCommand]]) -> list[Map]:
        """A fault where the commands, part by part, are not what they should be; the maps after them."""
        commands = list(chain.from_iterable(parts))
        last = {own.group: own.line for own in commands}
        courses = self.courses(commands, self.maps)
        Play(courses, self.down).play(parts, self.measure)
        for own in courses:
            self.check_ends(own, last, self.wanted)
            self.check_left(own, last)
        return [own.last for own in courses]

    def check_undo(self, commands: Sequence[PrintedCommand], after: Sequence[Map]) -> None:
        """The same of commands that take others back: over the maps after those, and where none of them was given, all
        exceptions and sets are then as they were.
        """
        exceptions = {group: own for value in self.maps for group, own in excepted_in(value).items()}
        last = {own.group: own.line for own in commands}
        goal: dict[str, list[int | None]] = {}
        for maps in (self.maps, after):
            for course in self.courses(commands, maps):
                for group, places in course.before.items():
                    goal.setdefault(group, self.as_up(places, course.is_erasure(group)))
                self.check_ends(course, last, goal)
                self.check_same(course, last, exceptions)

    def check_scripts(
        self, scripts: Sequence[str], lengths: Sequence[int], undo: Sequence[str], others: Sequence[str] = ()
    ) -> None:
        """A fault where scripts, and those that take them back, are not what they should be. One script has parts of so
        many commands; of several each is a part. Others are lines that the scripts may have beside commands.
        """
        doing("the program judges the commands")
        read = [commands_in(text, others) for text in scripts]
        after = self.check(read if len(read) > 1 else cut_into([*chain.from_iterable(read)], lengths))
        if undo:
            self.check_undo([*chain.from_iterable(commands_in(text, others) for text in undo)], after)
