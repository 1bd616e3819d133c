"""Maps while printed commands are given to them: what the program answers, and what is read from its answers."""

from __future__ import annotations

from collections import defaultdict
from collections.abc import Iterable, Iterator, Sequence
from itertools import chain, groupby
from typing import NamedTuple

from ..cluster.followed import MOST_CHANGES, session_over
from ..cluster.moving import coming, erasure_pools, leaving
from ..cluster.names import set_words
from ..program.answers import ups_of
from ..program.maps import Map, Program, entries_of, group_key, groups_of, with_all_up, written
from ..program.session import Session
from .bounds import Filling, Measure, Step
from .printed_commands import PrintedCommand, defect

# The places of the sets of many groups.
Sets = dict[str, "list[int | None]"]


class Given(NamedTuple):
    """A command that the program has accepted: the set of its group then, and the counts of the OSDs that it names."""

    places: list[int | None]
    counts: dict[int, int]


def excepted_in(value: Map) -> dict[str, list[object]]:
    """The exceptions of each group that has some."""
    found: dict[str, list[object]] = {}
    for key in ("pg_upmap", "pg_upmap_items"):
        for group, own in entries_of(value, key):
            found.setdefault(group, []).append([key, own])
    return found


def osds_in(own: object) -> Iterator[int]:
    """The numbers in lists."""
    if isinstance(own, int):
        yield own
    elif isinstance(own, list):
        for inside in own:
            yield from osds_in(inside)


class Course:
    """A map of printed commands, and what the program answers while it is given those of its groups."""

    def __init__(self, value: Map, commands: Sequence[PrintedCommand], program: Program) -> None:
        """Gives a map its commands. A fault for the first one that the program refuses."""
        self.first = now = with_all_up(value)
        self.erasure, self.groups = erasure_pools(value["pools"]), groups_of(value)
        self.there = {osd["id"] for osd in value["osds"] if osd["exists"]}
        self.named = {group: set(osds_in(own)) & self.there for group, own in excepted_in(value).items()}
        self.given: list[Given] = []
        self.before: Sets = {}
        for at in range(0, max(len(commands), 1), MOST_CHANGES):
            own = commands[at : at + MOST_CHANGES]
            with session_over(now, program, len(own)) as session:
                if not self.before:
                    self.before, self.counts = self.sets(session), session.counts(sorted(self.there))
                self.give(session, own)
                self.after, now = self.sets(session), session.dump()
                self.left = session.left(excepted_in(now))
        self.last = now

    def is_erasure(self, group: str) -> bool:
        """Whether the places of a group each hold a part of their own."""
        return bool(self.erasure) and group_key(group)[0] in self.erasure

    def sets(self, session: Session) -> Sets:
        """The set of each group."""
        return session.pool_sets(self.first["pools"])

    def near(self, command: PrintedCommand) -> list[int]:
        """The OSDs that a command names, and those that the group's exceptions have named before it."""
        self.named[command.group] = self.named.get(command.group, set()) | self.there.intersection(command.osds)
        return sorted(self.named[command.group])

    def give(self, session: Session, commands: Sequence[PrintedCommand]) -> None:
        """Gives some commands, and asks after each for the set of its group and for counts."""
        epoch, near = session.epoch(), list(map(self.near, commands))
        changes = written([{**own.change, "base": epoch + at} for at, own in enumerate(commands)])[2:-2].split("},{")
        lines = [
            [f"change {{{change}}}", f"up {own.group}", *[f"count {osd}" for osd in osds]]
            for change, own, osds in zip(changes, commands, near)
        ]
        answers, at, ups = session.raw(list(chain.from_iterable(lines))), 0, []
        for own, osds in zip(commands, near):
            if not answers[at].startswith("ok "):
                raise defect(own.line, f"the program refuses it ({answers[at].removeprefix('err ')})")
            ups.append(answers[at + 1])
            counts = [int(answer.split(" ")[3]) for answer in answers[at + 2 : at + 2 + len(osds)]]
            self.given.append(Given([], dict(zip(osds, counts))))
            at += 2 + len(osds)
        for given, up in zip(self.given[-len(ups) :], ups_of(ups)):
            given.places.extend(up.places)


class Play:
    """The courses of all maps, played in the order of the printed commands."""

    def __init__(self, courses: Sequence[Course], down: frozenset[int]) -> None:
        """Takes the courses, and the OSDs that are down in the cluster."""
        self.courses, self.down = courses, down
        self.course = {group: own for own in courses for group in own.groups}
        self.sets = {group: places for own in courses for group, places in own.before.items()}
        self.counts: dict[int, dict[int, int]] = {id(own): dict(own.counts) for own in courses}
        self.answers = {id(own): iter(own.given) for own in courses}

    def has(self, measure: Measure) -> dict[int, float]:
        """What the OSDs that are up have before all commands: in groups by the program's counts."""
        found: defaultdict[int, float] = defaultdict(float)
        for osd, count in chain.from_iterable(own.counts.items() for own in self.courses):
            found[osd] += count
        own = found if measure.sizes is None else measure.spread.has
        return {osd: size for osd, size in own.items() if osd not in self.down}

    def take(self, command: PrintedCommand) -> None:
        """Takes a command. A fault where a count is not what the sets come to."""
        course = self.course[command.group]
        given, was = next(self.answers[id(course)]), self.sets[command.group]
        counts = self.counts[id(course)]
        for osds, more in ((leaving(was, given.places, False), -1), (coming(was, given.places, False), 1)):
            for osd in set(osds):
                counts[osd] = counts.get(osd, 0) + more
        for osd, count in given.counts.items():
            if counts.get(osd, 0) != count:
                raise defect(command.line, f"osd.{osd} has {count} groups and not {counts.get(osd, 0)}")
        self.sets[command.group] = given.places

    def step(self, group: str, commands: Iterable[PrintedCommand], measure: Measure | None) -> Step:
        """Takes the commands of a group that stand together. A fault where its set gets shorter."""
        was, line = self.sets[group], ""
        for command in commands:
            self.take(command)
            line = command.line
        now = self.sets[group]
        if len(now) - now.count(None) < len(was) - was.count(None):
            raise defect(line, f"the set of {group} gets shorter: {set_words(was)}, then {set_words(now)}")
        is_erasure = self.course[group].is_erasure(group)
        come, go = ([osd for osd in moved(was, now, is_erasure) if osd not in self.down] for moved in (coming, leaving))
        return Step(line, come, go, 1.0 if measure is None else measure.size(group))

    def play(self, parts: Sequence[Sequence[PrintedCommand]], measure: Measure | None) -> None:
        """Takes all parts. A fault where an OSD passes the bounds of a part, if there are any."""
        fullness = None if measure is None else Filling(measure, self.has(measure))
        for part in parts:
            groups = groupby(part, key=lambda own: own.group)
            steps = [self.step(group, commands, measure) for group, commands in groups]
            found = None if fullness is None else fullness.part(steps)
            if found is not None:
                raise defect(*found)
