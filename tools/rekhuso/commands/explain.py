"""`explain`: why a group is where it is, step by step; every set by the program."""

from __future__ import annotations

import argparse
from collections.abc import Iterable
from dataclasses import dataclass

from ..cluster.affinity import applied_words, told_affinities, with_affinity
from ..cluster.json_forms import NamedParts, PairParts
from ..cluster.names import Names, named, set_words, step_words
from ..cluster.parting import Stages
from ..cluster.primaries import with_first
from ..cluster.sources import Source
from ..cluster.view import ClusterView, view_of
from ..files import JsonObject
from ..output.json_output import put_json
from ..program.map_forms import FULL_WEIGHT, GROUP_PATTERN
from ..program.maps import (
    Program,
    altered,
    devices_in,
    entries_of,
    osd_there,
    rule_for,
    with_all_up,
    without_exceptions,
)
from ..program.questions import up_sets
from ..values import SLOTS
from ..words import counted
from .arguments import Arguments, Commands, add_json, add_map_files, add_names, set_work, source_of, usage


def group_word(word: str) -> str:
    """A word that is written as a group is; else an error of use."""
    if not GROUP_PATTERN.fullmatch(word):
        raise argparse.ArgumentTypeError(f"{word}: no group; one is written as 1.1f")
    return word


class GroupStory:
    """A group of a map, with its sets at each stage: what the rule gives, after the explicit set, after pairs, and
    without OSDs that are down.
    """

    def __init__(self, view: ClusterView, group: str, program: Program) -> None:
        """Asks the program for the sets, of which named primaries and affinities choose the primary; `Refused` where
        there is no such group.
        """
        value = view.map_of(int(group.split(".")[0]))
        self.value, self.group, self.program = value, group, program
        self.osds = {osd["id"]: osd for osd in value["osds"]}
        self.explicit: list[int] | None = dict(entries_of(value, "pg_upmap")).get(group)
        self.pairs: list[list[int]] = dict(entries_of(value, "pg_upmap_items")).get(group, [])
        up = with_all_up(value)
        stages = {"raw": without_exceptions(up), "explicit": altered(up, pg_upmap_items=[]), "mapped": up, "up": value}
        self.sets = {stage: up_sets(program, own, [group])[group] for stage, own in stages.items()}
        self.pool = next(own for own in value["pools"] if own["id"] == int(group.split(".")[0]))
        self.primaries = view.primaries(program, group)
        self.sets["up"] = self.primaries.applied({group: self.sets["up"]})[group]
        self.affinities = {osd: own for osd, own in view.affinities.items() if osd in self.sets["up"].places}
        self.sets["up"] = with_affinity(self.pool, int(group.split(".")[1], 16), self.sets["up"], self.affinities)

    def weight(self, osd: int) -> int:
        """The reweight of an OSD in units of 1/65,536, 0 where it is not there."""
        return self.osds[osd]["weight"] if osd in self.osds else 0

    def placed(self, full: Iterable[int]) -> list[int | None]:
        """What the rule gives where some OSDs have their full reweight, whatever else the OSDs are."""
        devices = devices_in(self.value) | self.osds.keys()
        weights = {**{osd: self.weight(osd) for osd in devices}, **dict.fromkeys(full, FULL_WEIGHT)}
        osds = [osd_there(osd, True, weight) for osd, weight in sorted(weights.items())]
        value = altered(without_exceptions(self.value), osds=osds, pools=[self.pool])
        return up_sets(self.program, value, [self.group])[self.group].places

    def met(self, osds: list[int], usual: list[int | None]) -> list[int]:
        """Which of some OSDs the rule meets and passes over. Where it meets one, it would take it if its reweight
        were full, and the set would be another than the usual one; where it meets none of several, the set stays. So
        halves of them are asked for.
        """
        if not osds or self.placed(osds) == usual:
            return []
        half = len(osds) // 2
        return osds if half == 0 else self.met(osds[:half], usual) + self.met(osds[half:], usual)

    def passed_over(self) -> list[int]:
        """The OSDs that the rule meets for this group and passes over as out, for a reweight of 0 or of less than 1."""
        devices = sorted(devices_in(self.value))
        return self.met([osd for osd in devices if self.weight(osd) < FULL_WEIGHT], self.placed([]))

    def passed_words(self, osd: int) -> str:
        """An OSD that was passed over, with its reweight where that is not 0."""
        weight = self.weight(osd)
        return f"osd.{osd} (reweight {weight / FULL_WEIGHT:.5f})" if weight else f"osd.{osd}"

    def idle_explicit(self) -> str | None:
        """Why the explicit set does nothing; None where it stands, or where there is none."""
        return next((f"osd.{osd} is out" for osd in self.explicit or [] if self.weight(osd) == 0), None)

    def pair_parts(self) -> list[PairParts]:
        """What each pair did, or why it did nothing; none of a group whose explicit set does nothing, as then no
        pair is looked at.
        """
        parts: list[PairParts] = []
        places = list(self.sets["explicit"].places)
        for was, now in [] if self.idle_explicit() else self.pairs:
            why = (
                f"osd.{was} does not stand in the set"
                if was not in places
                else f"osd.{now} stands there already"
                if now in places
                else f"osd.{now} is out"
                if self.weight(now) == 0
                else None
            )
            if why is None:
                places[places.index(was)] = now
            parts.append({"was": was, "now": now, "idle": why, "places": list(places)})
        return parts

    def exception_lines(self) -> list[str]:
        """What each exception did, or why it did nothing."""
        lines, idle = [], self.idle_explicit()
        if self.explicit is not None:
            lines.append(
                f"its explicit set {set_words(self.explicit)} "
                + (f"does nothing, nor do its pairs: {idle}" if idle else "stands in place of the raw set")
            )
        return lines + [
            f"its pair {own['was']} to {own['now']} "
            + (f"does nothing: {own['idle']}" if own["idle"] else f"gives {set_words(own['places'])}")
            for own in self.pair_parts()
        ]

    def named_parts(self) -> NamedParts | None:
        """What the primary that is named for the group did, or why it did nothing; None where none is named."""
        named, idle = self.primaries.osds.get(self.group), self.primaries.idle.get(self.group)
        if named is None:
            return None
        mapped = list(self.sets["mapped"].places)
        return {"osd": named, "idle": idle, "set": mapped if idle else with_first(mapped, named)}

    def named_lines(self) -> list[str]:
        """The same in a line."""
        own, mapped = self.named_parts(), self.sets["mapped"].places
        if own is None:
            return []
        what = (
            f"does nothing: {own['idle']}"
            if own["idle"]
            else "is the first already"
            if own["set"] == mapped
            else f"changes places with the first: {set_words(own['set'])}"
        )
        return [f"the primary named for it, osd.{own['osd']}, {what}"]

    def down(self) -> list[int]:
        """The OSDs that leave the set, as they are down."""
        return [osd for osd in self.sets["mapped"].places if osd is not None and not self.osds[osd]["up"]]

    def change_lines(self) -> list[str]:
        """What changed the set, a line each; or one line that nobody did."""
        passed = self.passed_over()
        lines = ["passed over as out: " + ", ".join(map(self.passed_words, passed))] if passed else []
        lines += self.exception_lines() + self.named_lines() + [f"osd.{osd} is down and leaves" for osd in self.down()]
        lines += [applied_words(self.affinities)] if self.affinities else []
        return lines or [
            "nobody has changed the set: no OSD was passed over as out, there is no exception, and no OSD of it is down"
        ]

    def stages(self, names: Names) -> Stages:
        """Its sets at each stage, to be held against another."""
        has_named = self.group in self.primaries.osds and self.group not in self.primaries.idle
        return Stages(self.value, names, self.pool, self.sets, bool(self.affinities), has_named)

    def lines(self, names: Names) -> list[str]:
        """The whole story, a line a stage."""
        pool, rule = self.pool, rule_for(self.value, self.pool)
        steps, up = "; ".join(step_words(step, names) for step in rule["steps"]), self.sets["up"]
        about = (
            f"{counted(pool['pg_num'], 'group')} of {named(names, 'pools', pool['id'])}, which is {pool['kind']} of "
            f"size {pool['size']}"
        )
        return [
            f"{self.group} is one of {about}",
            f"its rule {named(names, 'rules', rule['id'])}: {steps}",
            f"the rule gives {set_words(self.sets['raw'].places)}",
            *self.change_lines(),
            f"its up set is {set_words(up.places)}, its primary "
            + ("none" if up.primary is None else f"osd.{up.primary}"),
        ]

    def parts(self, names: Names) -> JsonObject:
        """The whole story as JSON has it: the set at each stage, and what changed it."""
        rule, up = rule_for(self.value, self.pool), self.sets["up"]
        pairs = [
            {"from": own["was"], "to": own["now"], "idle": own["idle"], "set": own["places"]}
            for own in self.pair_parts()
        ]
        explicit = None if self.explicit is None else {"set": self.explicit, "idle": self.idle_explicit()}
        return {
            "group": self.group,
            "pool": {**self.pool, "name": named(names, "pools", self.pool["id"])},
            "rule": {**rule, "name": named(names, "rules", rule["id"])},
            "raw": self.sets["raw"].places,
            "passed_over": [{"osd": osd, "reweight": self.weight(osd) / FULL_WEIGHT} for osd in self.passed_over()],
            "pg_upmap": explicit,
            "pg_upmap_items": pairs,
            "pg_upmap_primaries": self.named_parts(),
            "down": self.down(),
            "primary_affinity": told_affinities(self.affinities),
            "up": up.places,
            "up_primary": up.primary,
        }


@dataclass(frozen=True, **SLOTS)
class ExplainOptions:
    """What `explain` works on, the group, and whether it is told as JSON."""

    source: Source
    group: str
    is_json: bool


def options_of(arguments: Arguments) -> ExplainOptions:
    """The options of the command line."""
    return ExplainOptions(source_of(arguments), arguments.group, arguments.json)


def work(options: ExplainOptions) -> None:
    """Tells a group's story."""
    view = view_of(options.source)
    story = GroupStory(view, options.group, options.source.program)
    if options.is_json:
        put_json("explain", story.value["epoch"], **story.parts(view.names), **view.beside().parts())
    else:
        print("\n".join(story.lines(view.names)))


def add_to(commands: Commands) -> None:
    """The subcommand."""
    own = commands.add_parser("explain", help="why a group is where it is", description=__doc__)
    own.usage = usage("PG")
    add_map_files(own)
    own.add_argument("group", metavar="PG", type=group_word, help="the group, as 1.1f")
    add_names(own)
    add_json(own)
    set_work(own, options_of, work)
