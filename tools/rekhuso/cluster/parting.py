"""At which step the ways part of a set that the program tells and another that a cluster tells of the same group."""

from __future__ import annotations

from collections.abc import Mapping, Sequence
from dataclasses import dataclass

from ..program.answers import Up
from ..program.maps import Map, Pool, RuleStep, rule_for
from ..values import SLOTS
from .names import Names, named, step_words
from .told_sets import ToldSet

# The stages of a set before the last, with what a cluster leaves out whose set is that of a stage.
STAGES = (
    ("raw", "its exceptions: the cluster has the set without them"),
    ("explicit", "its pairs: the cluster has the set without them"),
    ("mapped", "the OSDs that are down: the cluster has the set with them"),
)


@dataclass(frozen=True, **SLOTS)
class Stages:
    """A group of a pool with its sets at each stage, as `explain` has them, by a map with names; and whether affinities
    or a named primary choose its first OSD.
    """

    value: Map
    names: Names
    pool: Pool
    sets: Mapping[str, Up]
    has_affinity: bool
    has_named: bool

    def blocks(self) -> list[list[RuleStep]]:
        """The blocks of the rule of the pool: each a take, its choose steps and an emit."""
        steps = rule_for(self.value, self.pool)["steps"]
        found: list[list[RuleStep]] = [[]]
        for step in steps:
            found[-1].append(step)
            if step[0] == "emit":
                found.append([])
        return [block for block in found if block]

    def block_at(self, place: int) -> list[RuleStep]:
        """The block that chooses a place; the last where none does."""
        blocks, end = self.blocks(), 0
        for block in blocks:
            count = 1
            for step in block:
                if "choose" in step[0] and not step[0].startswith("set_"):
                    count *= step[1] if step[1] > 0 else self.pool["size"] + step[1]
            end += count
            if place < end:
                return block
        return blocks[-1]

    def above(self, osd: int, kind: int) -> int | None:
        """The bucket of a type below which an OSD stands; the OSD itself of type 0; None where there is none."""
        parents = {item: bucket for bucket in self.value["buckets"] for item, _ in bucket["items"]}
        at = osd
        while kind and at in parents:
            if parents[at]["type"] == kind:
                return parents[at]["id"]
            at = parents[at]["id"]
        return None if kind else osd


def name_of(names: Names, item: int | None) -> str:
    """A bucket or an OSD by its name."""
    return "none" if item is None else named(names, "buckets", item) if item < 0 else f"osd.{item}"


def step_of_rule(own: Stages, place: int, here: int | None, there: int | None) -> str:
    """At which step of the rule the ways part of two OSDs at a place."""
    block = own.block_at(place)
    for step in block:
        if "choose" not in step[0] or step[0].startswith("set_"):
            continue
        last = f"step {step_words(step, own.names)}: {name_of(own.names, here)} here, {name_of(own.names, there)} there"
        if here is None or there is None:
            return last
        one, two = own.above(here, step[2]), own.above(there, step[2])
        if two is None:
            return f"step {step_words(block[0], own.names)}: {name_of(own.names, there)} does not stand below it"
        if one != two:
            return (
                f"step {step_words(step, own.names)}: {name_of(own.names, one)} here, {name_of(own.names, two)} there"
            )
    return last


def first_unlike(
    one: Sequence[int | None], two: Sequence[int | None], is_erasure: bool
) -> tuple[int, int | None, int | None]:
    """The first place at which two sets differ, and what stands there; of replicated sets the first OSDs that the other
    has not.
    """
    if is_erasure:
        at = next(at for at in range(max(len(one), len(two))) if list(one[at : at + 1]) != list(two[at : at + 1]))
        here, there = (own[at] if at < len(own) else None for own in (one, two))
        return at, here, there
    here, there = (next((osd for osd in own if osd not in other), None) for own, other in ((one, two), (two, one)))
    at = list(one).index(here) if here is not None else list(two).index(there)
    return at, here, there


def parting(own: Stages, said: ToldSet) -> str:
    """At which step the ways part, in words."""
    ours, theirs, is_erasure = own.sets["up"], said.places, own.pool["kind"] == "erasure"
    by = " (primary affinity)" if own.has_affinity else " (its named primary)" if own.has_named else ""
    if list(ours.places) == theirs:
        return f"its primary{by}: {name_of(own.names, ours.primary)} here, {name_of(own.names, said.primary)} there"
    if not is_erasure and set(ours.places) == set(theirs):
        return f"the order of its set{by}"
    for stage, words in STAGES:
        if own.sets[stage].places == theirs and ours.places != theirs:
            return words
    place, here, there = first_unlike(ours.places, theirs, is_erasure)
    if here is not None and here not in own.sets["raw"].places:
        return f"its exceptions, which lead to osd.{here}: there {name_of(own.names, there)}"
    return step_of_rule(own, place, here, there)
