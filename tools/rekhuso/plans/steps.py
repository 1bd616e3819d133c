"""Steps of a plan: what is done to each group on the way from one map to another with other exceptions."""

from __future__ import annotations

from dataclasses import dataclass, field

from ..cluster.difference import exception_commands
from ..cluster.moving import coming, erasure_pools, has_moved, leaving
from ..program.answers import Up
from ..program.maps import Change, Exceptions, Map, altered, entries_of, group_key
from ..values import SLOTS
from .move_order import PairsByGroup
from .pairs import is_same


@dataclass(frozen=True, **SLOTS)
class PlanStep:
    """What is done to a group: the commands, those that take it back to the exceptions of the dump, the group's sets
    before and after, and whether its places each hold a part of their own.
    """

    group: str
    commands: list[str]
    undo: list[str]
    was: list[int | None]
    now: list[int | None]
    is_erasure: bool
    # The OSDs from which the group goes, and those to which it comes: they are asked for often.
    moved: tuple[list[int], list[int]] = field(init=False, repr=False, compare=False)

    def __post_init__(self) -> None:
        """Ask once from where to where the group goes."""
        object.__setattr__(self, "moved", (leaving(self.was, self.now, False), coming(self.was, self.now, False)))

    @property
    def pool(self) -> int:
        """The group's pool."""
        return int(self.group.split(".")[0])

    def leaves(self) -> list[int]:
        """The OSDs from which the group goes."""
        return self.moved[0]

    def comes(self) -> list[int]:
        """The OSDs to which it comes."""
        return self.moved[1]

    def places_leave(self) -> list[int]:
        """The OSDs from which places of it go; in an erasure pool one may have got another place of it."""
        return leaving(self.was, self.now, True) if self.is_erasure else self.moved[0]

    def places_come(self) -> list[int]:
        """The OSDs to which places of it come, and data."""
        return coming(self.was, self.now, True) if self.is_erasure else self.moved[1]

    def is_moving(self) -> bool:
        """Whether its data moves."""
        return has_moved(self.was, self.now, True) if self.is_erasure else bool(self.moved[0] or self.moved[1])

    def undone(self) -> PlanStep:
        """The step back."""
        return PlanStep(self.group, self.undo, self.commands, self.now, self.was, self.is_erasure)


def steps_by_pool(steps: list[PlanStep]) -> dict[int, list[PlanStep]]:
    """The steps of each pool that has some."""
    found: dict[int, list[PlanStep]] = {}
    for step in steps:
        found.setdefault(step.pool, []).append(step)
    return found


def batches(steps: list[PlanStep], most: int) -> list[list[PlanStep]]:
    """The steps in parts of at most so many commands, where those of one group stand together."""
    found: list[list[PlanStep]] = []
    count = most
    for step in steps:
        if count + len(step.commands) > most:
            found.append([])
            count = 0
        found[-1].append(step)
        count += len(step.commands)
    return found


def appended_pairs(old: Map, new: Map) -> dict[int, PairsByGroup]:
    """By pool, the pairs that each group has in the one map beyond those in the other."""
    before = dict(old.get("pg_upmap_items", []))
    found: dict[int, PairsByGroup] = {}
    for group, pairs in new["pg_upmap_items"]:
        own = pairs[len(before.get(group, [])) :]
        if own:
            found.setdefault(group_key(group)[0], {})[group] = own
    return found


def changed_groups(old: Map, new: Map) -> list[str]:
    """The groups that have other pairs in a new map than in the old one, in which they may have none."""
    kept = dict(old.get("pg_upmap_items", []))
    return [group for group, pairs in new["pg_upmap_items"] if kept.get(group) != pairs]


def in_old_order(old: Map, new: Map) -> Map:
    """A new map in which a group has its pairs in the old one's order where they are the same pairs."""
    kept: dict[str, list[list[int]]] = dict(entries_of(old, "pg_upmap_items"))
    items = [
        [group, kept[group] if is_same(kept.get(group), pairs) else pairs]
        for group, pairs in entries_of(new, "pg_upmap_items")
    ]
    return altered(new, pg_upmap_items=items)


def by_group(lines: list[str]) -> dict[str, list[str]]:
    """The commands of each group."""
    found: dict[str, list[str]] = {}
    for line in lines:
        found.setdefault(line.split(" ")[3], []).append(line)
    return found


def steps_of(value: Map, kept: Exceptions, new: Map, before: dict[str, Up], after: dict[str, Up]) -> list[PlanStep]:
    """What is done to each group on the way to another map, and what takes it back to the exceptions that act now:
    those that do nothing name OSDs that are not there, and Ceph takes no such command. `kept` is what Ceph has. The
    sets before and after are those of groups that may move.
    """
    back, steps, erasure = by_group(exception_commands(new, value)), [], erasure_pools(value["pools"])
    for group, lines in by_group(exception_commands(value, new, kept)).items():
        was = before[group].places if group in before else []
        now = after[group].places if group in after else was
        steps.append(PlanStep(group, lines, back.get(group, []), was, now, group_key(group)[0] in erasure))
    return steps


def change_by(lines: list[str]) -> Change:
    """The change that commands of a plan stand for: what goes, and what comes."""
    found: Change = {"old_upmap": [], "old_items": [], "new_upmap": [], "new_items": []}
    for line in lines:
        _, _, word, group, *numbers = line.split(" ")
        key, osds = "items" if word.endswith("-items") else "upmap", list(map(int, numbers))
        if word.startswith("rm-"):
            found[f"old_{key}"].append(group)
        else:
            pairs = [list(pair) for pair in zip(osds[::2], osds[1::2])]
            found[f"new_{key}"].append([group, pairs if key == "items" else osds])
    return found
