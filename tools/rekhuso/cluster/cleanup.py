"""What a Ceph monitor takes away of exceptions by itself.

At each new map a monitor looks at every group that has an exception (Ceph 16.2 and 18.2, OSDMap.cc `check_pg_upmaps`).
Where the set that a group gets breaks the group's rule, as the monitor reads it (`judge`), its explicit set and its
pairs go. Where a pair does nothing, that pair goes.
"""

from __future__ import annotations

from collections import Counter
from collections.abc import Iterable, Mapping, Sequence
from dataclasses import dataclass

from ..program.answers import Up
from ..program.maps import Entry, Exceptions, Map, Pool, entries_of, excepted_groups, exceptions_where, group_key
from ..program.session import Session
from ..values import SLOTS
from .judge import Judge, Places, Present, Reason, present_of

# How Ceph writes a place of a set that is empty.
NONE = 2147483647


@dataclass(frozen=True, **SLOTS)
class Cleaned:
    """What a monitor leaves: the exceptions that stay, the groups whose exceptions all go with the reason, and the
    groups of whose pairs some go.
    """

    kept: Exceptions
    gone: dict[str, Reason]
    fewer: list[str]


def mapped_set(
    raw: Places, explicit: Places | None, pairs: Iterable[Sequence[int]], present: Present
) -> list[int | None]:
    """The set of a group with its exceptions, where its rule gives `raw` (OSDMap.cc `_apply_upmap`)."""
    places = list(raw)
    if explicit is not None:
        if any(map(present.is_out, explicit)):
            return places
        places = list(explicit)
    for was, now in pairs:
        if now not in places and was in places and not present.is_out(now):
            places[places.index(was)] = now
    return places


def parent_of(number: int) -> int:
    """The number of the group that a group joins where its pool shrinks."""
    return number - (1 << number.bit_length() - 1) if number else 0


def group_fault(group: str, pools: Mapping[int, Pool], pending: Mapping[int, int]) -> Reason | None:
    """Why a group can have no exceptions, whatever its set: it is not there, it joins another, or another joins it."""
    number, own = group_key(group)
    pool = pools.get(number)
    if pool is None or own >= pool["pg_num"]:
        return Reason("no-group", "a group that is not there", "its pool has fewer groups")
    joining = range(pending.get(number, pool["pg_num"]), pool["pg_num"])
    if own in joining or own in map(parent_of, joining):
        return Reason("shrinks", "a pool that shrinks", "the group joins another, or another joins it")
    return None


def pool_of_group(group: str, present: Present) -> Pool:
    """The pool of a group, which is there."""
    return present.pools[group_key(group)[0]]


def explicit_of(entry: Entry) -> list[int | None]:
    """The places of an explicit set."""
    return [None if osd == NONE else osd for osd in entry[1]]


class ExceptedGroup:
    """A group with exceptions as a monitor looks at it: its explicit set, its pairs, and what its rule gives."""

    def __init__(self, explicit: Places | None, pairs: list[list[int]], raw: Places, present: Present) -> None:
        """Takes the exceptions and the set by the rule alone."""
        self.explicit, self.pairs, self.raw = explicit, pairs, raw
        self.mapped = mapped_set(raw, explicit, pairs, present)
        self.acting = [pair for pair in pairs if pair[0] in raw and not present.is_out(pair[1])]

    def fault(self, size: int) -> Reason | None:
        """Why exceptions that break no rule go nonetheless; None where they stay."""
        if self.explicit is not None and list(self.explicit) == list(self.raw):
            return Reason("idle-set", "an explicit set that does nothing", "it is what the rule gives")
        if self.explicit is not None and len(self.explicit) != size:
            told = f"it has {len(self.explicit)} places, and the pool's size is {size}"
            return Reason("set-length", "an explicit set of another length", told)
        if self.pairs and not self.acting:
            told = "none of them leads from an OSD that the rule gives to one that is in"
            return Reason("idle-pairs", "pairs that do nothing", told)
        return None


def cleaned(judge: Judge, present: Present, raw: Mapping[str, Places], exceptions: Exceptions) -> Cleaned:
    """What a monitor leaves of exceptions at one new map, where the rules of their groups give the sets `raw`."""
    explicit = {entry[0]: explicit_of(entry) for entry in entries_of(exceptions, "pg_upmap")}
    pairs: dict[str, list[list[int]]] = dict(entries_of(exceptions, "pg_upmap_items"))
    gone: dict[str, Reason] = {}
    left: dict[str, list[list[int]]] = {}
    for group in sorted(explicit.keys() | pairs.keys(), key=group_key):
        found = group_fault(group, present.pools, judge.pending)
        if found is None:
            own, pool = ExceptedGroup(explicit.get(group), pairs.get(group, []), raw[group], present), pool_of_group(
                group, present
            )
            found, left[group] = judge.fault(pool, own.mapped, present) or own.fault(pool["size"]), own.acting
        if found is not None:
            gone[group] = found
    kept: Exceptions = {
        "pg_upmap": [entry for entry in entries_of(exceptions, "pg_upmap") if entry[0] not in gone],
        "pg_upmap_items": [[group, left[group]] for group in pairs if group not in gone],
    }
    return Cleaned(kept, gone, [group for group in pairs if group not in gone and left[group] != pairs[group]])


# Plans


def barred(judge: Judge, value: Map, sets: Mapping[int, Sequence[Up]]) -> dict[int, Reason]:
    """Of a map's pools those in which no exception can stay, as each set that a pool has now breaks its rule as a
    monitor reads it; with the reason for the first one.
    """
    found: dict[int, Reason] = {}
    for pool in value["pools"]:
        first: Reason | None = None
        for up in sets.get(pool["id"], []):
            if None not in up.places:
                why = judge.rule_fault(pool["rule"], pool["size"], up.places)
                first = None if why is None else first or why
                if why is None:
                    break
        if first is not None:
            found[pool["id"]] = first
    return found


def going(judge: Judge, session: Session, new: Map, groups: list[str]) -> dict[str, Reason]:
    """Which of some groups have exceptions in a new map, as the session has it, that a monitor would take away, by the
    program; each with the reason as the tools read it. All OSDs of the session's map are up; these groups have no
    exceptions in it afterwards.
    """
    present, own = present_of(new), excepted_groups(new).intersection(groups)
    shrinking = {group: group_fault(group, present.pools, judge.pending) for group in groups}
    found = {group: why for group, why in shrinking.items() if why is not None}
    left = session.left(group for group in groups if group in own and group not in found)
    gone = [group for group, what in left.items() if what != "all"]
    return {**found, **reasons_of(judge, session, new, gone)} if gone else found


def reasons_of(judge: Judge, session: Session, new: Map, groups: list[str]) -> dict[str, Reason]:
    """Why a monitor takes exceptions of some groups away that they have in a new map, which have none in the session
    afterwards.
    """
    session.change(old_upmap=groups, old_items=groups)
    raw, own = {group: up.places for group, up in session.ups(groups).items()}, set(groups)
    found = cleaned(judge, present_of(new), raw, exceptions_where(new, own.__contains__))
    idle = Reason("idle-pairs", "pairs that do nothing", "some of them do nothing")
    return {group: found.gone.get(group, idle) for group in groups}


def reason_words(reasons: Iterable[Reason]) -> str:
    """The steps by which exceptions go, each with how many groups' do."""
    return ", ".join(f"{step} ({count})" for step, count in Counter(reason.step for reason in reasons).most_common())
