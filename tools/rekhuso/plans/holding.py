"""Exceptions that keep the data of groups where it is while the cluster around them changes.

What a group *has* is its mapped set before the change, as if all OSDs were up. Behind the change its rule gives another
set. The group is *held* where exceptions make of that again what it has: place by place in an erasure pool, where each
place holds a part of its own; in a replicated pool the same OSDs, and in the same order where pairs can say it. Pairs
stand in an order in which each leads to an OSD that is not in the set, or has left it by then. A group that cannot be
held so keeps as many places as Ceph's monitor lets stay.
"""

from __future__ import annotations

import math
from collections.abc import Mapping, Sequence
from dataclasses import dataclass

from ..cluster.aftermath import present_in
from ..cluster.cleanup import ExceptedGroup, explicit_of, group_fault, mapped_set
from ..cluster.cluster import Cluster
from ..cluster.entry_forms import exceptions_in, pool_of
from ..cluster.judge import Places, Reason, judge_of_cluster
from ..cluster.moving import coming, has_moved
from ..program.maps import Exceptions, Pool, entries_of, group_key
from ..values import SLOTS
from .pairs import ordered_pairs

Pairs = list[list[int]]
NOT_CHOSEN = Reason("not-chosen", "the choice of groups", "it is not among the groups that are to be held")
EMPTY = Reason("empty-place", "an empty place", "no exception leaves a place empty, or fills one")


@dataclass(frozen=True, **SLOTS)
class Way:
    """Exceptions of a group: pairs, or an explicit set, or neither."""

    pairs: Pairs
    explicit: list[int] | None


NO_WAY = Way([], None)


@dataclass(frozen=True, **SLOTS)
class Held:
    """A group behind a change: what it had, what it is to have where that is possible, the exceptions that it is
    given, the set that these lead to, and why it does not have all that it had, if it does not.
    """

    group: str
    was: list[int | None]
    wanted: list[int | None]
    way: Way
    now: list[int | None]
    why: Reason | None
    is_erasure: bool

    @property
    def is_held(self) -> bool:
        """Whether it has what it is to have."""
        return not has_moved(self.wanted, self.now, self.is_erasure)

    def lost(self) -> list[int]:
        """The OSDs to which places of it come that had another, and could not be held."""
        return coming(self.wanted, self.now, self.is_erasure)

    def filled(self) -> list[int]:
        """The OSDs to which places of it come that it lacked before, or that its pool did not have."""
        return coming(self.was, self.wanted, self.is_erasure)

    def has_other_primary(self) -> bool:
        """Whether it is held, with another OSD at the first place."""
        return self.is_held and self.now[:1] != self.wanted[:1]


def set_pairs(raw: Places, wanted: Places) -> Pairs | None:
    """Pairs that lead to the OSDs of another set in whatever order, each to its own place where that is free. None
    where these are fewer or more OSDs.
    """
    go = [at for at, osd in enumerate(raw) if osd is not None and osd not in wanted]
    come = [osd for osd in wanted if osd is not None and osd not in raw]
    if len(go) != len(come) or len(raw) != len(wanted):
        return None
    own = {at: wanted[at] for at in go if wanted[at] in come}
    rest = [osd for osd in come if osd not in own.values()]
    found: Pairs = []
    for at in go:
        was, now = raw[at], own[at] if at in own else rest.pop(0)
        if was is not None and now is not None:
            found.append([was, now])
    return found


def way_to(raw: Places, wanted: Places, is_erasure: bool) -> Way | Reason:
    """The exceptions that lead from what a rule gives to another set; or why there are none."""
    if not has_moved(raw, wanted, is_erasure):
        return NO_WAY
    pairs = ordered_pairs(raw, wanted)
    if pairs is None and not is_erasure:
        pairs = set_pairs(raw, wanted)
    if pairs is not None:
        return Way(pairs, None)
    explicit = [osd for osd in wanted if osd is not None]
    return Way([], explicit) if len(set(explicit)) == len(wanted) else EMPTY


class Holder:
    """A cluster behind a change: what its rules give, and how its monitor reads them."""

    def __init__(self, new: Cluster, raw: Mapping[str, Places]) -> None:
        """Takes the cluster, with the exceptions that it still has, and what the rule of each group gives."""
        self.judge, self.present, self.raw = judge_of_cluster(new), present_in(new), raw
        self.pools: dict[int, Pool] = {pool["pool"]: pool_of(pool) for pool in new.pools}
        self.there = set(new.osds)
        kept = exceptions_in(new.osd_dump)
        self.explicit = {entry[0]: explicit_of(entry) for entry in entries_of(kept, "pg_upmap")}
        self.items: dict[str, Pairs] = dict(entries_of(kept, "pg_upmap_items"))

    def fault(self, group: str, explicit: Places | None, pairs: Pairs) -> Reason | None:
        """Why a monitor refuses exceptions of a group, passes them over or takes them away; None where they stay."""
        pool = self.pools[group_key(group)[0]]
        for osd in [pair[1] for pair in pairs] + list(explicit or []):
            if osd is not None and osd not in self.there:
                return Reason("gone", "an OSD that is gone", f"osd.{osd} does not exist")
            if self.present.is_out(osd):
                return Reason("out", "an OSD that is out", f"osd.{osd} is out")
            if osd is not None and math.isnan(self.judge.weights(pool["rule"]).get(osd, 0.0)):
                told = f"osd.{osd} weighs 0, and so does all that the rule takes"
                return Reason("weightless", "an OSD that weighs 0", told)
        own = ExceptedGroup(explicit, pairs, self.raw[group], self.present)
        found = group_fault(group, self.pools, self.judge.pending)
        found = found or self.judge.fault(pool, own.mapped, self.present) or own.fault(pool["size"])
        if found is None and len(own.acting) < len(pairs):
            told = "one of them leads from an OSD that the rule does not give"
            return Reason("idle-pairs", "pairs that do nothing", told)
        return found

    def hold(self, group: str, was: list[int | None]) -> Held:
        """How a group is held at what it has."""
        pool, raw = self.pools[group_key(group)[0]], list(self.raw[group])
        is_erasure = pool["kind"] == "erasure"
        wanted = self.filled(pool, raw, was) if is_erasure else self.fitted(pool, raw, was)
        way = way_to(raw, wanted, is_erasure)
        if isinstance(way, Way):
            why = None if way == NO_WAY else self.fault(group, way.explicit, way.pairs)
            if why is None:
                way = self.as_it_is(group, way)
                return Held(group, was, wanted, way, self.led(group, way), None, is_erasure)
            return self.in_part(group, was, wanted, why)
        return self.in_part(group, was, wanted, way)

    def as_it_is(self, group: str, way: Way) -> Way:
        """The exceptions that a group has, where they stay and lead to the set to which others would; else the others:
        a command that changes no set is none.
        """
        own = Way(self.items.get(group, []), self.as_numbers(self.explicit.get(group)))
        if own in (way, NO_WAY) or self.led(group, own) != self.led(group, way):
            return way
        return way if self.fault(group, self.explicit.get(group), own.pairs) is not None else own

    def passed_over(self, group: str, was: list[int | None], kept: Way) -> Held:
        """A group that is not to be held, with the exceptions that a monitor leaves it."""
        is_erasure = self.pools[group_key(group)[0]]["kind"] == "erasure"
        return Held(group, was, was, kept, self.led(group, kept), NOT_CHOSEN, is_erasure)

    def led(self, group: str, way: Way) -> list[int | None]:
        """The set to which exceptions lead."""
        return mapped_set(self.raw[group], way.explicit, way.pairs, self.present)

    def fitted(self, pool: Pool, raw: Places, was: Places) -> list[int | None]:
        """What a replicated group has, as long as the sets of its pool are now: where it lacks some, with what its rule
        gives, first what the rule allows beside the others.
        """
        wanted: list[int | None] = [osd for osd in was[: pool["size"]] if osd is not None]
        more = [osd for osd in [*raw[len(was) :], *raw[: len(was)]] if osd is not None and osd not in wanted]
        while more and len(wanted) < len(raw):
            is_free = [self.judge.fault(pool, [*wanted, osd], self.present) is None for osd in more]
            wanted.append(more.pop(is_free.index(True) if True in is_free else 0))
        return wanted

    @staticmethod
    def filled(pool: Pool, raw: Places, was: Places) -> list[int | None]:
        """What an erasure group has, with what its rule gives at the places that are empty."""
        wanted = [*was[: pool["size"]], *[None] * (pool["size"] - len(was))]
        for at, osd in enumerate(raw):
            if wanted[at] is None and osd is not None:
                wanted[at] = next((own for own in [osd, *raw] if own is not None and own not in wanted), None)
        return wanted

    def in_part(self, group: str, was: list[int | None], wanted: list[int | None], why: Reason) -> Held:
        """A group of which some places stay: pair by pair those that a monitor lets stay; or as it is, where that is no
        worse.
        """
        is_erasure = self.pools[group_key(group)[0]]["kind"] == "erasure"
        way = Way(self.some_pairs(group, wanted, is_erasure), None)
        found = Held(group, was, wanted, way, self.led(group, way), why, is_erasure)
        way = Way(self.items.get(group, []), self.as_numbers(self.explicit.get(group)))
        if way == NO_WAY or self.fault(group, self.explicit.get(group), way.pairs) is not None:
            return found
        as_is = Held(group, was, wanted, way, self.led(group, way), why, is_erasure)
        return as_is if len(as_is.lost()) <= len(found.lost()) else found

    @staticmethod
    def as_numbers(places: Sequence[int | None] | None) -> list[int] | None:
        """An explicit set that stays; no set with an empty place does."""
        return None if places is None else [osd for osd in places if osd is not None]

    def some_pairs(self, group: str, wanted: Places, is_erasure: bool) -> Pairs:
        """Those pairs, one after the other, that lead to places of another set and stay."""
        raw, pairs = self.raw[group], list[list[int]]()
        if group_fault(group, self.pools, self.judge.pending) is not None:
            return pairs
        for at, osd in enumerate(wanted):
            if osd is None or osd in raw:
                continue
            for own in raw[at : at + 1] if is_erasure else [own for own in raw if own not in wanted]:
                is_free = own is not None and all(pair[0] != own for pair in pairs)
                if is_free and own is not None and self.fault(group, None, [*pairs, [own, osd]]) is None:
                    pairs.append([own, osd])
                    break
        return pairs


def exceptions_of(held: Sequence[Held]) -> Exceptions:
    """The exceptions of groups behind a change."""
    return {
        "pg_upmap": [[own.group, own.way.explicit] for own in held if own.way.explicit is not None],
        "pg_upmap_items": [[own.group, own.way.pairs] for own in held if own.way.pairs],
    }
