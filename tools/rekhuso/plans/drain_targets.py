"""Where the groups go that lie on OSDs which are emptied.

Each place on such an OSD goes to the emptiest OSD that may have it: the one with least to its share over all pools, by
groups or where it is known by bytes; of several the one with least of the pool. An OSD may have it where it is up and
in, weighs something and is not drained itself, the rule allows the set as Ceph's monitor reads it, and exceptions lead
there that the monitor lets stay. Where no single OSD may have a place, places of what the rule gives without the
drained OSDs come in for others of the set too, as few as will do.
"""

from __future__ import annotations

from collections import Counter
from collections.abc import Iterable, Iterator, Mapping, Sequence
from dataclasses import dataclass
from itertools import combinations, permutations

from ..cluster.cluster import Cluster
from ..cluster.judge import Places, Reason
from ..cluster.moving import coming, leaving
from ..program.maps import Pool, group_key
from ..values import SLOTS
from .byte_spread import ByteShares
from .drain_stages import light_osds
from .holding import Holder, NO_WAY, Way, way_to

Set = list["int | None"]


@dataclass(frozen=True, **SLOTS)
class Emptied:
    """What is known of the OSDs once some are emptied: these; the share of each of the others that the rules can reach,
    over all pools and of each pool; what each rule gives without them; the device class of each, where places keep
    it; and what groups hold, where that is known: then the share over all pools is one of the data.
    """

    osds: frozenset[int]
    share: Mapping[int, float]
    share_of: Mapping[int, Mapping[int, float]]
    raw: Mapping[str, Places]
    classes: Mapping[int, str | None] | None
    data: ByteShares | None

    def size(self, group: str) -> float:
        """What a place of a group counts."""
        return 1.0 if self.data is None else self.data.sizes[group]

    def share_in(self, osd: int) -> float:
        """The share of an OSD over all pools."""
        return (self.share if self.data is None else self.data.share).get(osd, 0.0)


def with_place(places: Sequence[int | None], at: int, osd: int) -> Set:
    """A set with another OSD at one of its places."""
    return [*places[:at], osd, *places[at + 1 :]]


class Chooser:
    """The groups of a cluster whose OSDs are emptied, and what the OSDs have while places are given to them."""

    def __init__(self, cluster: Cluster, holder: Holder, sets: Mapping[str, Places], emptied: Emptied) -> None:
        """Takes the cluster as it is held, how its monitor reads it, the sets of its groups, and what is emptied."""
        self.holder, self.emptied = holder, emptied
        self.up = {osd for osd, own in cluster.osds.items() if own["up"] and own["weight"] > 0}
        self.up -= emptied.osds | light_osds(cluster)
        self.has: dict[int, float] = {}
        self.has_of: dict[int, Counter[int]] = {}
        for group, places in sets.items():
            self.put(group, [], places)
        self._able: dict[int, list[int]] = {}

    def put(self, group: str, was: Places, now: Places) -> None:
        """Counts a group where it goes."""
        own, size = self.has_of.setdefault(group_key(group)[0], Counter()), self.emptied.size(group)
        go, come = leaving(was, now, False), set(coming(was, now, False))
        own.subtract(go)
        own.update(come)
        for osd, more in [*((osd, -size) for osd in go), *((osd, size) for osd in come)]:
            self.has[osd] = self.has.get(osd, 0.0) + more

    def able(self, pool: Pool) -> list[int]:
        """The OSDs that may have places of a pool at all: up, in, and of some weight below what its rule takes."""
        if pool["rule"] not in self._able:
            weights = self.holder.judge.weights(pool["rule"])
            self._able[pool["rule"]] = [osd for osd in sorted(self.up) if weights.get(osd, 0.0) > 0]
        return self._able[pool["rule"]]

    def fullness(self, group: str, osd: int) -> tuple[float, float, int]:
        """How full an OSD would be with a place of a group more: to its share over all pools, and of the group's."""
        pool = group_key(group)[0]
        own, of_pool = self.emptied.share_in(osd), self.emptied.share_of.get(pool, {}).get(osd, 0.0)
        count = self.has_of.get(pool, Counter())[osd] + 1
        return (
            (self.has.get(osd, 0.0) + self.emptied.size(group)) / own if own > 0 else float("inf"),
            count / of_pool if of_pool > 0 else float("inf"),
            osd,
        )

    def emptiest(self, group: str, osd: int, places: Places) -> list[int]:
        """The OSDs that may have a place of a group on an OSD, the emptiest first."""
        classes, pool = self.emptied.classes, self.holder.pools[group_key(group)[0]]
        found = (own for own in self.able(pool) if own not in places)
        kept = (own for own in found if classes is None or classes.get(own) == classes.get(osd))
        return sorted(kept, key=lambda own: self.fullness(group, own))

    def way(self, group: str, places: Set, is_erasure: bool) -> Way | Reason:
        """The exceptions that lead a group to a set and stay; or why there are none."""
        found = way_to(list(self.holder.raw[group]), places, is_erasure)
        if isinstance(found, Reason) or found == NO_WAY:
            return found
        why = self.holder.fault(group, found.explicit, found.pairs)
        return found if why is None else why

    def way_of(self, group: str, places: Set) -> Way | None:
        """The exceptions that lead a group to a set and stay, if there are any."""
        found = self.way(group, places, self.holder.pools[group_key(group)[0]]["kind"] == "erasure")
        return found if isinstance(found, Way) else None

    def is_allowed(self, group: str, places: Set) -> bool:
        """Whether a set may be had by a group: by exceptions that stay, or while some of it still lies on OSDs that are
        emptied, by the rule.
        """
        pool = self.holder.pools[group_key(group)[0]]
        if all(osd not in self.emptied.osds for osd in places):
            return self.way_of(group, places) is not None
        return self.holder.judge.fault(pool, places, self.holder.present) is None

    def replaced(self, group: str, was: Set) -> Set | None:
        """The set of a group where each place on an OSD that is emptied has gone to the emptiest that may have it; None
        where one has nowhere to go by itself.
        """
        now = list(was)
        for at, osd in enumerate(was):
            if osd is None or osd not in self.emptied.osds:
                continue
            ranked = (with_place(now, at, own) for own in self.emptiest(group, osd, now))
            found = next((places for places in ranked if self.is_allowed(group, places)), None)
            if found is None:
                return None
            now = found
        return now

    def mixed(self, group: str, was: Set) -> Iterator[Set]:
        """Sets that have some places of what the rule gives without the drained OSDs, the fewest first."""
        raw, is_erasure = list(self.emptied.raw[group]), self.holder.pools[group_key(group)[0]]["kind"] == "erasure"
        gone = [at for at, osd in enumerate(was) if osd in self.emptied.osds]
        come = [osd for osd in raw if osd is not None and osd not in was]
        others = [at for at in range(len(was)) if at not in gone]
        for count in range(len(others) + 1):
            for more in combinations(others, count):
                ats = sorted([*gone, *more])
                own = [[raw[at] for at in ats]] if is_erasure else permutations(come, len(ats))
                for osds in own:
                    now = list(was)
                    for at, osd in zip(ats, osds):
                        now[at] = osd
                    yield now

    def target(self, group: str, was: Set) -> Set | None:
        """Where a group goes; None where there is no such set."""
        found = self.replaced(group, was)
        if found is None:
            fits = (now for now in self.mixed(group, was) if None not in now and len(set(now)) == len(now))
            found = next((now for now in fits if self.is_allowed(group, now)), None)
        if found is not None:
            self.put(group, was, found)
        return found

    def hindrance(self, group: str, was: Set) -> Reason:
        """Why a place of a group has nowhere to go: what most of the OSDs find that might have it."""
        pool, faults = self.holder.pools[group_key(group)[0]], list[Reason]()
        at = next(at for at, osd in enumerate(was) if osd in self.emptied.osds)
        for osd in self.able(pool):
            if osd not in was:
                places = with_place(was, at, osd)
                why = self.holder.judge.fault(pool, places, self.holder.present)
                found = why or self.way(group, places, pool["kind"] == "erasure")
                faults += [found] if isinstance(found, Reason) else []
        if not faults:
            return Reason(
                "no-osd", "no OSD is left", "no other OSD is up, in, of some weight and below what the rule takes"
            )
        step = Counter(why.step for why in faults).most_common(1)[0][0]
        return next(why for why in faults if why.step == step)


def lying_on(sets: Mapping[str, Places], osds: Iterable[int]) -> dict[str, Set]:
    """The groups that have places on some OSDs, with their sets."""
    own = set(osds)
    found = {group: list(places) for group, places in sets.items() if not own.isdisjoint(places)}
    return {group: found[group] for group in sorted(found, key=group_key)}
