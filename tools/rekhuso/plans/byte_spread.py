"""How full OSDs are by bytes where groups lie, and while parts of a plan move; beside what each is to have of the data
by the shares of its pools.
"""

from __future__ import annotations

from collections import Counter
from collections.abc import Iterable, Mapping, Sequence
from dataclasses import dataclass

from ..cluster.evenness import Spread
from ..cluster.judge import Places
from ..cluster.pool_data import Data
from ..program.answers import Up
from ..program.maps import Pool, group_key
from ..values import SLOTS
from .bounds import Measure
from .json_forms import ByteFillParts, BytePeakParts
from .steps import PlanStep

# By pool, how many places each OSD is to have.
Shares = Mapping[int, Mapping[int, float]]


@dataclass(frozen=True, **SLOTS)
class ByteShares:
    """What a place of each group holds, and the bytes that each OSD is to have."""

    sizes: dict[str, float]
    share: dict[int, float]

    def held(self, sets: Mapping[str, Places]) -> dict[int, float]:
        """The bytes that each OSD has where groups have these sets."""
        found: dict[int, float] = {}
        for group, places in sets.items():
            for osd in places:
                if osd is not None:
                    found[osd] = found.get(osd, 0.0) + self.sizes[group]
        return found

    def spread(self, sets: Mapping[str, Places]) -> Spread:
        """The same beside what each is to have."""
        return Spread(self.held(sets), self.share)

    def fill(
        self, was: Mapping[str, Places], then: Mapping[str, Places], parts: Sequence[Sequence[PlanStep]]
    ) -> ByteFill:
        """How full OSDs are while parts lead from sets to others."""
        return ByteFill(self.spread(was), self.spread(then), self.peak(was, parts))

    def peak(self, sets: Mapping[str, Places], parts: Iterable[Sequence[PlanStep]]) -> tuple[int, float] | None:
        """The OSD that gets fullest to its share of those to which places come, where all that comes in a part counts
        and nothing that goes, and how full; None where nothing comes.
        """
        has, found = self.held(sets), list[tuple[float, int]]()
        for part in parts:
            high = dict(has)
            for step in part:
                for osd in step.places_come():
                    high[osd] = high.get(osd, 0.0) + self.sizes[step.group]
                    has[osd] = has.get(osd, 0.0) + self.sizes[step.group]
                for osd in step.places_leave():
                    has[osd] = has.get(osd, 0.0) - self.sizes[step.group]
            spread = Spread(high, self.share)
            found += [(spread.ratio(osd), -osd) for step in part for osd in step.places_come()]
        ratio, osd = max(found, default=(0.0, 1))
        return None if not found else (-osd, ratio)


@dataclass(frozen=True, **SLOTS)
class ByteFill:
    """How full OSDs are by bytes before some parts and after them; and the OSD that gets fullest to its share of those
    to which places come, and how full, None where nothing comes.
    """

    before: Spread
    after: Spread
    peak: tuple[int, float] | None

    def parts(self) -> ByteFillParts:
        """The same as JSON has it."""
        peak: BytePeakParts | None = None
        if self.peak is not None:
            peak = {"osd": self.peak[0], "ratio": round(self.peak[1], 4)}
        return {"before": self.before.fill(True), "after": self.after.fill(True), "peak": peak}


def byte_shares(pools: Iterable[Pool], data: Data, sets: Mapping[str, Places], shares: Shares) -> ByteShares:
    """The bytes of the places of some pools, and what each OSD is to have of them: of each pool its part of the places,
    each of which counts as the mean of those that are there.
    """
    sizes = {group: size for pool in pools for group, size in data.group_bytes(pool).items()}
    totals: dict[int, float] = {}
    for group, places in sets.items():
        number = group_key(group)[0]
        totals[number] = totals.get(number, 0.0) + sizes[group] * sum(osd is not None for osd in places)
    share: dict[int, float] = {}
    for number, own in shares.items():
        count = sum(own.values())
        for osd, places_due in own.items():
            share[osd] = share.get(osd, 0.0) + (places_due * totals.get(number, 0.0) / count if count else 0.0)
    return ByteShares(sizes, share)


def measure_between(
    own: ByteShares | None, ends: tuple[Mapping[str, Places], Mapping[str, Places]], share: Mapping[int, float]
) -> Measure:
    """By what OSDs are full while groups go from sets to others, which are the ends: by bytes, or where nobody tells
    what pools hold, by groups and the shares of these.
    """
    if own is None:
        has, then = (dict(groups_by_osd(sets)) for sets in ends)
        return Measure(Spread(has, share), None, then, {})
    return Measure(own.spread(ends[0]), own.sizes, own.held(ends[1]), {})


def groups_by_osd(sets: Mapping[str, Places]) -> Counter[int]:
    """How many groups each OSD has."""
    return Counter(osd for places in sets.values() for osd in set(places) if osd is not None)


def places_by_group(ups: Mapping[str, Up]) -> dict[str, Places]:
    """The places of up sets."""
    return {group: up.places for group, up in ups.items()}
