"""How many places of a pool its rule can give OSDs: their reach.

A share by weight may be out of reach: of three hosts a pool of size 3 has one place of each group on each, whatever
these weigh. At each choose step, which looks for k items of a type below a bucket, the items there get p = min(1, c *
w), for the one c by which these come to k, or to as many as there are that weigh anything; w is what the OSDs below an
item weigh, weight times reweight. A `chooseleaf` shares its item's places among the OSDs below it, by weight. An OSD's
reach is the groups of the pool times the product of the p on its way down. Where every p is below 1 it is its share by
weight. Of several blocks it is their sum, where they share no OSD.

A group that CRUSH has left short, with fewer places than its rule looks for, has none in some bucket that is full, and
no plan gives it one more. So where buckets are full, such groups count in these as they lie, and what they have beside
is shared by weight.
"""

from __future__ import annotations

from collections import Counter
from collections.abc import Iterator, Mapping, Sequence
from dataclasses import dataclass
from fractions import Fraction
from math import lcm, prod
from typing import NamedTuple

from ..program.maps import Bucket, RuleStep
from ..values import SLOTS

# A reach stands as a whole number of these parts of all groups, where it has no small denominator.
PARTS, EXACT = 1 << 40, 1 << 64


@dataclass(frozen=True, **SLOTS)
class Full:
    """A bucket of a type that has so many places of each group and can have no more, and for how many it weighs."""

    bucket: int
    kind: int
    places: int
    wanted: float


def filled(weights: Mapping[int, int], count: int) -> dict[int, Fraction]:
    """What part of the groups each of some items gets, of which a step looks for so many: by weight, at most 1."""
    found = dict.fromkeys(weights, Fraction(0))
    left = sorted((item for item, own in weights.items() if own), key=lambda item: (-weights[item], item))
    rest, total = min(count, len(left)), sum(weights.values())
    for at, item in enumerate(left):
        if rest * weights[item] < total:
            found.update({other: Fraction(rest * weights[other], total) for other in left[at:]})
            break
        found[item], rest, total = Fraction(1), rest - 1, total - weights[item]
    return found


def blocks_of(steps: list[RuleStep]) -> Iterator[tuple[int, list[RuleStep]]]:
    """What each block of a rule takes, and its choose steps."""
    root, own = 0, list[RuleStep]()
    for step in steps:
        if step[0] == "take":
            root, own = step[1], []
        elif step[0].startswith("choose"):
            own.append(step)
        elif step[0] == "emit":
            yield root, own


class Reach:
    """What a block of a rule gives OSDs, of pools of a size: which part of the groups, and which buckets are full."""

    def __init__(self, buckets: Mapping[int, Bucket], weights: Mapping[int, int], size: int) -> None:
        """Takes the buckets, what the OSDs weigh that may have groups, and how many places a group has."""
        self.buckets, self.weights, self.size = buckets, weights, size
        self.kept: dict[int, int] = {}
        self.full: list[Full] = []
        self.found: dict[int, Fraction] = {}

    def weight(self, item: int) -> int:
        """What the OSDs at or below an item weigh."""
        if item >= 0:
            return self.weights.get(item, 0)
        if item not in self.kept:
            self.kept[item] = sum(self.weight(one) for one, _ in self.buckets[item]["items"])
        return self.kept[item]

    def of_type(self, item: int, kind: int) -> Iterator[int]:
        """The items of a type below a bucket; an item that is of the type itself."""
        if (0 if item >= 0 else self.buckets[item]["type"]) == kind:
            yield item
        elif item < 0:
            for one, _ in self.buckets[item]["items"]:
                yield from self.of_type(one, kind)

    def count(self, step: RuleStep) -> int:
        """How many items a step looks for."""
        number: int = step[1]
        return min(number, self.size) if number > 0 else max(self.size + number, 0)

    def items(self, root: int, step: RuleStep) -> tuple[dict[int, int], dict[int, Fraction]]:
        """What the items below a bucket weigh for which a step looks, and what part of its groups each gets."""
        weights = {item: self.weight(item) for item in self.of_type(root, step[2])}
        return weights, filled(weights, self.count(step))

    def leaves(self, item: int, part: Fraction) -> dict[int, Fraction]:
        """A part of the groups, shared among the OSDs below an item by weight."""
        weights = {osd: self.weight(osd) for osd in self.of_type(item, 0)}
        total = self.weight(item)
        parts = {weight: part * weight / total for weight in set(weights.values())}
        return {osd: parts[weight] for osd, weight in weights.items()}

    def given(self, root: int, steps: list[RuleStep], part: Fraction) -> dict[int, Fraction]:
        """What steps give the OSDs below a bucket that has a part of the groups."""
        step, more = steps[0], steps[1:]
        (weights, parts), found = self.items(root, step), dict[int, Fraction]()
        self.keep_full(weights, parts, steps)
        for item, own in parts.items():
            if own:
                found.update(self.given(item, more, part * own) if more else self.leaves(item, part * own))
        return found

    def keep_full(self, weights: Mapping[int, int], parts: Mapping[int, Fraction], steps: list[RuleStep]) -> None:
        """Keeps the buckets that have all they can have of each group, and weigh for more or for less."""
        total, count = sum(weights.values()), sum(parts.values())
        places = prod(map(self.count, steps[1:]))
        for item, own in parts.items():
            if own == 1 and item < 0 and count * weights[item] != total:
                wanted = float(places * count * weights[item] / total)
                self.full.append(Full(item, self.buckets[item]["type"], places, wanted))

    def lying(
        self, root: int, steps: list[RuleStep], places: Fraction, counts: Mapping[int, int]
    ) -> dict[int, Fraction]:
        """How many places steps give the OSDs below a bucket that has some of groups left short, of which OSDs have so
        many: full buckets as these lie, the others the rest by weight.
        """
        step, more = steps[0], steps[1:]
        (weights, parts), found = self.items(root, step), dict[int, Fraction]()
        there = {item: sum(counts.get(osd, 0) for osd in self.of_type(item, 0)) for item in weights}
        scale = places / (sum(there.values()) or 1)
        own = {item: there[item] * scale for item, part in parts.items() if part == 1}
        free = {item: weight for item, weight in weights.items() if weight and item not in own}
        rest, total = places - sum(own.values(), Fraction(0)), sum(free.values())
        own.update({item: rest * weight / total for item, weight in free.items()})
        for item, count in own.items():
            found.update(self.lying(item, more, count, counts) if more else self.leaves(item, count))
        return found

    def parts_beside(self, root: int, steps: list[RuleStep], sets: Sequence[set[int]]) -> dict[int, int] | None:
        """What a block gives the OSDs that weigh something, of a pool whose groups lie so, in parts of all places; None
        where no group is short.
        """
        count, none = int(sum(self.found.values())), Fraction(0)
        short = [own for own in sets if len(own) < count]
        if not short:
            return None
        counts = Counter(osd for own in short for osd in own)
        lying, whole = self.lying(root, steps, Fraction(sum(counts.values())), counts), len(sets) - len(short)
        return self.in_units({osd: whole * self.found.get(osd, none) + lying.get(osd, none) for osd in self.weights})

    def in_units(self, found: Mapping[int, Fraction]) -> dict[int, int]:
        """Parts of OSDs that weigh something as whole numbers of one unit."""
        exact = lcm(*{own.denominator for own in found.values()})
        unit = exact if exact <= EXACT else PARTS
        return {osd: int(found.get(osd, 0) * unit) for osd in self.weights}

    def parts(self, root: int, steps: list[RuleStep]) -> dict[int, int]:
        """What a block gives the OSDs that weigh something: as they weigh where it is that, else in parts of all
        groups.
        """
        found = self.found = self.given(root, steps, Fraction(1)) if root < 0 and steps else {}
        # OSDs that weigh the same below one bucket have the same part, which is reckoned with once.
        parts, counts = {id(own): own for own in found.values()}, Counter(map(id, found.values()))
        whole, total = sum((own * counts[at] for at, own in parts.items()), Fraction(0)), sum(self.weights.values())
        none = Fraction(0)
        alike = {(id(own), weight): own for osd, weight in self.weights.items() for own in [found.get(osd, none)]}
        if all(own * total == whole * weight for (_, weight), own in alike.items()):
            self.full.clear()
            return dict(self.weights)
        return self.in_units(found)


class ReachByRule(NamedTuple):
    """What a rule can give the trees of OSDs of a pool of a size, in place of their weights; the buckets that are full
    then; and of each tree of one block what gives it that: the reach, what the block takes, and its choose steps.
    """

    trees: list[dict[int, int]]
    full: list[Full]
    blocks: list[tuple[Reach, int, list[RuleStep]] | None]
