"""What a rule can give OSDs, by its definition, in fractions: a model beside the tools."""

from __future__ import annotations

from collections.abc import Iterable, Mapping
from fractions import Fraction

from tests.clusters import Json
from tests.whole_maps import steps_for


def filled(weights: Mapping[int, int], count: int) -> dict[int, Fraction]:
    """What part of the groups each of some items gets by weight, at most all, of which a step looks for so many."""
    full: set[int] = set()
    there = {item: weight for item, weight in weights.items() if weight}
    while True:
        left, whole = min(count, len(there)) - len(full), sum(there[item] for item in there if item not in full)
        more = {item for item, weight in there.items() if item not in full and left * weight >= whole}
        if not more:
            rest = {item: Fraction(left * weight, whole) for item, weight in there.items() if item not in full}
            return {**dict.fromkeys(full, Fraction(1)), **rest}
        full |= more


class Given:
    """What a block of a rule gives OSDs of certain weights, of pools of a size."""

    def __init__(self, value: Json, weights: Mapping[int, int], size: int) -> None:
        self.buckets = {bucket["id"]: bucket for bucket in value["buckets"]}
        self.weights, self.size = weights, size

    def weight(self, item: int) -> int:
        """What an item weighs."""
        if item >= 0:
            return self.weights.get(item, 0)
        return sum(self.weight(one) for one, _ in self.buckets[item]["items"])

    def of_type(self, item: int, kind: int) -> list[int]:
        """The items of a type at or below an item."""
        if (self.buckets[item]["type"] if item < 0 else 0) == kind:
            return [item]
        below = self.buckets[item]["items"] if item < 0 else []
        return [found for one, _ in below for found in self.of_type(one, kind)]

    def parts(self, item: int, steps: list[Json], part: Fraction) -> dict[int, Fraction]:
        """What choose steps give the OSDs below an item that has a part of the groups."""
        found: dict[int, Fraction] = {}
        if not steps:
            osds = {osd: self.weight(osd) for osd in self.of_type(item, 0)}
            return {osd: part * own / sum(osds.values()) for osd, own in osds.items() if own}
        (_, number, kind), *more = steps
        count = min(number, self.size) if number > 0 else self.size + number
        weights = {one: self.weight(one) for one in self.of_type(item, kind)}
        for one, own in filled(weights, count).items():
            found.update(self.parts(one, more, part * own))
        return found


def reach_of(value: Json, pool: Json, weights: Mapping[int, int]) -> list[dict[int, Fraction]]:
    """By the blocks of a pool's rule, which have no OSD in common, what each gives the OSDs below what it takes."""
    found: list[dict[int, Fraction]] = []
    steps: list[Json] = []
    given = Given(value, weights, pool["size"])
    for step in steps_for(value, pool):
        if step[0] == "take":
            root, steps = step[1], []
        elif step[0].startswith("choose"):
            steps.append(step)
        elif step[0] == "emit":
            parts = given.parts(root, steps, Fraction(1))
            found.append({osd: parts.get(osd, Fraction(0)) for osd in given.of_type(root, 0) if weights.get(osd)})
    return found


def counts_of(
    value: Json, pool: Json, weights: Mapping[int, int], sets: Iterable[Iterable[int]]
) -> dict[int, Fraction]:
    """How many places each OSD is to have of a pool whose rule has one choose step, and whose groups lie so: of whole
    groups what the rule can give, and of groups left short in full buckets what is there, beside them by weight.
    """
    (_, root), (_, number, kind), *_ = steps_for(value, pool)
    given, own = Given(value, weights, pool["size"]), [set(osds) for osds in sets]
    items = {item: given.weight(item) for item in given.of_type(root, kind)}
    parts = filled(items, number if number > 0 else pool["size"] + number)
    short = [osds for osds in own if len(osds) < sum(parts.values())]
    there = {item: sum(len(osds & set(given.of_type(item, 0))) for osds in short) for item in items}
    rest = {item: weight for item, weight in items.items() if parts[item] < 1}
    left = sum(there.values()) - sum(there[item] for item in items if item not in rest)
    found: dict[int, Fraction] = {}
    for item, part in parts.items():
        places = (len(own) - len(short)) * part
        places += Fraction(left * rest[item], sum(rest.values())) if item in rest else there[item]
        osds = {osd: given.weight(osd) for osd in given.of_type(item, 0)}
        found.update({osd: places * weight / sum(osds.values()) for osd, weight in osds.items()})
    return found
