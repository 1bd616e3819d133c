"""Picks between two straw2 items that turn where a logarithm is one more or one less, over all entries of the tables.

The first of two items is picked where its quotient is not above the other's. Where its weight divides how far it falls
short, the quotient is one less as soon as the logarithm is one more; the other's weight makes up a quotient that lies
between the two. So an entry by which a logarithm would be another turns a pick. Each map has up to 32 pools of one
group, each over a bucket of its own; together they read each entry of the tables that 100 of the 65,536 numbers or more
read, once for each side.
"""

from __future__ import annotations

import collections
from collections.abc import Iterator

from tests import model
from tests.cases import RowCase
from tests.clusters import Json
from tests.rows import written
from tests.runs import Run
from tests.whole_maps import map_of, osd_of, pool_of, rule_of

# Of each pool the items of its bucket, with their weights.
Items = dict[int, list[list[int]]]
# Items of one pool are those of one remainder, so that no item stands in a map twice.
ITEMS, POOLS = 1024, 32
# The upper half of all numbers fall short by no more; the tables are read for them as for the lower half, and divisors
# are sooner found.
MOST = 2**44


def shortfall(x: int, item: int) -> int:
    """How far the straw of an item of weight 1 falls short, for the first place of a group."""
    return model.shortfall(item, 1, x, 0)


def entries(number: int) -> set[tuple[str, int]]:
    """The places in the two tables that a logarithm reads."""
    scaled = number + 1 << max(0, 16 - (number + 1).bit_length())
    place = (scaled >> 8) - 128
    return {("RH_LH", place), ("LL", (scaled * model.TABLES["RH_LH"][2 * place] >> 48) % 256)}


def weights(greater: int, others: list[int]) -> tuple[int, int, int] | None:
    """The place of one of some other items and the weights of the two by which the first item is picked where it falls
    short by one less than `greater`, and no more where by that; None where none are near."""
    least = max(2, greater // 2**31 + 1)
    for quotient in (quotient for quotient in range(least, 2 * least + 1000) if greater % quotient == 0):
        for place, other in enumerate(others):
            first, second = greater // quotient, other // (quotient - 1)
            if second and other // second == quotient - 1 and first + second < 2**32:
                return place, first, second
    return None


def case(pool: int, is_more: bool, wanted: set[tuple[str, int]]) -> tuple[list[list[int]], set[tuple[str, int]]] | None:
    """A bucket for a pool whose first item reads a wanted entry, and the entries; None where there is none."""
    x, own = model.hash2(0, pool), range(pool % POOLS, ITEMS, POOLS)
    for first in own:
        read = entries(model.hash3(x, first, 0) % 65536)
        if wanted.isdisjoint(read):
            continue
        greater, others = shortfall(x, first) + (not is_more), [item for item in own if item != first]
        found = weights(greater, [shortfall(x, item) for item in others]) if greater <= MOST else None
        if found:
            place, *weighed = found
            return [[first, weighed[0]], [others[place], weighed[1]]], read
    return None


def cases(is_more: bool) -> Items:
    """Buckets by pools that read all entries."""
    reads = collections.Counter(entry for number in range(65536) for entry in entries(number))
    wanted, found, pool = {entry for entry, times in reads.items() if times >= 100}, {}, 0
    while wanted:
        pool += 1
        made = case(pool, is_more, wanted)
        if made:
            found[pool], read = made
            wanted -= read
    return found


def a_map(buckets: Items) -> Json:
    """The map of some pools by their buckets, which have one item after another of the remainders of the pools."""
    rules = [rule_of([["take", -1 - rule], ["choose_firstn", 0, 0], ["emit"]], rule) for rule in range(len(buckets))]
    items = sorted(item for own in buckets.values() for item, _ in own)
    made = [{"id": -1 - rule, "items": own, "kind": "straw2", "type": 1} for rule, own in enumerate(buckets.values())]
    pools = [pool_of(pool, 1, rule=rule) for rule, pool in enumerate(buckets)]
    return map_of(made, rules, pools, [osd_of(item) for item in items], max_osd=ITEMS)


def maps(is_more: bool) -> list[Json]:
    """Maps of all cases, in each of which no remainder comes twice."""
    groups: list[Items] = []
    for pool, items in cases(is_more).items():
        group = next((own for own in groups if pool % POOLS not in {other % POOLS for other in own}), None)
        if group is None:
            group = {}
            groups.append(group)
        group[pool] = items
    return [a_map(dict(sorted(group.items()))) for group in groups]


def answers(value: Json) -> tuple[list[str], list[str]]:
    """The lines that ask for each pool's group, and their answers by the model."""
    lines = [f"up {pool['id']}.0" for pool in value["pools"]]
    return lines, model.answers(value, lines)


def runs(is_more: bool) -> Iterator[Run]:
    """A run for each map."""
    for number, value in enumerate(maps(is_more), 1):
        lines, found = answers(value)
        side = "more" if is_more else "less"
        files: dict[str, str | bytes | None] = {"map": written(value), "script": "".join(line + "\n" for line in lines)}
        output = "".join(line + "\n" for line in ["session 1", *found])
        name = f"picks that turn where a logarithm is one {side}, map {number}"
        yield Run(name, files, output, arguments=["--stock", "map", "script"])


class Straw2Picks(RowCase):
    """Picks at each entry of the tables."""

    def test_one_more(self) -> None:
        """Picks that turn where a logarithm is one more."""
        self.check_runs(runs(True))

    def test_one_less(self) -> None:
        """Picks that turn where a logarithm is one less."""
        self.check_runs(runs(False))
