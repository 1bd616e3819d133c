"""A larger map that is balanced, and what must then hold of it, reckoned from the answers alone.

Three pools lie over 40 OSDs of different weights, some of them down, out or lighter: one of copies in hosts, one of
copies in racks and then hosts, one of coded parts. The script tells all mapped sets, by `up` lines while every OSD is
up, before and after balancing, and the pairs by `dump`. From these `faults` counts the groups of each OSD and its
deviation, and finds whether the plan had fewer moves than its limit, whether each took 2T or more from the sum of the
squares of the deviations, and, over all groups and pairs of OSDs, whether some good move is left. The answers
themselves are those of model.py.
"""

from __future__ import annotations

import json
import pathlib
import tempfile

from tests import model, soak
from tests.cases import Case
from tests.clusters import Json
from tests.runs import zipped
from tests.whole_maps import map_of, osd_of, pool_of, reweights_of, rule_of

OSDS, HOSTS, RACKS, GROUPS, LIMIT = 40, 12, 4, 256, 1024
DOWN, OUT, LIGHTER = [7, 20], [12], {3: 32768, 30: 49152}


def weight(osd: int) -> int:
    """The weight of an OSD in its host, where every fifth has twice as much."""
    return 131072 if osd % 5 == 0 else 65536


def a_map() -> Json:
    """OSD n is in host n mod 12, and host h in rack h mod 4."""
    hosts = [[[osd, weight(osd)] for osd in range(OSDS) if osd % HOSTS == host] for host in range(HOSTS)]
    sums = [sum(weight for _, weight in items) for items in hosts]
    racks = [[[-10 - host, sums[host]] for host in range(HOSTS) if host % RACKS == rack] for rack in range(RACKS)]
    root = [[-2 - rack, sum(weight for _, weight in items)] for rack, items in enumerate(racks)]
    buckets = [{"id": -1, "items": root, "kind": "list", "type": 10}]
    buckets += [{"id": -2 - rack, "items": items, "kind": "tree", "type": 3} for rack, items in enumerate(racks)]
    buckets += [
        {"id": -10 - host, "items": items, "kind": ("list", "tree")[host % 2], "type": 1}
        for host, items in enumerate(hosts)
    ]
    steps = [
        [["chooseleaf_firstn", 0, 1]],
        [["choose_firstn", 3, 3], ["chooseleaf_firstn", 1, 1]],
        [["chooseleaf_indep", 0, 1]],
    ]
    kinds = ["replicated", "replicated", "erasure"]
    osds = [osd_of(osd, osd not in DOWN, 0 if osd in OUT else LIGHTER.get(osd, 65536)) for osd in range(OSDS)]
    pools = [pool_of(rule + 1, GROUPS, 4 if kind == "erasure" else 3, rule, kind) for rule, kind in enumerate(kinds)]
    rules = [rule_of([["take", -1]] + steps[rule] + [["emit"]], rule, kind) for rule, kind in enumerate(kinds)]
    none: dict[str, list[Json]] = {"pg_upmap": [], "pg_upmap_items": []}
    return map_of(buckets, rules, pools, osds, **none)


def script() -> list[str]:
    """All mapped sets, the plans with the OSDs down again, each asked for twice, all mapped sets, and the map."""
    sets = [f"up {pool}.{number:x}" for pool in (1, 2, 3) for number in range(GROUPS)]
    up, down = (f'change {{"base":{base},"{part}":{DOWN}}}' for base, part in ((1, "up"), (2, "down")))
    plans = [f"balance {pool} {LIMIT}" for pool in (1, 2, 3)]
    return (
        [up]
        + sets
        + [down]
        + plans
        + plans
        + ["count 0", "count 39", f'change {{"base":6,"up":{DOWN}}}']
        + sets
        + ["dump"]
    )


def places_of(answer: str) -> list[int]:
    """The places of an `up` answer, without holes."""
    return [int(word) for word in answer.split()[3].strip("[]").split(",") if word not in ("", "none")]


class Pool:
    """A pool as the answers show it, while the OSDs that are down at the plan take no part."""

    def __init__(self, value: Json, pool: int, sets: list[list[int]], pairs: list[int]) -> None:
        self.sets, self.pairs, self.size = sets, pairs, value["pools"][pool - 1]["size"]
        self.share = {osd: weight(osd) * own for osd, own in reweights_of(value).items() if own}
        self.total = sum(self.share.values())
        self.keeps_rack = pool == 2
        counts = {osd: sum(osd in places for places in sets) for osd in self.share}
        places = sum(counts.values())
        self.away = {osd: counts[osd] * self.total - places * self.share[osd] for osd in self.share}

    def squares(self) -> int:
        return sum(away * away for away in self.away.values())

    def is_good(self, group: int, leaves: int, comes: int) -> bool:
        """Whether a move would be allowed and would close a difference above T."""
        places = self.sets[group]
        if self.away[leaves] - self.away[comes] <= self.total or leaves not in places or comes in places:
            return False
        if self.pairs[group] >= self.size or self.keeps_rack and leaves % RACKS != comes % RACKS:
            return False
        return all(osd % HOSTS != comes % HOSTS for osd in places if osd != leaves)

    def good_moves(self) -> list[tuple[int, int, int]]:
        return [
            (group, leaves, comes)
            for group in range(GROUPS)
            for leaves in self.sets[group]
            if leaves in self.away
            for comes in self.away
            if self.is_good(group, leaves, comes)
        ]


def pool_faults(
    value: Json, pool: int, before: list[list[int]], after: list[list[int]], pairs: list[int], moves: int
) -> list[str]:
    """What does not hold of a pool: its sets before and after a plan, the numbers of pairs after it, and its moves."""
    first, last = Pool(value, pool, before, [0] * GROUPS), Pool(value, pool, after, pairs)
    wrong = [] if 0 < moves < LIMIT else [f"pool {pool}: {moves} moves of {LIMIT}"]
    if sum(pairs) != moves:
        wrong.append(f"pool {pool}: {moves} moves, {sum(pairs)} pairs")
    if first.squares() - last.squares() < 2 * first.total * moves:
        wrong.append(f"pool {pool}: the squares fell by {first.squares() - last.squares()}, T is {first.total}")
    if not first.good_moves():
        wrong.append(f"pool {pool}: even from the first")
    return wrong + [f"pool {pool}: a good move is left: {move}" for move in last.good_moves()[:3]]


def faults(value: Json, answers: list[str]) -> list[str]:
    """What does not hold of the answers to the script."""
    sets = [places_of(answer) for answer in answers if answer.startswith("up ")]
    moves = [int(answer.split()[1]) for answer in answers if answer.startswith("moved ")]
    written = json.loads(next(answer for answer in answers if answer.startswith("dump ")).removeprefix("dump "))
    pairs = {group: len(own) for group, own in written["pg_upmap_items"]}
    wrong = [] if moves[3:] == [0, 0, 0] else [f"plans after the plans: {moves[3:]} moves"]
    for pool in (1, 2, 3):
        before, after = (sets[first + (pool - 1) * GROUPS :][:GROUPS] for first in (0, 3 * GROUPS))
        own = [pairs.get(f"{pool}.{number:x}", 0) for number in range(GROUPS)]
        wrong += pool_faults(value, pool, before, after, own, moves[pool - 1])
    return wrong


def case() -> tuple[Json, list[str], list[str]]:
    """The map, the script, and the answers by the model."""
    value = a_map()
    return value, script(), model.answers(json.loads(json.dumps(value)), script())


class FortyOsds(Case):
    """Plans of three pools."""

    def test_plans(self) -> None:
        """The answers are those of the model, and the plans are made as the definition wants them."""
        value, lines, answers = case()
        with tempfile.TemporaryDirectory() as folder:
            _, play = soak.run(self.program, pathlib.Path(folder), [], value)
            found = play(lines)
        unlike = [(line, *pair) for line, *pair in zipped(lines, found, answers) if pair[0] != pair[1]]
        self.assertEqual(unlike[:3], [], "lines, what they answer, and what the model does")
        self.assertEqual(faults(value, found), [])
