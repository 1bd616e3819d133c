"""Greedy plans by brute force, over small random maps.

Each group has an explicit set, so that its mapped set is known without hashes. The plan is the one of the definition:
as long as some allowed move closes a difference of deviations above the wanted one, the move with the greatest
difference, ties to the lowest OSD that is left, then to the lowest that comes, then to the lowest group. A plan of a
pool by itself wants a difference above the weight of all candidates; one that counts what OSDs carry goes by 256ths of
a group, and is asked for under `--stock`.
"""

from __future__ import annotations

import json
import random
from collections.abc import Iterator
from typing import Any, Optional

from tests.cases import RowCase
from tests.clusters import Json
from tests.rows import written
from tests.runs import Run
from tests.whole_maps import map_of, osd_of, pool_of, rule_of

# A map, the hosts of its OSDs, the racks of its hosts, and the weights of its OSDs.
RandomMap = tuple[Json, dict[int, int], Optional[dict[int, int]], dict[int, int]]
SEED = 20261123


def random_map(rng: random.Random) -> RandomMap:
    """Hosts with OSDs under one root, or under two racks; some OSDs down, lighter or out; and a pool whose groups all
    have explicit sets."""
    hosts = rng.randint(2, 4)
    osds: list[Json] = []
    buckets: list[Json] = []
    host_of: dict[int, int] = {}
    weight_of: dict[int, int] = {}
    for host in range(hosts):
        for _ in range(rng.randint(1, 3)):
            osd = len(osds)
            host_of[osd] = host
            weight_of[osd] = 65536 * rng.choice([1, 1, 2])
            osds.append(osd_of(osd, rng.random() < 0.85, rng.choice([65536, 65536, 65536, 32768])))
    osds.append(osd_of(len(osds)))
    racked = rng.random() < 0.4
    rack_of = {host: host % 2 if racked else 0 for host in range(hosts)}
    for host in range(hosts):
        items = [[osd, weight_of[osd]] for osd in sorted(host_of) if host_of[osd] == host]
        buckets.append({"id": -10 - host, "items": items, "kind": "list", "type": 1})
    if racked:
        for rack in range(2):
            items = [[-10 - host, 65536] for host in range(hosts) if rack_of[host] == rack]
            buckets.append({"id": -2 - rack, "items": items, "kind": "list", "type": 3})
        buckets.append({"id": -1, "items": [[-2, 65536], [-3, 65536]], "kind": "list", "type": 10})
        steps = [["take", -1], ["choose_firstn", 0, 3], ["chooseleaf_firstn", 1, 1], ["emit"]]
    else:
        buckets.append({"id": -1, "items": [[-10 - host, 65536] for host in range(hosts)], "kind": "list", "type": 10})
        steps = [["take", -1], ["chooseleaf_firstn", 0, 1], ["emit"]]
    size, groups = rng.randint(1, min(3, hosts)), rng.randint(1, 12)
    sets = []
    for group in range(groups):
        chosen = rng.sample(range(hosts), size)
        osds_of = [rng.choice([osd for osd in host_of if host_of[osd] == host]) for host in chosen]
        sets.append([f"1.{group:x}", osds_of])
    exceptions: dict[str, list[Any]] = {"pg_upmap": sets, "pg_upmap_items": []}
    made = sorted(buckets, key=lambda bucket: -int(bucket["id"]))
    value = map_of(made, [rule_of(steps)], [pool_of(1, groups, size)], osds, **exceptions)
    return value, host_of, rack_of if racked else None, weight_of


def plan(
    value: Json,
    host_of: dict[int, int],
    rack_of: dict[int, int] | None,
    weight_of: dict[int, int],
    limit: int,
    carried: dict[int, int] | None = None,
    apart: int = 256,
) -> tuple[int, list[list[int]]]:
    """The moves of the greedy plan, and the mapped sets after it, where OSDs carry so much and are to be so far apart,
    in 256ths of a group."""
    osds = {osd["id"]: osd for osd in value["osds"]}
    size = value["pools"][0]["size"]
    mapped = [list(places) for _, places in value["pg_upmap"]]
    pairs = [0] * len(mapped)
    candidates = [osd for osd in sorted(host_of) if osds[osd]["up"] and osds[osd]["weight"] > 0]
    weight = {osd: weight_of[osd] * osds[osd]["weight"] for osd in candidates}
    total = sum(weight.values())

    def rack(osd: int) -> int | None:
        return rack_of[host_of[osd]] if rack_of is not None and osd in host_of else None

    def is_allowed(group: int, leaves: int, comes: int) -> bool:
        places = mapped[group]
        if places.count(leaves) != 1 or comes in places or pairs[group] >= size or rack(leaves) != rack(comes):
            return False
        return all(host_of.get(osd) != host_of[comes] for osd in places if osd != leaves)

    moves = 0
    while moves < limit:
        count = {osd: sum(osd in places for places in mapped) for osd in candidates}
        places = sum(count.values())
        away = {
            osd: 256 * (count[osd] * total - places * weight[osd]) + (carried or {}).get(osd, 0) * total
            for osd in candidates
        }
        good = [
            (-(away[leaves] - away[comes]), leaves, comes, group)
            for leaves in candidates
            for comes in candidates
            if away[leaves] - away[comes] > apart * total + 255
            for group in range(len(mapped))
            if is_allowed(group, leaves, comes)
        ]
        if not good:
            break
        _, leaves, comes, group = min(good)
        mapped[group][mapped[group].index(leaves)] = comes
        pairs[group] += 1
        moves += 1
    return moves, mapped


def random_loads(rng: random.Random, osds: int) -> dict[int, int]:
    """What some OSDs carry, in any order, some of it small, some of it whole groups, some of it more than can be
    evened."""
    named = rng.sample(range(osds), rng.randint(0, osds))
    return {
        osd: rng.choice(
            [0, rng.randint(-300, 300), 256 * rng.randint(-3, 3), -(2**31), 2**31 - 1, rng.randint(-256, 256)]
        )
        for osd in named
    }


def cases(how_many: int, is_carrying: bool = False) -> Iterator[Run]:
    """Runs that ask for a plan and then for all sets and counts; where OSDs carry something, the lines say so."""
    rng = random.Random(SEED + is_carrying)
    for case in range(how_many):
        value, host_of, rack_of, weight_of = random_map(rng)
        limit = rng.choice([1, 2, 1024])
        carried, apart, words = {}, 256, ""
        if is_carrying:
            carried, apart = random_loads(rng, len(value["osds"])), rng.choice(
                [256, 256, 257, 300, 512, 1024, 2**32 - 1]
            )
            words = f" {apart} {json.dumps([[osd, load] for osd, load in carried.items()])}"
        moves, mapped = plan(value, host_of, rack_of, weight_of, limit, carried, apart)
        epoch = 2 if moves else 1
        up = {osd["id"] for osd in value["osds"] if osd["up"]}
        lines, answers = [f"balance 1 {limit}{words}"], [f"moved {moves} epoch {epoch}"]
        for group, places in enumerate(mapped):
            shown = [osd for osd in places if osd in up]
            lines.append(f"up 1.{group:x}")
            answers.append(f"up {epoch} 1.{group:x} [{','.join(map(str, shown))}] {shown[0] if shown else -1}")
        for osd in sorted(up):
            lines.append(f"count {osd}")
            answers.append(f"count {epoch} {osd} {sum(osd in places for places in mapped)}")
        output = "".join(answer + "\n" for answer in ["session 1", *answers])
        files: dict[str, str | bytes | None] = {"map": written(value), "script": "".join(line + "\n" for line in lines)}
        arguments = ["--stock"] * is_carrying + ["map", "script"]
        yield Run(f"plan {case}{' with loads' * is_carrying}", files, output, arguments=arguments)


class Plans(RowCase):
    """The program's plans beside the greedy ones."""

    def test_by_themselves(self) -> None:
        """Plans of a pool by itself."""
        self.check_runs(cases(300))

    def test_with_loads(self) -> None:
        """Plans that count what OSDs carry from other pools."""
        self.check_runs(cases(300, True))
