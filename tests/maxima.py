"""Every maximum at once: the greatest map, the longest answers, plans and lines, the most sessions, the longest
journal."""

from __future__ import annotations

from collections.abc import Iterable, Iterator
from typing import Any

from tests.cases import RowCase
from tests.rows import MAPS, Map, written
from tests.runs import Run
from tests.whole_maps import ON_OSDS, map_of, osds_of, pool_of, rule_of


def items_by(explicit: list[int], pairs: list[list[int]]) -> list[int]:
    """An explicit set under pairs, where every OSD may be placed."""
    for left, right in pairs:
        if left in explicit and right not in explicit:
            explicit = [right if entry == left else entry for entry in explicit]
    return explicit


def greatest() -> Map:
    """A map with the most buckets, items, rules, steps, pools, groups and OSDs that there may be, and exceptions for
    every group."""
    leaves: list[Map] = [
        {"id": -66 - h, "items": [[2 * h, 7], [2 * h + 1, 9]], "kind": "list", "type": 1} for h in range(447)
    ]
    leaves[0]["items"] += [[osd, 5] for osd in range(894, 956)]
    leaves[1]["items"] += [[osd, 5] for osd in range(956, 1018)]
    leaves[2]["items"] += [[osd, 5] for osd in range(1018, 1024)]
    racks = [
        {"id": -2 - r, "items": [[-66 - h, 3] for h in range(r, 447, 64)], "kind": "uniform", "type": 2}
        for r in range(64)
    ]
    root = {"id": -1, "items": [[-2 - r, 67108863] for r in range(64)], "kind": "tree", "type": 15}
    steps = [["take", -1], ["choose_firstn", 0, 2], ["chooseleaf_firstn", 10, 1], ["emit"]] * 4
    groups = [f"{pool}.{number:x}" for pool in range(65504, 65536) for number in range(4096)]
    sets = [[(7 * at + 3 * place) % 1024 for place in range(10)] for at in range(1024)]
    pairs = [[[osd, (osd + 1) % 1024] for osd in places[: 10 if at % 16 == 5 else 1]] for at, places in enumerate(sets)]
    pools = [pool_of(pool, 4096, 10, pool % 256, placed=4096 - pool % 5) for pool in range(65504, 65536)]
    exceptions = {
        "pg_upmap": [[group, sets[at % 1024]] for at, group in enumerate(groups)],
        "pg_upmap_items": [[group, pairs[at % 1024]] for at, group in enumerate(groups)],
    }
    rules = [rule_of(steps, rule) for rule in range(224, 256)]
    return map_of([root] + racks + leaves, rules, pools, osds_of(1024), epoch=2147483648, **exceptions)


def changed(cluster: Map) -> tuple[Map, Map]:
    """A change of every part of the greatest map, and the map after it."""
    after = dict(cluster, epoch=cluster["epoch"] + 1)
    gone = [f"65504.{number:x}" for number in range(4096)]
    pool = pool_of(1, 4096, rule=255, placed=1)
    new_sets = [[f"1.{number:x}", [number % 512 * 2]] for number in range(4096)]
    new_pairs = [[f"1.{number:x}", [[number % 512 * 2, 1]]] for number in range(4096)]
    old_sets = [f"65505.{number:x}" for number in range(4096)]
    old_pairs = [f"65506.{number:x}" for number in range(4096)]
    change = {
        "base": cluster["epoch"],
        "old_pools": [65504],
        "new_pools": [pool],
        "down": list(range(1, 1024, 4)),
        "up": list(range(0, 1024, 4)),
        "weight": [[osd, osd] for osd in range(2, 1024, 4)],
        "old_upmap": old_sets,
        "old_items": old_pairs,
        "new_upmap": new_sets,
        "new_items": new_pairs,
    }
    after["pools"] = [pool] + cluster["pools"][1:]
    after["osds"] = [
        dict(osd, up=osd["id"] % 4 != 1, weight=osd["id"] if osd["id"] % 4 == 2 else 65536) for osd in cluster["osds"]
    ]
    parts: list[tuple[str, list[str], list[Any]]] = [
        ("pg_upmap", old_sets, new_sets),
        ("pg_upmap_items", old_pairs, new_pairs),
    ]
    for key, old, new in parts:
        left_out = set(gone) | set(old)
        after[key] = new + [entry for entry in cluster[key] if entry[0] not in left_out]
    return change, after


def maxima() -> Iterator[Run]:
    """Every maximum at once: read, asked, changed in every part, written, and its written form read back."""
    cluster = greatest()
    change, after = changed(cluster)
    asked = list(zip(cluster["pg_upmap"], cluster["pg_upmap_items"]))[::97]
    epoch = cluster["epoch"]
    script, answers = [], ["session 1"]
    for (group, explicit), (_, pairs) in asked:
        places = items_by(explicit, pairs)
        script.append(f"up {group}")
        answers.append(f"up {epoch} {group} [{','.join(map(str, places))}] {places[0]}")
    whole = {"base": epoch + 1, "old_upmap": [f"{pool['id']}.{n:x}" for pool in after["pools"] for n in range(4096)]}
    script += ["change " + written(change), "dump", "change " + written(whole), "epoch"]
    answers += [f"ok {epoch + 1} evals {32 * 4096}", "dump " + written(after), f"ok {epoch + 2} evals {32 * 4096}"]
    answers.append(f"epoch {epoch + 2}")

    def read_back(output: bytes) -> Run:
        # An epoch may be one past the greatest that a map may begin with, so the text goes back with that one.
        text = output.decode().splitlines()[-3].removeprefix("dump ")
        text = text.replace(f'"epoch":{epoch + 1}', f'"epoch":{epoch}')
        return Run("the greatest map read back", {"map": text, "script": "dump\n"}, "session 1\ndump " + text + "\n")

    yield Run(
        "every maximum at once",
        {"map": written(cluster), "script": "\n".join(script) + "\n"},
        "\n".join(answers) + "\n",
        follow=read_back,
    )
    one, times = written(MAPS["one device"]), 150_000
    yield Run(
        "a script of a megabyte", {"map": one, "script": "up 1.0\n" * times}, "session 1\n" + "up 1 1.0 [0] 0\n" * times
    )
    chain: dict[str, str | bytes | None] = {f"script-{n}": f'await {n}\nchange {{"base":{n}}}\n' for n in range(1, 65)}
    yield Run(
        "64 sessions, each waiting for the one before",
        {**chain, "map": one},
        "".join(f"session {n}\nepoch {n}\nok {n + 1} evals 0\n" for n in range(1, 65)),
        arguments=["map"] + list(chain),
    )
    long_lines = f'change{" " * 1_000_000}{{"base":1}}\n{"x" * 1_000_000}\nepoch'
    yield Run(
        "lines of a megabyte",
        {"map": one, "script": long_lines},
        "session 1\nok 2 evals 0\nerr 33 BadCommand\nepoch 2\n",
    )


def of_one_device(pools: Iterable[int], groups: int, size: int = 1) -> Map:
    """The map of one device with so many pools of so many groups."""
    one = MAPS["one device"]
    return dict(one, pools=[dict(one["pools"][0], id=pool, pg_num=groups, pgp_num=groups, size=size) for pool in pools])


def crowded(count: int) -> Map:
    """So many OSDs, 64 a bucket, and 4,096 groups that an explicit set each has put on OSD 0."""
    hosts = range(count // 64)
    buckets: list[Map] = [{"id": -1, "items": [[-2 - h, 64 * 65536] for h in hosts], "kind": "list", "type": 2}]
    buckets += [
        {"id": -2 - h, "items": [[64 * h + i, 65536] for i in range(64)], "kind": "list", "type": 1} for h in hosts
    ]
    sets: dict[str, list[Any]] = {"pg_upmap": [[f"1.{at:x}", [0]] for at in range(4096)], "pg_upmap_items": []}
    return map_of(buckets, [rule_of(ON_OSDS)], [pool_of(1, 4096)], osds_of(count), **sets)


def longest_answers() -> Iterator[Run]:
    """The longest answers and the longest plan, the most pools in a change, and the longest journal."""
    groups = ",".join(f"{pool}.{number:x}" for pool in range(1, 33) for number in range(4096))
    yield Run(
        "an OSD in all 131,072 groups",
        {"map": written(of_one_device(range(1, 33), 4096)), "script": "count 0\ngroups 0\n"},
        f"session 1\ncount 1 0 131072\ngroups 1 0 [{groups}]\n",
    )
    old, new = range(1, 33), range(33, 65)
    parts = {"base": 1, "old_pools": list(old), "new_pools": of_one_device(new, 4096, 10)["pools"]}
    yield Run(
        "32 pools go and 32 come",
        {
            "map": written(of_one_device(old, 4096)),
            "script": f"change {written(parts)}\nup 32.fff\nup 64.fff\ncount 0\n",
        },
        "session 1\nok 2 evals 131072\nerr 23 UnknownPool\nup 2 64.fff [0] 0\ncount 2 0 131072\n",
    )
    # All groups are on the first OSD, so each move goes from there to the next OSD that has fewest, and takes the
    # lowest group.
    for count in (128, 1024):
        to = [1 + number % (count - 1) for number in range(1024)]
        asked = "".join(f"up 1.{number:x}\n" for number in range(1025))
        wanted = "".join(f"up 2 1.{number:x} [{osd}] {osd}\n" for number, osd in enumerate(to + [0]))
        yield Run(
            f"1,024 moves over {count} OSDs",
            {"map": written(crowded(count)), "script": "balance 1 1024\n" + asked},
            "session 1\nmoved 1024 epoch 2\n" + wanted,
        )
    filled_up = "".join(f'change {{"base":{base}}}\n' for base in range(1, 65_538))
    made = "".join(f"ok {base + 1} evals 0\n" for base in range(1, 65_537))
    yield Run(
        "a journal of 65,536 filled to the end, and followed",
        {"map": written(MAPS["one device"]), "script": filled_up + "follow\nfup 1.0\nepoch\n"},
        f"session 1\n{made}err 28 JournalFull\nfollow 65537\nfup 65537 1.0 [0] 0\nepoch 65537\n",
        arguments=["--journal", "65536", "map", "script"],
    )


class Maxima(RowCase):
    """Runs at the maxima."""

    def test_maxima(self) -> None:
        """Every maximum at once is read, asked, changed in every part, written, and its written form read back; the
        longest script, lines and chain of sessions are answered."""
        self.check_runs(maxima())

    def test_longest_answers(self) -> None:
        """The longest answers and the longest plans, the most pools in a change, and the longest journal."""
        self.check_runs(longest_answers())
