#!/usr/bin/env python3
"""What lawful input costs that is not ordinary: unequal racks, plans that find little to move, rules that try in vain,
clusters of a thousand disks, many exceptions, changes of all groups, long journals and answers.

    cliffs.py PROGRAM

Times are those of a run less a run without what is measured, the best of some; a run that does not end in time says
so. Memory is the greatest resident size, less that of the run beside it. It is no part of the gate.
"""

from __future__ import annotations

import json
import os
import subprocess
import sys
import threading
import time
from collections.abc import Iterator
from typing import Any

import stuck
from changes import STATES, changes, comes_and_goes, pairs_of, replaced, reweights
from maps import a_map, flat, groups_of, osds, paired, pool, rule, stock, whole
from running import (
    GOALS,
    LIMIT,
    Folder,
    found,
    goal_row,
    greatest,
    heading,
    in_folder,
    output,
    piped,
    program,
    seconds,
    several,
    table,
)

GROUPS, POOLS = 4096, 32
# So many lines are timed: of changes, of those that move half of a full list, of those that are kept, of questions.
# Opening a map with as many exceptions as there may be takes a second, more or less by some milliseconds, so that a few
# lines would tell nothing.
CHANGES, MOVING, KEPT, ASKED = 40_000, 4_000, 20_000, 20_000
# The group in the middle of all groups, whose pair comes and goes.
MIDDLE = "16.800"


def racks(hosts: Any, size: int = 3, groups: int = GROUPS, kind: str = "list") -> Any:
    """Racks of so many hosts of 8 OSDs each, and a pool of so many groups and copies over racks."""
    count = sum(hosts) * 8
    buckets = [{"id": -1, "items": [[-2 - r, n * 8 * 65536] for r, n in enumerate(hosts)], "kind": kind, "type": 3}]
    host, first = -2 - len(hosts), 0
    for r, n in enumerate(hosts):
        buckets.append({"id": -2 - r, "items": [[host - h, 8 * 65536] for h in range(n)], "kind": kind, "type": 2})
        for h in range(n):
            buckets.append({"id": host - h, "items": [[first + i, 65536] for i in range(8)], "kind": kind, "type": 1})
            first += 8
        host -= n
    stated = a_map(buckets, count, [["chooseleaf_firstn", 0, 2]], 1, groups)
    stated["pools"] = [pool(1, groups, size)]
    return stated


def one_heavy() -> Any:
    """64 OSDs in 8 hosts, of which one OSD weighs a thousand times as much as each other."""

    def weight(osd: Any) -> Any:
        return 65536 * (1000 if osd == 0 else 1)

    hosts = [[[osd, weight(osd)] for osd in range(8 * host, 8 * host + 8)] for host in range(8)]
    buckets = [
        {
            "id": -1,
            "items": [[-2 - host, sum(weight for _, weight in items)] for host, items in enumerate(hosts)],
            "kind": "list",
            "type": 10,
        }
    ]
    buckets += [{"id": -2 - host, "items": items, "kind": "list", "type": 1} for host, items in enumerate(hosts)]
    return a_map(buckets, 64, [["chooseleaf_firstn", 0, 1]], 1, GROUPS)


def in_vain(kind: str = "list", is_coded: bool = False) -> dict[Any, Any]:
    """One group under four blocks with 200 and 200 tries, over fifteen buckets of 64 items of which the heavy one
    stands first; all OSDs are out."""
    buckets, device = [], 0
    for level in range(15, 0, -1):
        heavy = [[-(17 - level), 2**31]] if level > 1 else []
        light = range(device, device + 64 - len(heavy))
        buckets.append({"id": -(16 - level), "items": heavy + [[d, 1] for d in light], "kind": kind, "type": level})
        device += len(light)
    placing, step = ("erasure", "chooseleaf_indep") if is_coded else ("replicated", "chooseleaf_firstn")
    block = [["take", -1], [step, 0, 14], ["emit"]]
    steps = [["set_choose_tries", 200], ["set_chooseleaf_tries", 200]] + block * 4
    pools, every = [pool(1, 1, 10, placing)], osds(device, weight=0)
    return whole(buckets, [rule(steps, kind=placing)], pools, every, epoch=1, version=2)


def one_host(kind: str = "list") -> dict[Any, Any]:
    """256 groups of ten under three blocks with 200 tries, which seek hosts, of which there is one, fourteen buckets
    deep."""
    buckets = [
        {"id": level - 16, "items": [[level - 17, 64 * 65536]], "kind": kind, "type": level}
        for level in range(15, 1, -1)
    ]
    buckets.append({"id": -15, "items": [[i, 65536] for i in range(64)], "kind": kind, "type": 1})
    block = [["take", -1], ["chooseleaf_firstn", 0, 1], ["emit"]]
    steps = [["set_choose_tries", 200]] + block * 3
    return whole(buckets, [rule(steps)], [pool(1, 256, 10)], osds(64), epoch=1, version=2)


def a_change(runs: Folder, stated: Any, parts: Any, count: Any) -> Any:
    """The microseconds of a change beyond the same line refused."""
    return (
        (
            seconds(runs.words(stated, changes(parts, count, 100_000)))
            - seconds(runs.words(stated, changes(parts, count, 900_000)))
        )
        / count
        * 1e6
    )


def a_pair(runs: Folder, stated: Any, count: Any) -> Any:
    """The microseconds of a change that replaces a group's pair."""
    return a_change(runs, stated, replaced(MIDDLE), count)


def a_key(runs: Folder, stated: Any, count: Any) -> Any:
    """The microseconds of a change by which a group's pair comes or goes."""
    return a_change(runs, stated, comes_and_goes(MIDDLE), count)


def wide_pools(count: int, size: int, groups: int = 65_536, pools: int = 1) -> Any:
    """Pools of so many groups of a size over so many OSDs in one straw2 bucket."""
    bucket = {"id": -1, "items": [[osd, 65536] for osd in range(count)], "kind": "straw2", "type": 10}
    stated = a_map([bucket], count, [["choose_firstn", 0, 0]], pools, groups)
    stated["pools"] = [pool(number, groups, size) for number in range(1, pools + 1)]
    return stated


def other_sets(stated: Any) -> str:
    """The part of a change that gives each group of the first pool an explicit set."""
    count, size = stated["max_osd"], stated["pools"][0]["size"]
    sets = [
        [f"1.{group:x}", [(group * 7 + place) % count for place in range(size)]]
        for group in range(stated["pools"][0]["pg_num"])
    ]
    return f'"new_upmap":{json.dumps(sets, separators=(",", ":"))}'


def a_pair_each(stated: Any) -> str:
    """The part of a change that gives each group of all pools a pair."""
    return pairs_of(groups_of(stated), 62)


def many_at_once(runs: Folder) -> Iterator[Any]:
    """Changes that name as many groups as a line may, beyond the same lines refused. Goals are waits that a person
    hardly notices, or a little longer."""
    for name, value, named, goal in (
        ("explicit sets for 65,536 groups of size 20 over 40 OSDs", wide_pools(40, 20), other_sets, 300),
        ("explicit sets for 65,536 groups of size 3 over 6 OSDs", wide_pools(6, 3), other_sets, 100),
        ("a pair for each of 1,048,576 groups of 256 pools", wide_pools(64, 3, 4096, 256), a_pair_each, 800),
    ):
        stated = runs.map(value)
        yield goal_row(f"one change: {name}", lambda: a_change(runs, stated, [named(value)], 1) / 1e3, "ms", goal)


def without_pools(stated: Any) -> tuple[Any, str]:
    """A map with the first of its pools alone, and the part of a change that brings the others."""
    first, *others = stated["pools"]
    return {**stated, "pools": [first]}, f'"new_pools":{json.dumps(others, separators=(",", ":"))}'


def another_crush(stated: Any) -> str:
    """The part of a change that gives the last OSD another weight in the CRUSH map."""
    *buckets, last = stated["buckets"]
    items = [*last["items"][:-1], [last["items"][-1][0], 2 * last["items"][-1][1]]]
    crush = {"buckets": [*buckets, {**last, "items": items}], "rules": stated["rules"]}
    return f'"new_crush":{json.dumps(crush, separators=(",", ":"))}'


def longest_rows(runs: Folder) -> Iterator[Any]:
    """Lines that evaluate all groups of a map, which no other session can ask or change meanwhile; and opening it,
    beside a map of one group a pool. The goal is what four processors could make of it."""
    most = wide_pools(64, 3, 4096, 256)
    fewest, pools = without_pools(most)
    one, wide = wide_pools(64, 3, 1, 256), wide_pools(40, 20)
    for name, value, part in (
        ("a reweight of one OSD, 1,048,576 groups of 256 pools", most, reweights(0)[0]),
        ("a reweight of one OSD, 65,536 groups of size 20 over 40 OSDs", wide, reweights(0)[0]),
        ("another CRUSH map, 1,048,576 groups of 256 pools", most, another_crush(most)),
        ("255 pools of 4,096 groups that come", fewest, pools),
        ("a pair for each of 1,048,576 groups", most, a_pair_each(most)),
    ):
        stated = runs.map(value)
        yield goal_row(name, lambda: a_change(runs, stated, [part], 1) / 1e3, "ms", 1500)
    yield goal_row("opening 1,048,576 groups of 256 pools", lambda: opened(runs, most) - opened(runs, one), "ms", 1500)


def kept(runs: Folder) -> Any:
    """The bytes that a change takes in the journal."""

    def beyond_refused(count: Any) -> Any:
        scripts = [changes(STATES, count, first) for first in (100_000, 900_000)]
        taken, refused = (greatest(runs.words(stated, script)) for script in scripts)
        return taken - refused

    stated = runs.map(flat("uniform", 64))
    return (beyond_refused(2 * KEPT) - beyond_refused(KEPT)) / KEPT


def beyond(runs: Folder, stated: Any, line: Any, without: Any = "epoch\n") -> Any:
    """What a run holds beyond the same map with another script, to the length of its answers."""
    words = runs.words(stated, line)
    return (greatest(words) - greatest(runs.words(stated, without))) / sum(len(answer) + 1 for answer in output(words))


def planned(runs: Folder, stated: Any) -> Any:
    """The milliseconds of a plan of 1,024 moves at most."""
    return (seconds(runs.words(stated, "balance 1 1024\n"), 3) - seconds(runs.words(stated, ""), 3)) * 1e3


def plans(runs: Folder) -> Iterator[Any]:
    """Plans over maps that cannot be made even, or hardly."""
    for name, value, goal in (
        ("3 racks of 2, 2, 4 hosts of 8", racks((2, 2, 4)), 50),
        ("3 racks of 8, 8, 16 hosts", racks((8, 8, 16)), 200),
        ("3 racks of 32, 32, 64 hosts", racks((32, 32, 64)), 300),
        ("10 racks of 1 to 10 hosts, groups of 10", racks(range(1, 11), 10), None),
        ("64 OSDs in 8 hosts, one of a thousandfold weight", one_heavy(), None),
        ("3 racks of 128, 128, 256 hosts, 65,536 groups, straw2", racks((128, 128, 256), 3, 65_536, "straw2"), 600),
        ("20 racks of 2 to 21 hosts, groups of 20, straw2", racks(range(2, 22), 20, GROUPS, "straw2"), 300),
        ("the same, 65,536 groups", racks(range(2, 22), 20, 65_536, "straw2"), 1_500),
    ):
        stated = runs.map(value)
        yield goal_row(f"`balance` over {name}", lambda: planned(runs, stated), "ms", goal)


def moved(runs: Folder, stated: Any, moves: Any) -> Any:
    """What a plan answers, which must have so many moves where a number is given."""
    answer = found(lambda: output(runs.words(stated, "balance 1 1024\n"))[0])
    if moves is not None and answer.startswith("moved ") and not answer.startswith(f"moved {moves} "):
        sys.exit(f"a plan of {moves} moves was wanted: {answer}")
    return answer.split(" epoch")[0]


def stuck_rows(runs: Folder) -> Iterator[Any]:
    """Plans that find little to move among many pairs of OSDs, and how long another session waits behind one. The
    lock is held meanwhile, so the goal of each is a wait that a person hardly notices; they took 75 to 110 ms where
    they were first measured."""
    for name, value, moves in stuck.CASES:
        stated = runs.map(value())
        yield goal_row(
            f"`balance` over 1,024 OSDs, {name}: {moved(runs, stated, moves)}", lambda: planned(runs, stated), "ms", 300
        )
    stated = runs.map(stuck.closed())
    yield goal_row(
        "the longest look-up of another session beside the plan where all groups are closed",
        lambda: several(lambda: longest_look(runs, stated), 3),
        "ms",
        300,
    )


def longest_look(runs: Folder, stated: Any) -> Any:
    """The milliseconds of the longest look-up of a live session while another plans, which awaits that session's
    change to begin."""
    words = runs.words(stated, "await 100001\nbalance 1 1024\n") + ["-"]
    times: list[float] = []
    with piped(words) as live:
        late = threading.Timer(LIMIT, live.kill)
        late.start()
        live.stdout.readline()
        line = b'change {"base":100000}\n'
        while line == b"up 1.0\n" and len(os.listdir(f"/proc/{live.pid}/task")) > 2 or not times:
            begin = time.perf_counter()
            live.stdin.write(line)
            live.stdin.flush()
            answer, line = live.stdout.readline(), b"up 1.0\n"
            times.append((time.perf_counter() - begin) * 1e3)
        live.communicate()
        late.cancel()
    if live.returncode != 0 or not answer:
        raise subprocess.TimeoutExpired(words, LIMIT)
    return max(times)


def opened(runs: Folder, value: Any) -> Any:
    """The milliseconds of opening a map."""
    return seconds(runs.words(runs.map(value), ""), 3) * 1e3


def in_vain_rows(runs: Folder) -> Iterator[Any]:
    """Rules that seek in vain, over lists and, within the same bounds, over straw2 buckets."""
    for name, kind in (("", "list"), (", straw2", "straw2")):
        for row, value, goal in (
            ("one group that 200 and 200 tries seek in vain", in_vain(kind), 300),
            ("the same for positions, in an erasure pool", in_vain(kind, is_coded=True), 300),
            ("256 groups that seek hosts where there is one", one_host(kind), 50),
        ):
            yield goal_row(row + name, lambda: opened(runs, value), "ms", goal)


def cluster_rows(runs: Folder) -> Iterator[Any]:
    """Stock clusters of a thousand disks: opened in 15 and 23 ms where they were first measured, and before anybody
    waits for it."""
    disks = [596_108] * 10 + [457_847] * 2
    for name, value in (
        (
            "1,008 OSDs in 7 racks of 6 hosts of 24 equal disks, 2,049 groups",
            stock(7, 6, [1_072_883] * 24, [(1, 3, 0), (1024, 3, 1), (1024, 6, 2)]),
        ),
        (
            "960 OSDs in 8 racks of 10 hosts of 12 disks of two sizes, 1,793 groups",
            stock(8, 10, disks, [(1, 3, 0), (256, 3, 1), (1024, 8, 2), (512, 3, 1)]),
        ),
    ):
        yield goal_row(f"opening {name}, straw2", lambda: opened(runs, value), "ms", 100)


def exceptions(runs: Folder) -> Iterator[Any]:
    """Changes of one exception beside as many as there may be, to the same beside none."""
    none, full, lacking = (
        runs.map(value) for value in (flat("uniform", GROUPS, POOLS), paired(POOLS), paired(POOLS, [MIDDLE]))
    )
    for name, change, many, count in (
        ("a pair of a group", a_pair, full, CHANGES),
        ("a key that comes or goes", a_key, lacking, MOVING),
    ):
        alone = found(change, runs, none, CHANGES)
        goal = 2 * alone if change is a_pair and not isinstance(alone, str) else None
        yield [f"{name}, no other having one", alone, "µs"]
        yield goal_row(f"{name}, 131,071 others having one", lambda: change(runs, many, count), "µs", goal)


def more_held(runs: Folder, value: Any, without: Any) -> Any:
    """How many million bytes a map holds at most beyond another."""
    most, least = (greatest(runs.words(runs.map(stated), "")) for stated in (value, without))
    return (most - least) / 1e6


def memory(runs: Folder) -> Iterator[Any]:
    """What is held beside what it is for."""
    many, one = (stock(16, 16, [65_536] * 16, [(of, 3, 0)] * pools) for pools, of in ((256, GROUPS), (1, 1)))
    yield goal_row("a table of 256 pools of 4,096 groups over 4,096 OSDs", lambda: more_held(runs, many, one), "MB", 30)
    few = flat("uniform", GROUPS, POOLS)
    yield goal_row("131,072 exceptions of one pair each", lambda: more_held(runs, paired(POOLS), few), "MB", 6)
    yield goal_row("a change kept in the journal (one OSD down)", lambda: kept(runs), "bytes", 700)
    value = paired(POOLS, explicit=True)
    text, stated = len(json.dumps(value, separators=(",", ":"))), runs.map(value)
    yield goal_row(
        "a map with 262,144 exceptions, to its text", lambda: greatest(runs.words(stated, "")) / text, "times", 8
    )
    yield goal_row(
        "its `dump` while it is made, to the dump's text", lambda: beyond(runs, stated, "dump\n"), "times", 2.5
    )
    asked = runs.map(flat("uniform", GROUPS))
    yield goal_row(
        "answers of a session, to their text",
        lambda: beyond(runs, asked, "groups 1\n" * ASKED, "epoch\n" * ASKED),
        "times",
        1.2,
    )


def rows(runs: Folder) -> Iterator[Any]:
    """All rows, one after another."""
    for part in (plans, stuck_rows, in_vain_rows, cluster_rows, exceptions, many_at_once, memory):
        yield from part(runs)


def main() -> None:
    path = program(__doc__)
    heading(f"Lawful input that is not ordinary (a run may take {LIMIT} seconds)")
    in_folder(path, lambda runs: table(GOALS, rows(runs)))
    heading("Lines that hold the lock longest")
    in_folder(path, lambda runs: table(GOALS, longest_rows(runs)))


if __name__ == "__main__":
    main()
