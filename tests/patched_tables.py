"""The table that patches lead to, beside the table built anew.

Each history is a small random map and a dozen random changes of all parts. After each change a script asks for every
group's up set and for the count and the groups of every OSD, and writes the map. A second run opens the map that was
written, whose table is built anew, and asks the same: the answers must be the same. So what a patch made is compared
with what the map alone defines. Under `--stock` the buckets of a history may be straw2 too, whose items weigh as they
like, and all answers must be those of model.py as well.
"""

from __future__ import annotations

import json
import pathlib
import random
import subprocess
import tempfile
from collections.abc import Callable, Iterable, Iterator
from typing import Any

from tests import model
from tests.cases import RowCase
from tests.clusters import Json
from tests.rows import MAPS, with_values, written
from tests.runs import Check, Run, zipped
from tests.whole_maps import map_of, osd_of, osds_of, pool_of

# The pools of a map by their numbers.
Pools = dict[int, Json]
SEED = 20261123
HISTORIES = 30
CHANGES = 12
KINDS = ("uniform", "list", "tree")
# Of the kinds under `--stock` half are straw2, so that most changes of the forest bring or take such buckets.
STOCK = (*KINDS, *["straw2"] * 3)
# What each rule serves.
KIND_OF = ("replicated", "erasure", "replicated", "replicated", "replicated")


def loosened(rng: random.Random, bucket: Json) -> Json:
    """A bucket; where it is a straw2 bucket, with weights that differ."""
    if bucket["kind"] == "straw2":
        bucket["items"] = [
            [item, rng.choice([1, 65536, 65537, rng.randint(1, 2**30)])] for item, _ in bucket["items"]
        ]
    return bucket


def random_forest(rng: random.Random, osds: int, kinds: tuple[str, ...]) -> tuple[list[Json], list[Json]]:
    """Hosts of two or three OSDs under one root, and rules over them."""
    hosts: list[int] = []
    buckets: list[Json] = []
    free = rng.sample(range(osds), osds)
    while free:
        took = [free.pop() for _ in range(min(len(free), rng.randint(2, 3)))]
        weight = 65536 * rng.randint(1, 2)
        items = [[osd, weight] for osd in sorted(took)]
        buckets.append(loosened(rng, {"id": -2 - len(hosts), "items": items, "kind": rng.choice(kinds), "type": 1}))
        hosts.append(-2 - len(hosts))
    root = loosened(rng, {"id": -1, "items": [[host, 65536] for host in hosts], "kind": rng.choice(kinds), "type": 10})
    return [root] + buckets, random_rules(rng, hosts, kinds)


def random_rules(rng: random.Random, hosts: list[int], kinds: tuple[str, ...]) -> list[Json]:
    """Rules of both kinds over hosts and over OSDs. One takes twice; one sets tries first, and under `--stock` another
    from which number on leaves are sought."""

    def block(host: int, count: int) -> list[list[Any]]:
        return [["take", host], ["choose_firstn", count, 0], ["emit"]]

    tries: list[list[Any]] = [["set_choose_tries", rng.randint(1, 60)]]
    leaves: list[list[Any]] = []
    if "straw2" in kinds:
        leaves = [["set_chooseleaf_vary_r", rng.randint(0, 4)], ["set_chooseleaf_stable", rng.randint(0, 1)]]
    one, other, third, fourth = (rng.choice(hosts) for _ in range(4))
    steps: list[list[list[Any]]] = [
        leaves + [["take", -1], [step, 0, 1], ["emit"]] for step in ("chooseleaf_firstn", "chooseleaf_indep")
    ]
    steps += [block(one, 0), block(other, 1) + block(third, 0), tries + block(fourth, 0)]
    return [{"id": rule, "kind": KIND_OF[rule], "steps": own} for rule, own in enumerate(steps)]


def random_pool(rng: random.Random, number: int) -> Json:
    rule = rng.randrange(len(KIND_OF))
    groups = rng.randint(1, 12)
    placed, size = rng.randint(1, groups), rng.randint(1, 4)
    return pool_of(number, groups, size, rule, KIND_OF[rule], placed)


def random_map(rng: random.Random, kinds: tuple[str, ...]) -> Json:
    osds = rng.randint(4, 12)
    buckets, rules = random_forest(rng, osds, kinds)
    pools = [random_pool(rng, number) for number in rng.sample(range(1, 9), rng.randint(1, 3))]
    states = [osd_of(osd, rng.random() < 0.8, rng.choice([65536, 65536, 32768, 0])) for osd in range(osds)]
    return map_of(buckets, rules, sorted(pools, key=lambda pool: int(pool["id"])), states, version=2)


def some(rng: random.Random, values: Iterable[Any], most: int) -> list[Any]:
    all_values = list(values)
    return rng.sample(all_values, min(len(all_values), rng.randint(1, most)))


def groups_of(pools: Pools) -> list[tuple[int, int]]:
    return [(pool, number) for pool in pools for number in range(pools[pool]["pg_num"])]


def random_change(rng: random.Random, osds: int, pools: Pools, kinds: tuple[str, ...]) -> Json:
    """A change that is not refused, of one to three parts; the pools are then those after it."""
    change: dict[str, Any] = {}
    for part in rng.sample(
        ["down", "up", "weight", "pools", "grow", "crush", "upmap", "items", "clear"], rng.randint(1, 3)
    ):
        if part in ("down", "up"):
            change[part] = [
                osd for osd in some(rng, range(osds), 3) if osd not in change.get("up", []) + change.get("down", [])
            ]
        elif part == "weight":
            change["weight"] = [[osd, rng.choice([0, 32768, 65536])] for osd in some(rng, range(osds), 2)]
        elif part == "pools":
            if len(pools) > 1 and rng.random() < 0.5:
                gone = rng.choice(
                    [number for number in pools if [number] != [entry[0] for entry in change.get("grow_pool", [])]]
                )
                change["old_pools"] = [gone]
                del pools[gone]
            else:
                new = random_pool(rng, rng.choice([n for n in range(1, 10) if n not in pools]))
                change["new_pools"] = [new]
                pools[new["id"]] = new
        elif part == "grow":
            there = [number for number in pools if number not in [new["id"] for new in change.get("new_pools", [])]]
            if not there:
                continue
            pool = pools[rng.choice(there)]
            pool = dict(pool, pg_num=pool["pg_num"] + rng.randint(0, 3))
            pool["pgp_num"] = rng.randint(pool["pgp_num"], pool["pg_num"])
            pools[pool["id"]] = pool
            change["grow_pool"] = [[pool["id"], pool["pg_num"], pool["pgp_num"]]]
        elif part == "crush":
            buckets, rules = random_forest(rng, osds, kinds)
            change["new_crush"] = {"buckets": buckets, "rules": rules}
    exceptions(rng, osds, pools, change)
    return change


def exceptions(rng: random.Random, osds: int, pools: Pools, change: Json) -> None:
    """Explicit sets and pairs that come or go, of groups of the pools after the change."""
    for pool, number in some(rng, groups_of(pools), 3) if rng.random() < 0.6 else []:
        name, size = f"{pool}.{number:x}", pools[pool]["size"]
        explicit, items = rng.choice(["old_upmap", "new_upmap", None]), rng.choice(["old_items", "new_items", None])
        come = {
            "new_upmap": [name, rng.sample(range(osds), rng.randint(1, min(osds, size)))],
            "new_items": [name, [rng.sample(range(osds), 2) for _ in range(rng.randint(1, size))]],
        }
        for key in filter(None, (explicit, items)):
            change.setdefault(key, []).append(come.get(key, name))


def questions(osds: int, pools: Pools, is_stock: bool) -> list[str]:
    """Every group's up set, every OSD's count and groups, and the map; under `--stock` also the sets of every pool, at
    the monitor and by the follower."""
    lines = [f"up {pool}.{number:x}" for pool, number in groups_of(pools)]
    lines += [f"{word} {osd}" for word in ("count", "groups") for osd in range(osds)]
    if is_stock:
        lines += [*(f"ups {pool}" for pool in pools), "follow", *(f"fups {pool}" for pool in pools)]
    return [*lines, "dump"]


class History:
    """The first map of a seed, and the lines of a script: changes, each with the questions that follow it."""

    def __init__(self, seed: int, kinds: tuple[str, ...]) -> None:
        rng = random.Random(seed)
        self.name, self.words, self.first = f"history {seed}", ["--stock"] * ("straw2" in kinds), random_map(rng, kinds)
        osds, pools = self.first["max_osd"], {pool["id"]: pool for pool in self.first["pools"]}
        self.lines, self.asked = [], []
        for epoch in range(1, CHANGES + 1):
            change = random_change(rng, osds, pools, kinds)
            self.lines.append("change " + json.dumps(dict(change, base=epoch)))
            self.asked.append((len(self.lines), questions(osds, pools, "straw2" in kinds)))
            self.lines += self.asked[-1][1]

    def answers(self, program: pathlib.Path, folder: pathlib.Path, text: str, lines: list[str]) -> list[str]:
        """What a run answers to these lines."""
        (folder / "map").write_text(text)
        (folder / "script").write_text("".join(line + "\n" for line in lines))
        words = [str(program), *self.words, str(folder / "map"), str(folder / "script")]
        return subprocess.run(words, capture_output=True, text=True, check=True, timeout=60).stdout.splitlines()[1:]

    def faults(self, program: pathlib.Path, folder: pathlib.Path) -> list[str]:
        """What differs of the history, in words; none is the empty list."""
        patched, wrong = self.answers(program, folder, json.dumps(self.first), self.lines), []
        for epoch, (at, wanted) in enumerate(self.asked, 2):
            if not patched[at - 1].startswith(f"ok {epoch} "):
                return [f"{self.name}, epoch {epoch}: {self.lines[at - 1]}: {patched[at - 1]}"]
            mine = patched[at : at + len(wanted)]
            anew = self.answers(program, folder, mine[-1].removeprefix("dump "), wanted)
            wrong += [
                f"{self.name}, epoch {epoch}: {line}: {one}, built anew {other}"
                for line, one, other in zipped(wanted, mine, anew)
                if one != other
            ]
        return wrong + (self.unlike_model(patched) if self.words else [])

    def unlike_model(self, patched: list[str]) -> list[str]:
        """What the model answers otherwise."""
        return [
            f"{self.name}: {line}: {one}, the model {other}"
            for line, one, other in zipped(self.lines, patched, model.answers(self.first, self.lines))
            if one != other
        ]


def histories(way: str, kinds: tuple[str, ...]) -> Iterator[Check]:
    """A check for each history of some kinds of buckets."""

    def work_of(seed: int) -> Callable[[pathlib.Path], list[str]]:
        def work(command: pathlib.Path) -> list[str]:
            with tempfile.TemporaryDirectory() as folder:
                return History(seed, kinds).faults(command, pathlib.Path(folder))

        return work

    for seed in range(SEED, SEED + HISTORIES):
        yield Check(f"{CHANGES} tables that patches led to{way}, seed {seed}", work_of(seed))


def idle_changes(count: int) -> Run:
    """So many changes that evaluate nothing, over as many groups as a pool may have: each gives an OSD that no rule
    reaches another reweight. A table that were built anew for each would take past the limit."""
    osds = osds_of(11)
    pool = {"pools/0/pg_num": 65536, "pools/0/pgp_num": 65536, "pools/0/size": 10}
    items = {"buckets/0/items": [[osd, 65536] for osd in range(10)], "max_osd": 11, "osds": osds}
    lines, answers = [], ["session 1"]
    for base in range(1, 1 + count):
        lines.append("change " + written({"base": base, "weight": [[10, base]]}))
        answers.append(f"ok {base + 1} evals 0")
    files: dict[str, str | bytes | None] = {
        "map": written(with_values(MAPS["one device"], pool | items)),
        "script": "".join(line + "\n" for line in lines),
    }
    output = "".join(answer + "\n" for answer in answers)
    words = ["--stock", "--journal", "65536", "map", "script"]
    return Run(f"{count} changes without evaluations", files, output, arguments=words)


class PatchedTables(RowCase):
    """Histories of random changes."""

    def test_plain(self) -> None:
        """Tables that changes led to are those of the maps then written."""
        self.check_runs(histories("", KINDS))

    def test_stock(self) -> None:
        """Under `--stock` they are those of the model too."""
        self.check_runs(histories(" under --stock", STOCK))

    def test_idle_changes(self) -> None:
        """A change costs what it evaluates, however many groups there are."""
        self.check_runs([idle_changes(10_000)])
