"""Random clusters of each profile of tunables beside Ceph's own crushtool: each up set is the one that it tells.

crushtool has the tunables as they stand in a CRUSH map. `import` makes a map of its dump, which has none: there the
rules begin with steps that set them. The rules choose hosts, racks and OSDs, packed and for positions; some set tries
or tunables themselves, and change them between their blocks.
"""

from __future__ import annotations

import json
import os
import pathlib
import random
import re
import shutil
import subprocess
from collections.abc import Iterator
from typing import Any

from tests import model
from tests.clusters import STOCK, Json, copied
from tests.tool_cases import StockCase
from tests.whole_maps import map_of, osd_of, pool_of, rule_of

SEED = 20261129
# So many maps of each profile: 64 where LONG is set, which takes minutes.
MAPS = 64 if os.environ.get("LONG") else 3
GROUPS = 32
SIZES = (1, 2, 3, 4, 5, 6, 8, 10)
KINDS = ("straw2", "uniform", "list", "tree")
# The types of buckets, as the text of a CRUSH map names them.
TYPES = {0: "osd", 1: "host", 3: "rack", 10: "root"}
MAPPING = re.compile(r"CRUSH rule (\d+) x (\d+) \[([^\]]*)\]")
NONE = "2147483647"
# The tunables of each profile that are not jewel's (Ceph, CrushWrapper.h), and a random one's.
PROFILES: dict[str, dict[str, int]] = {
    "bobtail": {"chooseleaf_vary_r": 0, "chooseleaf_stable": 0},
    "firefly": {"chooseleaf_stable": 0},
    "hammer": {"chooseleaf_stable": 0},
    "jewel": {},
}
JEWEL = {
    "choose_local_tries": 0,
    "choose_local_fallback_tries": 0,
    "choose_total_tries": 50,
    "chooseleaf_descend_once": 1,
    "chooseleaf_vary_r": 1,
    "chooseleaf_stable": 1,
    "straw_calc_version": 1,
    "allowed_bucket_algs": 62,
}


def steps_of(tunables: dict[str, int]) -> list[list[Any]]:
    """The steps that set tunables at the front of a rule; a rule counts its first try, and the tunable does not."""
    given = {**JEWEL, **tunables}
    steps: list[list[Any]] = []
    if given["choose_total_tries"] != 50:
        steps.append(["set_choose_tries", given["choose_total_tries"] + 1])
    for name in ("chooseleaf_vary_r", "chooseleaf_stable"):
        steps += [["set_" + name, given[name]]] if given[name] != 1 else []
    return steps


def weighed(rng: random.Random, kind: str, items: list[int]) -> list[list[int]]:
    """Items with weights that a text of crushtool has exactly: eighths, all the same in a uniform bucket."""
    same = 8192 * rng.randint(1, 40)
    return [[item, same if kind == "uniform" else 8192 * rng.randint(1, 40)] for item in items]


def random_buckets(rng: random.Random) -> list[Json]:
    """A straw2 root of racks of hosts of OSDs, each bucket of a random kind; the OSDs are numbered at random."""
    racks = [rng.randint(1, 4) for _ in range(rng.randint(2, 5))]
    disks = [[rng.randint(1, 4) for _ in range(hosts)] for hosts in racks]
    count = sum(sum(own) for own in disks)
    osds = rng.sample(range(count), count)
    found: list[Json] = []
    number = -2
    items: dict[int, list[int]] = {-1: []}
    for rack in disks:
        top, number = number, number - 1
        items[-1].append(top)
        items[top] = []
        for own in rack:
            items[top].append(number)
            items[number] = [osds.pop() for _ in range(own)]
            number -= 1
    for bucket, inside in items.items():
        kind = rng.choice(KINDS) if bucket < -1 else "straw2"
        level = 10 if bucket == -1 else 1 if inside[0] >= 0 else 3
        found.append({"id": bucket, "items": weighed(rng, kind, inside), "kind": kind, "type": level})
    return found


def setting(rng: random.Random) -> list[list[Any]]:
    """A few steps that set how a rule tries."""
    steps: list[list[Any]] = [
        ["set_choose_tries", rng.choice([1, 3, 20, 51, 100])],
        ["set_chooseleaf_tries", rng.choice([1, 2, 5, 10])],
        ["set_chooseleaf_vary_r", rng.randint(0, 4)],
        ["set_chooseleaf_stable", rng.randint(0, 1)],
    ]
    return rng.sample(steps, rng.randint(0, 3))


def random_rules(rng: random.Random, way: str, racks: list[int]) -> Iterator[list[list[Any]]]:
    """Rules of one way of choosing: one block or two, with steps that set how they try or without."""
    whole: list[list[Any]] = [["take", -1], [f"chooseleaf_{way}", 0, rng.choice([1, 3])], ["emit"]]
    yield whole
    yield setting(rng) + whole
    falling: list[list[Any]] = [["take", -1], [f"choose_{way}", 2, 3], [f"chooseleaf_{way}", rng.randint(1, 3), 1]]
    yield setting(rng) + falling + [["emit"]]
    one, other = rng.choice(racks), rng.choice(racks)
    first: list[list[Any]] = [["take", one], [f"chooseleaf_{way}", 2, 1], ["emit"]]
    second: list[list[Any]] = [["take", other], [f"choose_{way}", 0, 0], ["emit"]]
    yield setting(rng) + first + setting(rng) + second


def random_map(rng: random.Random) -> Json:
    """A map of random buckets and rules, with a pool of a random size for each rule, all of whose OSDs are up."""
    buckets = random_buckets(rng)
    racks = [bucket["id"] for bucket in buckets if bucket["type"] == 3]
    osds = sum(1 for bucket in buckets for item, _ in bucket["items"] if item >= 0)
    ways = [("replicated", "firstn"), ("erasure", "indep"), ("replicated", "firstn")]
    own = [(kind, steps) for kind, way in ways for steps in random_rules(rng, way, racks)]
    rules = [rule_of(steps, at, kind) for at, (kind, steps) in enumerate(own)]
    states = [osd_of(osd, weight=rng.choice([65536, 65536, 65536, 32768, 8192, 0])) for osd in range(osds)]
    pools = [pool_of(at + 1, GROUPS, rng.choice(SIZES), at, kind) for at, (kind, _) in enumerate(own)]
    return map_of(buckets, rules, pools, states, version=2)


def crush_text(value: Json, tunables: dict[str, int]) -> str:
    """The CRUSH map of a map with some tunables, as crushtool compiles it."""
    lines = [f"tunable {name} {number}" for name, number in {**JEWEL, **tunables}.items()]
    lines += [f"device {osd} osd.{osd}" for osd in range(value["max_osd"])]
    lines += [f"type {number} {name}" for number, name in TYPES.items()]
    for bucket in sorted(value["buckets"], key=lambda own: int(own["type"])):
        items = [f"item {name_of(item)} weight {weight / 65536:.3f}" for item, weight in bucket["items"]]
        inside = [f"id {bucket['id']}", f"alg {bucket['kind']}", "hash 0", *items]
        lines.append(f"{TYPES[bucket['type']]} {name_of(bucket['id'])} {{\n" + "\n".join(inside) + "\n}")
    for rule in value["rules"]:
        inside = [f"id {rule['id']}", f"type {rule['kind']}", "min_size 1", "max_size 20"]
        inside += [f"step {step_text(step)}" for step in rule["steps"]]
        lines.append(f"rule r{rule['id']} {{\n" + "\n".join(inside) + "\n}")
    return "\n".join(lines) + "\n"


def name_of(item: int) -> str:
    """The name of an item."""
    return f"osd.{item}" if item >= 0 else f"b{-item}"


def step_text(step: list[Any]) -> str:
    """A step as crushtool compiles it."""
    word, *numbers = step
    if word == "take":
        return f"take {name_of(numbers[0])}"
    if word.startswith("choose"):
        choose, way = word.split("_")
        return f"{choose} {way} {numbers[0]} type {TYPES[numbers[1]]}"
    return " ".join([word, *map(str, numbers)])


def osd_dump_of(value: Json) -> Json:
    """What `ceph osd dump` prints of the OSDs and pools of a map."""
    return {
        "epoch": 1,
        "max_osd": value["max_osd"],
        "osds": [
            {"osd": osd["id"], "up": 1, "weight": osd["weight"] / 65536, "state": ["exists", "up"]}
            for osd in value["osds"]
        ],
        "pools": [
            {
                "pool": pool["id"],
                "pool_name": f"p{pool['id']}",
                "type": 1 if pool["kind"] == "replicated" else 3,
                "size": pool["size"],
                "crush_rule": pool["rule"],
                "pg_num": GROUPS,
                "pg_placement_num": GROUPS,
                "flags": 1,
            }
            for pool in value["pools"]
        ],
    }


def crush_map(value: Json, tunables: dict[str, int], folder: pathlib.Path) -> pathlib.Path:
    """The CRUSH map of a map with some tunables, compiled."""
    text, compiled = folder / "crush.txt", folder / "crush.bin"
    text.write_text(crush_text(value, tunables))
    subprocess.run(["crushtool", "-c", text, "-o", compiled], capture_output=True, timeout=60, check=True)
    return compiled


def dumped(compiled: pathlib.Path) -> Json:
    """The dump of a CRUSH map."""
    done = subprocess.run(["crushtool", "-i", compiled, "--dump"], capture_output=True, timeout=60, check=True)
    found: Json = json.loads(done.stdout)
    return found


def ceph_sets(value: Json, compiled: pathlib.Path) -> dict[str, list[int | None]]:
    """The set of each group of a map by a CRUSH map, as crushtool tells it."""
    found: dict[str, list[int | None]] = {}
    weights = [word for osd in value["osds"] for word in ("--weight", str(osd["id"]), str(osd["weight"] / 65536))]
    for pool in value["pools"]:
        about = ["--rule", pool["rule"], "--num-rep", pool["size"], "--pool-id", pool["id"]]
        words = ["crushtool", "-i", compiled, "--test", "--show-mappings", *about, "--min-x", 0, "--max-x", GROUPS - 1]
        told = subprocess.run([*map(str, words), *weights], capture_output=True, text=True, timeout=60, check=True)
        for _, number, places in MAPPING.findall(told.stdout + told.stderr):
            own = [None if place == NONE else int(place) for place in places.split(",") if place]
            found[f"{pool['id']}.{int(number):x}"] = own
    return found


class OlderTunables(StockCase):
    """Clusters with older tunables."""

    def is_as_in_ceph(self, value: Json, tunables: dict[str, int], name: str) -> int:
        """Asks that each set of a map with some tunables is that of crushtool, by the program and by the model; and
        tells how many there are."""
        compiled = crush_map(value, tunables, self.tools.folder)
        wanted, cluster = ceph_sets(value, compiled), {"osd_dump": osd_dump_of(value), "crush_dump": dumped(compiled)}
        brought = json.loads(self.output("import", *self.dumps(name, cluster)))
        told = {group: answer.rsplit(" ", 1)[0] for group, answer in self.sets(brought).items()}
        self.are_alike(told, {group: written(places) for group, places in wanted.items()}, name)
        for rule in value["rules"]:
            rule["steps"] = steps_of(tunables) + rule["steps"]
        own = model.Cluster(value)
        self.are_alike({group: own.raw(model.group_of(group)) for group in wanted}, wanted, f"{name}: the model")
        return len(wanted)

    def test_random_maps(self) -> None:
        """Every set of random maps of each profile is that of crushtool, by the program and by the model."""
        self.needs("crushtool", shutil.which("crushtool") is not None)
        rng, total = random.Random(SEED), 0
        for profile, tunables in [(name, own) for name, own in PROFILES.items() for _ in range(MAPS)]:
            value, tries = random_map(rng), rng.choice([50, 50, 19, 100])
            with self.subTest(profile=profile, at=total, tries=tries):
                total += self.is_as_in_ceph(value, {**tunables, "choose_total_tries": tries}, profile)
        self.assertEqual(total, MAPS * len(PROFILES) * 12 * GROUPS)

    def told_of(self, tunables: dict[str, int], steps: list[Json], *words: object) -> tuple[Json, str]:
        """The steps of the rules of a stock cluster that comes in with some tunables and steps before its first rule's
        own, and what is told against it."""
        own = copied(STOCK["001-three-hosts"])
        own["crush_dump"]["tunables"].update(tunables)
        own["crush_dump"]["rules"][0]["steps"][:0] = steps
        status, output, error = self.tools.run("import", *self.dumps("older", own), *words)
        return [rule["steps"] for rule in json.loads(output)["rules"]] if status == 0 else None, error

    def test_steps_of_tunables(self) -> None:
        """The tunables of a cluster are steps at the front of the rules that look at them and do not set them, and the
        steps of a rule come in as a monitor dumps them, by their numbers."""
        block: list[list[Any]] = [["take", -1], ["chooseleaf_firstn", 0, 1], ["emit"]]
        stable, vary = {"opcode": 13, "arg1": 0, "arg2": 0}, {"opcode": 12, "arg1": 4, "arg2": 0}
        cases: list[tuple[dict[str, int], list[Json], list[list[Any]]]] = [
            ({}, [], []),
            ({"chooseleaf_stable": 0}, [], [["set_chooseleaf_stable", 0]]),
            ({"chooseleaf_vary_r": 0, "chooseleaf_stable": 0}, [], steps_of(PROFILES["bobtail"])),
            ({"choose_total_tries": 19}, [], [["set_choose_tries", 20]]),
            ({"choose_total_tries": 199}, [], [["set_choose_tries", 200]]),
            ({"choose_total_tries": 0}, [], [["set_choose_tries", 1]]),
            ({}, [stable, vary], [["set_chooseleaf_stable", 0], ["set_chooseleaf_vary_r", 4]]),
            ({"chooseleaf_stable": 0}, [dict(stable, arg1=1)], [["set_chooseleaf_stable", 1]]),
        ]
        for tunables, steps, wanted in cases:
            with self.subTest(tunables=tunables, steps=steps):
                self.assertEqual(self.told_of(tunables, steps)[0], [wanted + block])

    def test_take_behind_idle(self) -> None:
        """A block gives nothing where a step of it chooses nothing, unless a later step takes anew: such a block is not
        left out, and as no rule of a map has it, it keeps the cluster out."""
        take = {"op": "take", "item": -1, "item_name": "default"}
        none, emit = {"op": "choose_firstn", "num": -3, "type": "host"}, {"op": "emit"}
        own = [["take", -1], ["chooseleaf_firstn", 0, 1], ["emit"]]
        self.assertEqual(self.told_of({}, [take, none, emit])[0], [own])
        found, error = self.told_of({}, [take, none])
        self.assertIsNone(found)
        self.assertIn("a block is a take, one to three choose steps and an emit", error)

    def test_tunables_that_stay_out(self) -> None:
        """What no step sets, and numbers past those that a step sets, keep a cluster out, and so does a rule that gets
        too long."""
        stable = {"opcode": 13, "arg1": 0, "arg2": 0}
        cases: list[tuple[dict[str, int], list[Json], str]] = [
            ({"choose_local_tries": 2}, [], "tunable choose_local_tries is 2, not 0: `ceph osd crush tunables jewel`"),
            ({"chooseleaf_descend_once": 0}, [], "tunable chooseleaf_descend_once is 0, not 1: "),
            ({"choose_total_tries": 200}, [], "tunable choose_total_tries is 200, more than 199: "),
            ({"chooseleaf_vary_r": 5}, [], "tunable chooseleaf_vary_r is 5, more than 4: "),
            ({"chooseleaf_stable": 2}, [], "tunable chooseleaf_stable is 2, more than 1: "),
            ({}, [dict(stable, arg1=2)], "has the number 2 in a step set_chooseleaf_stable, more than 1"),
            ({}, [dict(stable, arg1=-1)], "has the negative count -1 in a step set_chooseleaf_stable"),
            ({}, [{"opcode": 13}], "steps[0].num: missing"),
            ({"chooseleaf_vary_r": 0}, [stable] * 13, "has 17 steps with those that set tunables, more than 16"),
        ]
        for tunables, steps, wanted in cases:
            with self.subTest(tunables=tunables, steps=steps):
                found, error = self.told_of(tunables, steps)
                self.assertIsNone(found)
                self.assertIn(wanted, error)
                self.assertEqual(len(error.splitlines()), 1, error)


def written(places: list[int | None]) -> str:
    """A set as the program writes it."""
    return "[" + ",".join("none" if place is None else str(place) for place in places) + "]"
