"""Shares that a rule can reach: what `df` tells of them, and plans that go by them.

The example cluster has three hosts of four disks, and pools of size 3, so that each host has one place of each group.
Here two disks of the third host are small.
"""

from __future__ import annotations

import json
import pathlib
import random
from collections import Counter
from collections.abc import Mapping
from typing import Any

from tests.cases import TOP
from tests.clusters import Json, commands, places, with_commands
from tests.reaches import counts_of
from tests.tool_cases import ToolCase
from tests.whole_maps import map_of, osds_of, pool_of, rule_of

CEPH = TOP / "examples" / "ceph"
# The disks that are small, and what they may weigh; the groups of both pools and of the pool that is planned.
SMALL, SIZES = (10, 11), {29802: 20, 59605: 22}
GROUPS, PLANNED = 129, 128
# How many groups the pool of a small tree has.
TREE_GROUPS = 4096


def with_weights(crush: Json, weights: Mapping[int, int]) -> Json:
    """A CRUSH dump in which some OSDs weigh something else, and the buckets above them what is in them."""
    of_bucket = {bucket["id"]: bucket for bucket in crush["buckets"]}
    for bucket in sorted(crush["buckets"], key=lambda own: int(own["type_id"])):
        for item in bucket["items"]:
            item["weight"] = weights.get(item["id"], item["weight"])
            if item["id"] < 0:
                item["weight"] = of_bucket[item["id"]]["weight"]
        bucket["weight"] = sum(item["weight"] for item in bucket["items"])
    return crush


def tree_of(rng: random.Random) -> Json:
    """A map of a few unequal racks of unequal hosts and disks, and a pool of size 3 over hosts or racks."""
    buckets: list[Json] = [{"id": -1, "items": [], "kind": "straw2", "type": 10}]
    count = 0
    for rack in range(rng.randint(3, 4)):
        hosts = []
        for host in range(rng.randint(1, 3)):
            disks = [[count + at, rng.choice((1, 2, 4, 8)) * 32768] for at in range(rng.randint(1, 4))]
            count += len(disks)
            number = -100 - 10 * rack - host
            buckets.append({"id": number, "items": disks, "kind": "straw2", "type": 1})
            hosts.append([number, sum(weight for _, weight in disks)])
        buckets.append({"id": -2 - rack, "items": hosts, "kind": "straw2", "type": 3})
        buckets[0]["items"].append([-2 - rack, sum(weight for _, weight in hosts)])
    steps = [["take", -1], ["chooseleaf_firstn", 0, rng.choice((1, 3))], ["emit"]]
    none: dict[str, list[Json]] = {"pg_upmap": [], "pg_upmap_items": []}
    return map_of(buckets, [rule_of(steps)], [pool_of(1, TREE_GROUPS, 3)], osds_of(count), version=2, **none)


class Reach(ToolCase):
    """The three hosts."""

    def dumps_of(self, weights: Mapping[int, int]) -> tuple[pathlib.Path, pathlib.Path]:
        """The dumps of the cluster where some disks weigh something else."""
        crush = with_weights(json.loads((CEPH / "crush.json").read_text()), weights)
        return CEPH / "osd.json", self.tools.put("crush", crush)

    def reach_of(self, files: tuple[pathlib.Path, pathlib.Path], groups: int) -> dict[int, float]:
        """What each OSD can have of so many groups: those of its host, by weight."""
        crush, found = json.loads(files[1].read_text()), dict[int, float]()
        for bucket in crush["buckets"]:
            if bucket["type_name"] == "host" and "~" not in bucket["name"]:
                whole = sum(item["weight"] for item in bucket["items"])
                found.update({item["id"]: groups * item["weight"] / whole for item in bucket["items"]})
        return found

    def test_df_of_unequal_hosts(self) -> None:
        """`df` has SHARE by weight, REACH by what a host can have, and the hosts that keep a pool from being even."""
        files = self.dumps_of(dict.fromkeys(SMALL, 29802))
        reach, lines = self.reach_of(files, GROUPS), self.output("df", *files).splitlines()
        rows = {int(own[0]): own for own in (line.split() for line in lines) if own[-1].startswith("osd.")}
        self.assertEqual(lines[0].split()[4:6], ["SHARE", "REACH"])
        self.assertEqual({osd: float(own[5]) for osd, own in rows.items()}, {o: round(r, 2) for o, r in reach.items()})
        self.assertEqual((rows[10][4], rows[0][4]), ("4.72", "37.76"))
        self.assertIn(
            "it cannot be even by weight: host node3 holds one place of each group (0.66 by weight)", lines[-3]
        )
        told = self.json("df", *files)
        own = {node["id"]: node for node in told["nodes"] if node["id"] >= 0}
        self.assertEqual({osd: node["reach"] for osd, node in own.items()}, {o: round(r, 2) for o, r in reach.items()})
        self.assertEqual([len(pool["full"]) for pool in told["pools"]], [3, 3])
        self.assertEqual(told["summary"]["reach"], 3 * GROUPS)

    def test_df_of_equal_hosts(self) -> None:
        """Where shares by weight can be reached there is one column of them, and no pool is told of."""
        output = self.output("df", *self.dumps_of({}))
        self.assertNotIn("REACH", output)
        self.assertNotIn("by weight", output)

    def test_plans_reach(self) -> None:
        """A plan brings each OSD within 1.5 places of what it can have, by few moves; every move there is takes a few
        more."""
        for weight, most in SIZES.items():
            files = self.dumps_of(dict.fromkeys(SMALL, weight))
            reach = self.reach_of(files, PLANNED)
            ways: list[list[str]] = [[], ["--alone"]]
            for words in ways:
                told = self.json("plan", *files, "--of-pool", "rbd", *words)
                counts = self.counts_after(files, told["commands"])
                with self.subTest(weight=weight, words=words):
                    self.assertLessEqual(max(abs(counts[osd] - own) for osd, own in reach.items()), 1.5)
                    self.assertLessEqual(told["pools"][0]["moves"], most + 4 * len(words))

    def short_dumps(self) -> tuple[pathlib.Path, pathlib.Path]:
        """The dumps of the cluster where the third host weighs so little, and CRUSH tries so seldom, that most groups
        are left without a place there.
        """
        crush = with_weights(json.loads((CEPH / "crush.json").read_text()), dict.fromkeys(range(8, 12), 5960))
        crush["tunables"]["choose_total_tries"] = 8
        return CEPH / "osd.json", self.tools.put("short", crush)

    def sets_by_pool(self, files: tuple[pathlib.Path, pathlib.Path], lines: list[str]) -> dict[int, list[set[int]]]:
        """The sets of each pool's groups by the program, once commands are given."""
        found: dict[int, list[set[int]]] = {1: [], 2: []}
        value = with_commands(json.loads(self.output("import", *files)), lines)
        for group, own in self.tools.sets(value, "--stock").items():
            found[int(group.split(".")[0])].append(set(places(own)))
        return found

    def test_short_groups(self) -> None:
        """Where CRUSH leaves groups short a full host counts the groups that have a place there, and no more: `df` says
        so, and by a plan each host gets as many, but for rounding.
        """
        files, hosts = self.short_dumps(), [set(range(first, first + 4)) for first in (0, 4, 8)]

        def there(lines: list[str]) -> list[list[int]]:
            sets = self.sets_by_pool(files, lines)
            return [[sum(not host.isdisjoint(own) for own in sets[pool]) for pool in sets] for host in hosts]

        before = there([])
        self.assertEqual([own[1] for own in before[:2]], [PLANNED] * 2)
        self.assertTrue(0 < before[2][1] < PLANNED / 3, before)
        reach = {node["id"]: node["reach"] for node in self.json("df", *files)["nodes"]}
        for host, counts in zip(hosts, before):
            self.assertEqual([reach[osd] for osd in host], [sum(counts) / 4] * 4)
        ways: list[list[object]] = [[], ["--alone"], ["--deviation", 0.5]]
        for words in ways:
            after = there(self.json("plan", *files, *words)["commands"])
            with self.subTest(words=words):
                for counts, own in zip(after, before):
                    self.assertLessEqual(abs(counts[1] - own[1]), 1, after)

    def test_plans_by_weight(self) -> None:
        """By weight alone the small disks would get three times their share, as Ceph's balancer would have it. Without
        --anyway they get no more, to their weight, than the fullest OSD had before.
        """
        files = self.dumps_of(dict.fromkeys(SMALL, 29802))
        told = self.json("plan", *files, "--alone", "--by-weight", "--anyway")
        counts = self.counts_after(files, told["commands"])
        self.assertEqual((told["pools"][1]["moves"], [counts[osd] for osd in SMALL]), (37, [16, 16]))
        weights = {osd: 29802 if osd in SMALL else 238419 for osd in range(12)}
        before, after = (
            self.counts_after(files, own)
            for own in ([], self.json("plan", *files, "--alone", "--by-weight")["commands"])
        )
        most = max(count / weights[osd] for osd, count in before.items())
        self.assertLessEqual(max(count / weights[osd] for osd, count in after.items()), most)

    def test_drained(self) -> None:
        """No group goes to an OSD of next to no weight."""
        files = self.dumps_of({10: 7, 3: 7})
        held = {"bytes_used": 2**40, "stored": 2**40}
        pools = [{"id": number, "name": name, "stats": held} for number, name in ((1, ".mgr"), (2, "rbd"))]
        data = self.tools.put("data", {"stats": {"total_used_raw_bytes": 5}, "pools": pools})
        ways: list[list[object]] = [[], ["--alone"], ["--df", data], ["--df", data, "--room"]]
        for words in ways:
            numbers = [line.split()[4:] for line in commands(self.output("plan", *files, *words))]
            with self.subTest(words=words):
                self.assertTrue(numbers)
                self.assertTrue({"3", "10"}.isdisjoint(number for own in numbers for number in own[1::2]))

    def counts_after(self, files: tuple[pathlib.Path, pathlib.Path], lines: list[str]) -> dict[int, int]:
        """How many groups of the pool that is planned each OSD has by the program, once commands are given."""
        value = json.loads(self.output("import", *files))
        items: dict[str, list[int]] = {line.split()[3]: list(map(int, line.split()[4:])) for line in lines}
        pairs: list[Any] = [[group, [list(pair) for pair in zip(own[::2], own[1::2])]] for group, own in items.items()]
        self.assertEqual(value["pg_upmap_items"], [])
        value["pg_upmap_items"] = sorted(pairs, key=lambda entry: int(entry[0].split(".")[1], 16))
        told = self.tools.sets(value, "--stock").items()
        sets = [json.loads(own.split(" ")[0]) for group, own in told if group.startswith("2.")]
        return {osd: sum(osd in own for own in sets) for osd in range(12)}

    def test_many_inputs(self) -> None:
        """Over 30 small trees of unequal racks, hosts and disks, and 122,880 groups together, a plan brings each OSD
        within 1.1 places, or a hundredth, of what the definition gives it, where groups left short count as they lie.
        """
        rng = random.Random(1)
        for _ in range(30):
            value = tree_of(rng)
            weights = {item: own * 65536 for bucket in value["buckets"] for item, own in bucket["items"] if item >= 0}
            path = self.tools.put("tree", value)
            lines = self.json("plan", path, "--alone")["commands"]
            before, after = (self.tools.sets(with_commands(value, own), "--stock") for own in ([], lines))
            counts = Counter(osd for up in after.values() for osd in places(up))
            wanted = counts_of(value, value["pools"][0], weights, map(places, before.values()))
            for osd, share in wanted.items():
                self.assertLessEqual(abs(counts[osd] - share), max(1.1, float(share) / 100), osd)
