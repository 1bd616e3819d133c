"""What the tools make of the files that tell what a cluster holds: of `ceph df`, `ceph pg dump` and `ceph osd df`.

A cluster of twelve OSDs in four hosts, with two pools of 96 and of 64 groups; what they hold is made up.
"""

from __future__ import annotations

import json
import pathlib
import random
import re
from collections.abc import Mapping

from tests.clusters import Json, commands, named_pools, places, with_commands
from tests.tool_cases import ToolCase

GIB, KIB = 2**30, 1024
# The pools, with their groups and sizes.
POOLS = {1: (96, 3), 7: (64, 2)}
GROUPS = [f"{pool}.{number:x}" for pool, (count, _) in POOLS.items() for number in range(count)]


def group_rows(held: Mapping[str, int]) -> list[Json]:
    """What `ceph pg dump` tells of groups."""
    return [{"pgid": group, "state": "active+clean", "stat_sum": {"num_bytes": size}} for group, size in held.items()]


class DataFiles(ToolCase):
    """Commands with the files of a cluster's data."""

    def setUp(self) -> None:
        super().setUp()
        osd_dump, crush_dump = named_pools(2)
        self.osd_dump, self.crush_dump = osd_dump, crush_dump
        self.files = [self.tools.put("o", osd_dump), self.tools.put("c", crush_dump)]
        self.map: Json = json.loads(self.output("import", *self.files))
        self.items = {item: own for bucket in self.map["buckets"] for item, own in bucket["items"] if item >= 0}
        rng = random.Random(2)
        self.held = {group: round(GIB * rng.gammavariate(2, 2)) for group in GROUPS}

    def pgs(self, held: Mapping[str, int], name: str = "pgs") -> pathlib.Path:
        """A file as `ceph pg dump` prints it."""
        return self.tools.put(name, {"pg_ready": True, "pg_map": {"pg_stats": group_rows(held)}})

    def used(self, lines: list[str]) -> dict[int, int]:
        """How many bytes the pools take on each OSD once commands are given."""
        found = dict.fromkeys(self.items, 0)
        for group, answer in self.tools.sets(with_commands(self.map, lines)).items():
            for osd in places(answer):
                found[osd] += self.held[group]
        return found

    def osds(self, sizes: Mapping[int, int], name: str = "osds") -> pathlib.Path:
        """A file as `ceph osd df` prints it, of OSDs of so many bytes."""
        nodes: list[Json] = [
            {"id": osd, "name": f"osd.{osd}", "kb": sizes[osd] // KIB, "kb_used": used // KIB}
            for osd, used in self.used([]).items()
        ]
        rows = [dict(own, kb_avail=own["kb"] - own["kb_used"], type="osd") for own in nodes]
        return self.tools.put(name, {"nodes": rows, "stray": [], "summary": {}})

    def fullest(self, lines: list[str]) -> float:
        """The greatest ratio of what an OSD has to its share by weight."""
        used, total = self.used(lines), sum(self.items.values())
        return float(max(own * total / sum(used.values()) / self.items[osd] for osd, own in used.items()))

    def test_what_each_group_holds(self) -> None:
        """By what each group holds, a plan for room brings the fullest OSD to its share, and what it tells of it is
        so; by the means of the pools it does not, and says that it goes by them."""
        pgs = self.pgs(self.held)
        output, error = self.ran("plan", *self.files, "--pgs", pgs, "--room")
        lines = commands(output)
        self.assertGreater(self.fullest([]), 1.15)
        self.assertLess(self.fullest(lines), 1.06)
        self.assertIn(f"({self.fullest(lines):.2f}), emptiest", error.split("by bytes: ")[1].split("after ")[1])
        self.assertNotIn("by the mean", error)
        told = self.json("plan", *self.files, "--pgs", pgs, "--room")
        self.assertEqual((told["commands"], told["data"]["by"]), (lines, "groups"))
        stats = [
            {"id": pool, "stats": {"bytes_used": size, "stored": size}}
            for pool, size in ((1, 3 * 96 * 4 * GIB), (7, 2 * 64 * 4 * GIB))
        ]
        df = self.tools.put("df", {"pools": stats})
        output, error = self.ran("plan", *self.files, "--df", df, "--room")
        self.assertGreater(self.fullest(commands(output)), 1.06)
        self.assertIn("cluster data: by the mean of each pool; --pgs tells what each group holds", error)
        self.assertEqual(self.json("plan", *self.files, "--df", df)["data"]["by"], "means")

    def test_disks(self) -> None:
        """With the disks no OSD gets nearly full while a part of a plan is run, even while nothing has gone yet; what
        is left on OSDs is told by them, and the use of the fullest."""
        sizes = {osd: round(sum(self.held.values()) * own / 65536 / 3) for osd, own in self.items.items()}
        start = self.used([])
        full: int = min((sizes[osd] - start[osd], osd) for osd in start)[1]
        sizes[full] = round(start[full] / 0.845)
        words = ["--pgs", self.pgs(self.held), "--osds", self.osds(sizes)]
        paths = self.output("plan", *self.files, *words, "--batch", 8, "--to", "parts").splitlines()
        done: list[str] = []
        for path in paths:
            part = commands(pathlib.Path(self.tools.folder, path).read_text())
            before, there = self.tools.sets(with_commands(self.map, done)), self.used(done)
            after = self.tools.sets(with_commands(self.map, done + part))
            for group, size in self.held.items():
                for osd in set(places(after[group])) - set(places(before[group])):
                    there[osd] += size
            done += part
            self.assertLessEqual(max(own / sizes[osd] for osd, own in there.items()), 0.85, path)
        self.assertGreater(len(done), 5)
        told = self.json("plan", *self.files, *words)["cluster"]
        use = max(own / sizes[osd] for osd, own in self.used([]).items())
        self.assertAlmostEqual(told["before"]["use"]["fullest"]["ratio"], use, delta=1e-4)
        self.assertLess(told["after"]["use"]["fullest"]["ratio"], use)

    def test_an_osd_that_stops_a_plan(self) -> None:
        """A plan that would fill an OSD too far leaves these steps, and says which OSD stops it."""
        used = self.used([])
        sizes = {osd: round(own / 0.849) for osd, own in used.items()}
        words = ["--pgs", self.pgs(self.held), "--osds", self.osds(sizes)]
        output, error = self.ran("plan", *self.files, *words)
        self.assertEqual(output, "")
        self.assertRegex(error, r"cluster stopped: osd\.\d+ would get nearly full by \d+ more steps?, left out here; ")
        self.assertTrue(self.json("plan", *self.files, *words)["data"]["stopped"])

    def test_other_clusters(self) -> None:
        """A file that lacks a group or an OSD, has one that the cluster does not have, or another form, is told by its
        line; so it is without data, and of an erasure pool by its groups alone."""
        held, sizes = dict(self.held), dict.fromkeys(self.items, 10**14)
        osds, nodes = self.osds(sizes), json.loads(self.osds(sizes).read_text())["nodes"]
        pgs, last = self.pgs(held), max(sizes)
        rows = group_rows(held)
        for what, value, line in (
            ("--pgs", group_rows({group: 1 for group in held if group != "7.5"}), "no group 7.5"),
            ("--pgs", group_rows({group: 1 for group in held if group[0] == "1"}), "no group 7.0, and 63 more"),
            ("--pgs", [*rows, *group_rows({"1.60": 1})], "the cluster has no group 1.60"),
            ("--pgs", [*rows, *group_rows({"9.0": 1})], "the cluster has no pool 9"),
            ("--pgs", [*rows, rows[0]], "1.0 stands there twice"),
            ("--pgs", [*rows, {"pgid": "1.0"}], "pg_stats[160].stat_sum: missing"),
            ("--osds", nodes[:-1], f"no osd.{last}"),
            ("--osds", [*nodes, dict(nodes[0], id=99)], "the cluster has no osd.99"),
            ("--osds", [*nodes[:-1], dict(nodes[-1], kb=0)], f"osd.{last} has no size there"),
            ("--osds", [*nodes, nodes[0]], f"osd.{nodes[0]['id']} stands there twice"),
            ("--osds", [{"id": 0}], "nodes[0].kb: missing"),
        ):
            with self.subTest(line=line):
                path = self.tools.put("w", {"pg_stats": value} if what == "--pgs" else {"nodes": value})
                own = [what, path] + (["--pgs", pgs] if what == "--osds" else [])
                status, output, error = self.tools.run("plan", *self.files, *own)
                self.assertEqual((status, output), (1, ""))
                self.assertEqual(error.splitlines()[0], f"{path}: {line}")
        self.is_told(self.tools.run("plan", *self.files, "--pgs", self.tools.put("w", {})), 1, "no pg_stats in it", "")
        told = "--osds goes with --df or --pgs, which tell what moves"
        self.is_told(self.tools.run("plan", *self.files, "--osds", osds), 2, told, "")

    def test_some_pools_alone(self) -> None:
        """Where only some pools come in, nothing is told of the whole cluster's bytes or room, and no plan is made for
        room alone."""
        stats = [{"id": pool, "stats": {"bytes_used": GIB, "stored": GIB}} for pool in POOLS]
        words = [*self.files, "--pools", "7", "--df", self.tools.put("df", {"pools": stats})]
        told = self.json("plan", *words)
        self.assertEqual(
            [told["cluster"][at][key] for at in ("before", "after") for key in ("bytes", "room")], [None] * 4
        )
        self.assertEqual(told["data"]["pools_beside"], [1])
        _, error = self.ran("plan", *words)
        self.assertNotIn("MAX AVAIL", error)
        self.assertIn("nothing is told, and no last pass is made, as other pools hold data too: 1", error)
        status, output, error = self.tools.run("plan", *words, "--room")
        self.assertEqual((status, output), (1, ""))
        self.assertIn("--room wants all pools of the cluster: pool 1 holds data, and is in no map here", error)

    def test_room_by_all_weights(self) -> None:
        """The bytes of a weight of 1 are those of all OSDs by all their weights, also of those that no pool uses."""
        osd_dump, crush_dump = json.loads(json.dumps([self.osd_dump, self.crush_dump]))
        item = {"id": 12, "weight": 4 * 65536, "pos": 0}
        crush_dump["buckets"].append(
            dict(
                crush_dump["buckets"][0],
                id=-99,
                name="elsewhere",
                type_id=crush_dump["types"][-1]["type_id"],
                items=[item],
            )
        )
        crush_dump["devices"].append({"id": 12, "name": "osd.12"})
        osd_dump["osds"].append(dict(osd_dump["osds"][0], osd=12))
        osd_dump["max_osd"] = 13
        files = [self.tools.put("o2", osd_dump), self.tools.put("c2", crush_dump)]
        stats = [{"id": pool, "stats": {"bytes_used": GIB, "stored": GIB // 2}} for pool in POOLS]
        weight = sum(self.items.values()) / 65536
        df = self.tools.put("df", {"stats": {"total_bytes": round((weight + 4) * 2**40)}, "pools": stats})
        same = self.tools.put("df2", {"stats": {"total_bytes": round(weight * 2**40)}, "pools": stats})
        rooms = [
            self.json("plan", *own)["cluster"]["before"]["room"]
            for own in ([*files, "--df", df], [*self.files, "--df", same])
        ]
        self.assertEqual(*rooms)
        self.assertGreater(rooms[0], 0)

    def test_df(self) -> None:
        """`df` tells of the disks what Ceph's own tables have: of an OSD, of a bucket the sum, and of all."""
        sizes = dict.fromkeys(self.items, 2**40)
        words = ["df", *self.files, "--osds", self.osds(sizes)]
        told, used = self.json(*words), self.used([])
        found = {own["id"]: own for own in told["nodes"]}
        for osd, own in used.items():
            self.assertEqual((found[osd]["kb"], found[osd]["kb_used"]), (2**30, own // KIB))
        root = next(own for own in told["nodes"] if own["depth"] == 0)
        self.assertEqual(root["kb"], told["summary"]["total_kb"])
        self.assertEqual(told["summary"]["total_kb_used"], sum(own // KIB for own in used.values()))
        head, *lines = self.output(*words).splitlines()
        self.assertEqual(head.split()[:9], ["ID", "CLASS", "WEIGHT", "REWEIGHT", "SIZE", "RAW", "USE", "AVAIL", "%USE"])
        line = next(own for own in lines if own.endswith(" osd.0"))
        self.assertEqual(line.split()[3:7], ["1.0", "TiB", f"{used[0] / GIB:.1f}", "GiB"])
        page = self.output("report", *words[1:])
        self.assertIn("<button>RAW USE</button>", page)
        self.assertTrue(
            re.search(r"<title>osd[.]0: [0-9]+ groups, share [0-9.]+, [0-9.]+ GiB of 1[.]0 TiB in use", page)
        )
