"""What a plan tells of the data that moves, by what `ceph df` tells of pools: each group holds what its part of the
objects' hashes comes to."""

from __future__ import annotations

import json

from tests.clusters import Json, commands, named_pools, with_commands
from tests.plan_scripts import moving, told_of
from tests.tool_cases import ToolCase

GIB = 2**30
# What the two pools hold: 96 groups of size 3, and 64 of size 2, each place a quarter of a GiB. Of the 96 those from 32
# to 63 are not split yet: a place of them holds 1.5 GiB, and of the others half as much.
HELD = {1: 288 * GIB, 7: 32 * GIB}
TOTAL = sum(HELD.values())
STATS = {
    "stats": {"total_bytes": 1},
    "pools": [
        {"name": f"p{pool}", "id": pool, "stats": {"stored": 1, "bytes_used": size, "percent_used": 0.5}}
        for pool, size in HELD.items()
    ],
}


def of_place(group: str) -> int:
    """The bytes of a place of a group."""
    pool, number = group.split(".")
    return GIB // 4 if pool == "7" else 3 * GIB // 2 if 32 <= int(number, 16) < 64 else 3 * GIB // 4


class PlanData(ToolCase):
    """Plans with the data of two pools, on all OSDs of a cluster, and without."""

    def setUp(self) -> None:
        super().setUp()
        osd_dump, crush_dump = named_pools(2)
        self.files = self.tools.put("o", osd_dump), self.tools.put("c", crush_dump)
        self.df = self.tools.put("df", STATS)

    def moved(self, lines: list[str]) -> tuple[dict[int, int], dict[int, tuple[int, int]]]:
        """How many bytes of each pool some commands move, and how many come to each OSD and go from it."""
        value = json.loads(self.output("import", *self.files))
        before, after = self.tools.sets(value), self.tools.sets(with_commands(value, lines))
        size, osds = {}, dict[int, tuple[int, int]]()
        for pool in HELD:
            size[pool] = 0
            for group in (group for group in before if group.startswith(f"{pool}.")):
                _, come, gone = moving(before, after, [group])
                place = of_place(group)
                size[pool] += place * len(come)
                for osd in {*come, *gone}:
                    was = osds.get(osd, (0, 0))
                    osds[osd] = was[0] + place * come.count(osd), was[1] + place * gone.count(osd)
        return size, osds

    def test_json(self) -> None:
        """As JSON what moves is told in bytes by pool, by OSD and in all, and as a part of the data."""
        told = self.json("plan", *self.files, "--df", self.df)
        size, osds = self.moved(told["commands"])
        self.assertGreater(sum(size.values()), 0)
        self.assertEqual({own["id"]: (own["bytes_come"], own["bytes_go"]) for own in told["osds"]}, osds)
        self.assertEqual({own["id"]: own["bytes"] for own in told["pools"]}, size)
        self.assertEqual(told["moving"]["bytes"], sum(size.values()))
        self.assertAlmostEqual(told["moving"]["share"], sum(size.values()) / TOTAL, delta=1e-12)

    def test_script(self) -> None:
        """The script tells the same, in GiB and in parts of a hundred."""
        text = self.output("plan", *self.files, "--df", self.df)
        size, osds = self.moved(commands(text))
        lines, pools, rows = told_of(text)
        whole = sum(size.values())
        self.assertIn(f"some {whole / GIB:.1f} GiB, {100 * whole / TOTAL:.2f} % of the data, by ", lines[0])
        for pool, own in size.items():
            self.assertEqual(pools[f"p{pool}"][3:], [f"{own / GIB:.1f}", "GiB", f"{100 * own / TOTAL:.2f}", "%"])
        for osd, (come, gone) in osds.items():
            self.assertEqual(rows[f"osd.{osd}"][-2:], [f"{100 * (come - gone) / TOTAL:.2f}", "%"])

    def test_without_data(self) -> None:
        """Without the data nothing is told of it; the commands and what takes them back are those of the scripts."""
        told = self.json("plan", *self.files)
        self.assertIsNone(told["moving"]["bytes"])
        self.assertIsNone(told["pools"][0]["share"])
        self.assertIsNone(told["osds"][0]["bytes_go"])
        self.assertEqual(told["commands"], commands(self.output("plan", *self.files)))
        self.assertEqual(told["undo"], commands(self.output("plan", *self.files, "--undo")))

    def test_other_forms(self) -> None:
        """A file of another form is told by its path and the place, and no plan is made."""
        row: Json = {"id": 1, "stats": {"bytes_used": "1", "stored": 1}}
        for wrong, what in (
            ("[]", "no JSON object"),
            ({}, "no pools in it"),
            ({"pools": [{"id": 1}]}, "pools[0].stats: missing"),
            ({"pools": [{"id": 7, "name": "p7", "stats": {"bytes_used": 1, "stored": 1}}]}, "no pool 1"),
            ({"pools": [{"id": 1, "stats": {"bytes_used": 1}}]}, "pools[0].stats.stored: missing"),
            ({"pools": [row]}, "pools[0].stats.bytes_used: no whole number"),
        ):
            with self.subTest(what=what):
                path = self.tools.put("w", wrong)
                status = 2 if what in ("no JSON object", "no pools in it") else 1
                self.assertEqual(self.tools.run("plan", *self.files, "--df", path), (status, "", f"{path}: {what}\n"))
