"""What `df` tells of OSDs and of a whole map, beside the columns of Ceph's own command."""

from __future__ import annotations

import json
import pathlib
import re

from tests.clusters import CLUSTERS, Json, below, copied, places
from tests.tool_cases import ToolCase
from tests.whole_maps import device_weights, item_weights, steps_for

# The columns of `ceph osd df tree` (Ceph, OSDMap.cc, OSDUtilizationPlainDumper) that tell nothing of bytes, in their
# order.
CEPH_COLUMNS = ["ID", "CLASS", "WEIGHT", "REWEIGHT", "PGS", "STATUS", "TYPE NAME"]
# The OSDs that are down and out in the tests of columns.
DOWN, OUT = 2, 5


def columns(line: str, names: str) -> list[str]:
    """The part of a line in each column: all end where their names do, and the last, of two words, goes on."""
    ends = [found.end() for found in re.finditer(r"\S+", names)][:-2]
    return [line[start:end].strip() for start, end in zip([0, *ends], [*ends, None])]


class DfOutput(ToolCase):
    """The tree of `df`, its columns and its totals."""

    def classed(self) -> tuple[Json, list[pathlib.Path]]:
        """The dumps of a cluster of two device classes, with an OSD that is down and one that is out; and their
        files."""
        own: Json = copied(CLUSTERS["002-built"])
        for device in own["crush_dump"]["devices"]:
            device["class"] = "ssd" if device["id"] % 3 else "hdd"
        own["osd_dump"]["osds"][DOWN].update(up=0)
        own["osd_dump"]["osds"][OUT].update(weight=0)
        return own, [self.tools.put("o", own["osd_dump"]), self.tools.put("c", own["crush_dump"])]

    def rows(self, files: list[pathlib.Path]) -> list[dict[str, str]]:
        """What `df` tells, in each row by columns."""
        names, *lines = self.output("df", *files).splitlines()
        return [dict(zip(columns(names, names), columns(line, names))) for line in lines]

    def rows_of_osds(self, files: list[pathlib.Path]) -> dict[int, dict[str, str]]:
        """The rows of the OSDs."""
        return {int(row["ID"]): row for row in self.rows(files) if row["TYPE NAME"].startswith("osd.")}

    def counts(self, value: Json) -> list[int]:
        """How many groups each OSD has, as the program answers."""
        answers = self.tools.answers(value, [f"count {osd}" for osd in range(value["max_osd"])])
        return [int(answer.split(" ")[3]) for answer in answers]

    def shares(self, value: Json) -> dict[int, float]:
        """The share of each OSD that is up and in: each pool's places by the weights of its rule's tree."""
        items = item_weights(value)
        sets, shares = self.tools.sets(value), dict.fromkeys(range(value["max_osd"]), 0.0)
        for pool in value["pools"]:
            tree = below(value, next(step[1] for step in steps_for(value, pool) if step[0] == "take")) - {DOWN, OUT}
            held = sum(len(places(answer)) for group, answer in sets.items() if group.startswith(f"{pool['id']}."))
            for osd in tree:
                shares[osd] += held * items[osd] / sum(items[one] for one in tree)
        return shares

    def test_columns(self) -> None:
        """`df` has the columns of `ceph osd df tree` in their order, and rows of buckets among those of OSDs."""
        rows = self.rows(self.classed()[1])
        self.assertEqual([name for name in rows[0] if name in CEPH_COLUMNS], CEPH_COLUMNS)
        self.assertTrue(any(row["TYPE NAME"].startswith("host ") for row in rows), rows)

    def test_rows_of_osds(self) -> None:
        """The row of an OSD has its class, its reweight, its groups and its state."""
        own, files = self.classed()
        kinds = {device["id"]: device["class"] for device in own["crush_dump"]["devices"]}
        counts = self.counts(json.loads(self.output("import", *files)))
        rows = self.rows_of_osds(files)
        self.assertEqual(rows.keys(), kinds.keys())
        for osd, row in rows.items():
            wanted = [kinds[osd], "0" if osd == OUT else "1.00000", str(counts[osd]), "down" if osd == DOWN else "up"]
            self.assertEqual([row[name] for name in ("CLASS", "REWEIGHT", "PGS", "STATUS")], wanted, osd)

    def test_ratio(self) -> None:
        """An OSD's RATIO is what it has to what its weights call for, beside the difference of the two in groups."""
        _, files = self.classed()
        value = json.loads(self.output("import", *files))
        counts, shares, rows = self.counts(value), self.shares(value), self.rows_of_osds(files)
        self.assertEqual(rows[OUT]["RATIO"], "0")
        for osd in rows.keys() - {DOWN, OUT}:
            self.assertAlmostEqual(float(rows[osd]["RATIO"]), counts[osd] / shares[osd], delta=0.006)
            self.assertAlmostEqual(float(rows[osd]["DEVIATION"]), counts[osd] - shares[osd], delta=0.006)

    def test_leads(self) -> None:
        """LEADS is how many groups have an OSD first, over all OSDs below a bucket, and all of them in the totals."""
        _, files = self.classed()
        answers = self.tools.sets(json.loads(self.output("import", *files))).values()
        leaders = [int(answer.split(" ")[1]) for answer in answers]
        for osd, row in self.rows_of_osds(files).items():
            self.assertEqual(int(row["LEADS"]), leaders.count(osd), osd)
        for row in self.rows(files):
            if row["TYPE NAME"].startswith(("root ", "TOTAL")):
                self.assertEqual(int(row["LEADS"]), len(leaders))

    def test_totals(self) -> None:
        """The tree ends with its totals; OSDs that no bucket has stand in a part of their own, and those that do not
        exist in none."""
        value = self.tools.map("002-built")
        count, state = value["max_osd"], {"exists": True, "up": True, "weight": 65536}
        osds = value["osds"] + [
            dict(state, id=count),
            dict(state, id=count + 1),
            dict(state, id=count + 2, exists=False, up=False),
        ]
        value = dict(
            value,
            max_osd=count + 3,
            osds=osds,
            pg_upmap=[["1.0", [count, 0, 1]], ["1.1", [count, 2, 3]]],
            pg_upmap_items=[],
        )
        sets = self.tools.sets(value)
        places = [
            osd
            for places in sets.values()
            for osd in json.loads(places.split(" ")[0].replace("none", "null"))
            if osd is not None
        ]
        weight = sum(device_weights(value).values()) / 65536
        told = self.json("df", self.tools.put("m", value))
        self.assertEqual(
            [(row["id"], row["pgs"], row["ratio"]) for row in told["stray"]], [(count, 2, None), (count + 1, 0, 0)]
        )
        self.assertEqual(
            (told["summary"]["pgs"], round(told["summary"]["crush_weight"], 9)), (len(places), round(weight, 9))
        )
        self.assertFalse({row["id"] for row in told["nodes"]} & {count, count + 1, count + 2})
        lines = [line.split() for line in self.output("df", "m").splitlines()]
        at = next(at for at, line in enumerate(lines) if line[-1] == "TOTAL")
        self.assertEqual(
            lines[at][:-1], [f"{weight:.5f}", f"{told['summary']['share']:.2f}", str(len(places)), str(len(sets))]
        )
        self.assertEqual([line[0] for line in lines[at - 2 : at]], [str(count), str(count + 1)])
        self.assertEqual(lines[at - 3], ["outside", "every", "bucket"])
        self.assertNotIn("outside", self.output("df", self.tools.put("m", self.tools.map("002-built"))))
