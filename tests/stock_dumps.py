"""`import` over stock clusters at their edges: weights that do not add up, and dumps that are none.

The clusters of loose.json.gz were made at random: hosts of which all weigh 0, buckets whose parents give another weight
than the sum, negative counts, OSDs that were removed. Their up sets are those of a reference in C that goes by the dump
as it is, weights of 0 and negative counts with it, in the way of Ceph's mapper.c.
"""

from __future__ import annotations

import json
import os

from tests.clusters import STOCK, Json, bucket_of, copied, kept
from tests.tool_cases import StockCase

LOOSE: dict[str, Json] = kept("loose.json.gz")
DRAINED = "011-drained"


def item_of(own: Json, name: str, item: str) -> Json:
    """An item of a bucket by the bucket's name and the item's."""
    number = bucket_of(own, item)["id"] if not item.startswith("osd.") else int(item[4:])
    return next(entry for entry in bucket_of(own, name)["items"] if entry["id"] == number)


class DumpCase(StockCase):
    """Tests of stock clusters that were changed."""

    def refused(self, own: Json, *words: object) -> list[str]:
        """The lines that a changed cluster is refused with, once nothing was put out."""
        output, error = self.ran("import", *self.dumps("changed", own), *words, status=1)
        self.assertEqual(output, "", error[-600:])
        self.assertNotIn("Traceback", error)
        return error.splitlines()


class StockDumps(DumpCase):
    """Clusters that come in by what their weights do, and dumps that are refused."""

    def test_loose_weights(self) -> None:
        """Every up set of a cluster whose weights are loose is that of the reference, by the map that import makes of
        it."""
        total = 0
        for name, own in LOOSE.items():
            with self.subTest(name=name):
                output, _ = self.ran("import", *self.dumps(name, own), "--tree", self.tools.put("tree", own["tree"]))
                found = self.sets(json.loads(output))
                unlike = [
                    (group, own["up"][group], found.get(group))
                    for group in own["up"]
                    if found.get(group) != own["up"][group]
                ]
                self.assertFalse(unlike, (name, len(unlike), unlike[:3]))
                self.assertEqual(len(found), len(own["up"]), (name, len(unlike), unlike[:3]))
                total += len(found)
        self.assertGreater(total, 2000)
        self.assertGreater(len(LOOSE), 40, total)

    def test_empty_buckets(self) -> None:
        """An empty bucket to which a weight leads is refused, with the rules that can pick it; one that weighs 0 is
        left out."""
        own = copied(STOCK[DRAINED])
        item_of(own, "default", "host6")["weight"] = 65536
        self.assertEqual(
            self.refused(own),
            [
                "rules replicated_rule and ec can pick the empty bucket host6: `ceph osd crush rm` takes it away, or "
                "`ceph osd crush reweight-all` gives it the weight 0"
            ],
        )
        own = copied(STOCK[DRAINED])
        bucket_of(own, "default")["items"] = []
        self.assertEqual(
            [line.split(": ")[0] for line in self.refused(own)],
            ["rules replicated_rule and ec can pick the empty bucket default"],
        )

    def test_first_of_zeros(self) -> None:
        """Of a host of zeros to which a weight leads the first OSD alone stays, at the least weight, and that is
        told."""
        own = copied(STOCK[DRAINED])
        item_of(own, "default", "host0")["weight"] = 65536
        output, error = self.ran("import", *self.dumps("zeros", own))
        host = next(bucket for bucket in json.loads(output)["buckets"] if bucket["id"] == bucket_of(own, "host0")["id"])
        self.assertEqual(host["items"], [[0, 1]])
        self.assertIn(
            "left out: all but the first item of host0, as all their items weigh 0 and Ceph takes the first",
            error.splitlines(),
        )

    def test_counts_and_words_of_rules(self) -> None:
        """Negative counts take a map for each size of pools; chooseleaf of OSDs is choose for copies; a reweight above
        1 is one of 1."""
        own = copied(STOCK["018-hybrid"])
        pools = own["osd_dump"]["pools"]
        pools.append(dict(pools[1], pool=3, pool_name="other", size=2))
        lines = self.refused(own, "--pools", "2,3")
        self.assertEqual(
            lines,
            [
                "rule hybrid has the negative count -1 in a step chooseleaf_firstn, and its pools have the sizes "
                "2 and 3; it takes 2 maps: --to FOLDER writes all, --pools 2 and --pools 3 one each"
            ],
        )
        output, _ = self.ran("import", *self.dumps("sizes", own), "--to", "sizes")
        self.assertEqual(
            sorted(line.split("/")[-1] for line in output.splitlines()),
            ["pools-1.json", "pools-2.json", "pools-3.json"],
        )
        for pool, count in (("2", 2), ("3", 1)):
            with self.subTest(count=count):
                output, _ = self.ran("import", *self.dumps("sizes", own), "--pools", pool)
                self.assertEqual(
                    json.loads(output)["rules"][0]["steps"][4], ["chooseleaf_firstn", count, 1], (pool, output[-400:])
                )
        pools[2]["size"] = 1
        output, _ = self.ran("import", *self.dumps("sizes", own), "--pools", "3")
        self.assertEqual(
            [step[0] for step in json.loads(output)["rules"][0]["steps"]], ["take", "chooseleaf_firstn", "emit"]
        )
        own = copied(STOCK["001-three-hosts"])
        own["crush_dump"]["rules"][0]["steps"][1]["type"] = "osd"
        own["osd_dump"]["osds"][3]["weight"] = 1.5
        value = json.loads(self.output("import", *self.dumps("words", own)))
        self.assertEqual(value["rules"][0]["steps"][1], ["choose_firstn", 0, 0])
        self.assertEqual(value["osds"][3]["weight"], 65536)
        for step, told in (
            ({"op": "choose_msr"}, "rule replicated_rule has a step choose_msr, which is not in the grammar"),
            ({"op": "chooseleaf_firstn"}, "rules[0].steps[1].num: missing"),
        ):
            with self.subTest(told=told):
                own = copied(STOCK["001-three-hosts"])
                own["crush_dump"]["rules"][0]["steps"][1] = step
                self.assertIn(told, self.refused(own)[0], (step, self.refused(own)))
        own = copied(STOCK["015-ec-osd-domain"])
        step = next(step for step in own["crush_dump"]["rules"][1]["steps"] if step["op"] == "choose_indep")
        step["op"] = "chooseleaf_indep"
        self.assertTrue(
            all(line.startswith("rule cold: its steps are not in the grammar: ") for line in self.refused(own))
        )

    def test_missing_keys(self) -> None:
        """A dump without a key that is read ends in lines that name it, and with nothing put out."""
        for dump, keys in (
            ("osd_dump", ("epoch", "max_osd", "pools", "osds")),
            ("crush_dump", ("devices", "types", "buckets", "rules", "tunables")),
        ):
            with self.subTest(dump=dump):
                for key in keys:
                    for change in ({}, {key: None}, {key: "x"}):
                        own = copied(STOCK["001-three-hosts"])
                        del own[dump][key]
                        own[dump].update(change)
                        self.assertIn(f": {key}: ", self.refused(own)[0], (key, self.refused(own)))
        for place, key in (("buckets", "items"), ("buckets", "alg"), ("rules", "steps"), ("devices", "id")):
            with self.subTest(key=key):
                own = copied(STOCK["001-three-hosts"])
                del own["crush_dump"][place][0][key]
                self.assertTrue(
                    any(
                        f"{place}[0].{key}: missing: no monitor dumps it so: take both dumps again" in line
                        for line in self.refused(own)
                    ),
                    (place, key),
                )

    def test_loops(self) -> None:
        """A tree that comes back to itself is refused where a rule reaches it, and does no harm where none does."""
        for name, item, told in (
            ("default", "default", "bucket default of type root holds default of type root, which is not below it"),
            ("host1", "default", "bucket host1 of type host holds default of type root, which is not below it"),
            ("host1", "host2", "bucket host1 of type host holds host2 of type host, which is not below it"),
        ):
            with self.subTest(name=name):
                own = copied(STOCK[DRAINED])
                bucket_of(own, name)["items"].append({"id": bucket_of(own, item)["id"], "weight": 65536, "pos": 9})
                self.assertStarts(self.refused(own)[0], told, (name, item))
        own = copied(STOCK[DRAINED])
        spare = bucket_of(own, "rack-new")
        spare["items"] = [
            {"id": spare["id"], "weight": 1, "pos": 0},
            {"id": bucket_of(own, "default")["id"], "weight": 1, "pos": 1},
        ]
        self.assertNotEqual(self.output("df", *self.dumps("loop", own)), "")

    def test_other_kinds_of_values(self) -> None:
        """Values that no monitor dumps end in lines and status 1, and what is no dump at all in a line and status 2."""
        for name, key, value in (
            ("items", "weight", "1"),
            ("items", "weight", 1.5),
            ("items", "weight", True),
            ("items", "weight", -(2**40)),
            ("items", "weight", 2**40),
            ("items", "id", None),
            ("items", "id", -9999),
            ("items", "id", 5000),
        ):
            with self.subTest(name=name):
                own = copied(STOCK["001-three-hosts"])
                bucket_of(own, "default")[name][0][key] = value
                self.assertTrue(self.refused(own), (key, value))
        for change in ({"alg": "straw"}, {"alg": "straw3"}, {"hash": "md5"}, {"type_id": 99}, {"items": {}}):
            with self.subTest(change=change):
                own = copied(STOCK["001-three-hosts"])
                bucket_of(own, "default").update(change)
                self.assertTrue(self.refused(own), change)
        for text in (
            "",
            "{",
            "[]",
            "null",
            "5",
            '"x"',
            "[" * 100_000,
            "\ud800".encode("utf-8", "surrogatepass").decode("latin-1"),
        ):
            with self.subTest(text=text):
                osd, crush = self.dumps("001-three-hosts")
                for files in ((self.tools.put("x", text), crush), (osd, self.tools.put("x", text))):
                    _, error = self.ran("import", *files, status=2)
                    self.assertEqual(len(error.splitlines()), 1, (text[:20], error[-300:]))
                    self.assertNotIn("Traceback", error, (text[:20], error[-300:]))

    def test_many_items(self) -> None:
        """A bucket of a million items is refused in few lines, and in time."""
        own = copied(STOCK["001-three-hosts"])
        bucket_of(own, "default")["items"] += [{"id": 20 + at, "weight": 65536, "pos": at} for at in range(1_000_000)]
        begin = os.times()
        lines = self.refused(own)
        end = os.times()
        self.assertLessEqual(len(lines), 4)
        self.assertTrue(
            any("has 1000003 items, more than 4096" in line for line in lines), [line[:200] for line in lines]
        )
        self.assertTrue(any("OSDs are at or above osd.4096" in line for line in lines), [line[:200] for line in lines])
        self.assertLess(max(map(len, lines)), 500)
        # In processor time, which other work on the machine hardly moves.
        self.assertLess(end.children_user + end.children_system - begin.children_user - begin.children_system, 100)

    def test_weights_that_do_not_add_up(self) -> None:
        """A host whose parent gives another weight than the sum comes in as it is: Ceph picks by what the parent
        gives."""
        own = copied(STOCK["001-three-hosts"])
        entry = bucket_of(own, "default")["items"][0]
        entry["weight"] += 3
        value = json.loads(self.output("import", *self.dumps("sums", own)))
        self.assertIn(
            [entry["id"], entry["weight"]], next(bucket for bucket in value["buckets"] if bucket["id"] == -1)["items"]
        )
        self.assertEqual({bucket["kind"] for bucket in value["buckets"]}, {"straw2"})
        self.assertEqual(len(STOCK["001-three-hosts"]["up"]), 129)
