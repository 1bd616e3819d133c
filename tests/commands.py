"""The commands of the tools over clusters that Ceph's own tools made and dumped, and over maps.

What keeps a cluster out of the maps is written beside it by hand.
"""

from __future__ import annotations

import itertools
import json
import re
import xml.etree.ElementTree

from rekhuso import Monitor

from tests.cases import EXAMPLES, TOP
from tests.clusters import CLUSTERS, Json, ceph_set, commands, copied, with_commands
from tests.tool_cases import ToolCase


def inside() -> list[str]:
    """The clusters that a map holds."""
    return [name for name, own in CLUSTERS.items() if "up" in own]


class Commands(ToolCase):
    """Each command over clusters and maps."""

    def test_up_sets(self) -> None:
        """Every up set of every cluster inside the profile is Ceph's."""
        for name in inside():
            sets = self.tools.sets(self.tools.map(name))
            wanted = {group: ceph_set(entry) for group, entry in CLUSTERS[name]["up"].items()}
            unlike = [(group, wanted[group], sets.get(group)) for group in wanted if sets.get(group) != wanted[group]]
            self.assertFalse(unlike, (name, len(unlike), unlike[:3]))
            self.assertEqual(len(sets), len(wanted), (name, len(unlike), unlike[:3]))

    def test_outside(self) -> None:
        """What keeps a cluster out is told whole, and nothing is put out."""
        for name in CLUSTERS.keys() - inside():
            status, output, error = self.tools.run("import", *self.tools.dumps(name))
            lines = error.splitlines()
            self.assertEqual((status, output), (1, ""), name)
            wanted = CLUSTERS[name]["outside"]
            self.assertEqual(len(lines), len(wanted))
            self.assertTrue(all(reason in line for reason, line in zip(wanted, lines)), (lines, wanted))

    def test_all_reasons_at_once(self) -> None:
        """Several things that keep a cluster out are told at once."""
        own = copied(CLUSTERS["001-built"])
        own["osd_dump"]["pools"][0].update(pg_num=5000, flags=0)
        own["osd_dump"]["osds"][3]["weight"] = 1.5
        own["crush_dump"]["tunables"]["chooseleaf_stable"] = 0
        own["crush_dump"]["rules"][0]["steps"][1]["num"] = -1
        own["crush_dump"]["buckets"][0]["items"][0]["weight"] = 0
        status, output, error = self.tools.run(
            "import", self.tools.put("o", own["osd_dump"]), self.tools.put("c", own["crush_dump"])
        )
        self.assertEqual((status, output), (1, ""))
        for part in (
            "5000 groups, more than 4096",
            "without hashpspool",
            "osd.3 has reweight 1.5",
            "tunable chooseleaf_stable is 0, not 1",
            "negative count -1",
            "the weight of osd.0 is 0",
        ):
            with self.subTest(part=part):
                self.assertIn(part, error)

    def test_names(self) -> None:
        """Names go into their own file."""
        status, _, _ = self.tools.run("import", *self.tools.dumps("009-classes"), "--names", "names")
        names = json.loads((self.tools.folder / "names").read_text())
        self.assertEqual(status, 0)
        self.assertEqual(names["osds"]["1"], "osd.1")
        self.assertEqual(names["buckets"]["-9"], "default~ssd")
        self.assertEqual(names["pools"]["1"], "p1")

    def test_plan(self) -> None:
        """The commands of a plan, put into the map, give the sets of the program's own plan, and nothing is left to
        move."""
        for name in ("001-built", "002-built", "003-built"):
            with self.subTest(name=name):
                value = self.tools.map(name)
                status, output, error = self.tools.run("plan", *self.tools.dumps(name), "--alone")
                self.assertEqual(status, 0, error)
                self.assertTrue(output, error)
                after = with_commands(value, commands(output))
                dump = json.loads(self.tools.answers(value, ["balance 1 1024", "dump"])[1].removeprefix("dump "))
                self.assertEqual(self.tools.sets(after), self.tools.sets(dump), name)
                self.assertStarts(self.tools.answers(after, ["balance 1 1024"])[0], "moved 0 ", name)
                moves = int(error.split(" moves of ")[0].split(" ")[-1])
                self.assertGreater(len(commands(output)), 0)
                self.assertLessEqual(len(commands(output)), moves)

    def test_many_sets(self) -> None:
        """Many sets that are read at once are those that are read one by one, also where places are empty, where all
        are, and where there are none."""
        holes, down, found = self.tools.map("006-random"), self.tools.map("009-classes"), []
        values: dict[str, Json] = {
            "holes": dict(holes, osds=[dict(osd, weight=65536 * (osd["id"] > 0)) for osd in holes["osds"]]),
            "down": dict(down, osds=[dict(osd, up=False) for osd in down["osds"]]),
        }
        for name, value in values.items():
            with self.subTest(name=name):
                with Monitor(value, self.tools.program) as monitor:
                    groups = [f"{pool['id']}.{number:x}" for pool in value["pools"] for number in range(pool["pg_num"])]
                    self.assertEqual(monitor.ups(groups), {group: monitor.up(group) for group in groups})
                    self.assertEqual(monitor.ups([]), {})
                    found += [
                        (bool(up.places), None in up.places, up.primary is None) for up in monitor.ups(groups).values()
                    ]
        self.assertEqual(set(found), {(True, True, False), (True, True, True), (False, False, True)})

    def test_df(self) -> None:
        """The groups of each OSD are those that the program counts."""
        value = self.tools.map("001-built")
        status, output, error = self.tools.run("df", "--json", self.tools.put("m", value))
        self.assertEqual(status, 0, error)
        told = {row["id"]: row["pgs"] for row in json.loads(output)["nodes"] if row["id"] >= 0}
        counts = [
            int(answer.split(" ")[3]) for answer in self.tools.answers(value, [f"count {osd}" for osd in range(48)])
        ]
        self.assertEqual([told[osd] for osd in range(48)], counts)
        status, output, _ = self.tools.run("df", self.tools.put("m", value))
        self.assertEqual(status, 0)
        self.assertEqual(len(output.splitlines()), 1 + 11 + 48 + 1 + 3)

    def test_diff(self) -> None:
        """The change between a map and the map after a change is that change, and leads there."""
        value = self.tools.map("001-built")
        change = {
            "base": value["epoch"],
            "down": [3],
            "weight": [[5, 0], [7, 32768]],
            "new_items": [["1.4", [[1, 40]]]],
            "new_upmap": [["1.5", [0, 20, 40]]],
        }
        after = json.loads(
            self.tools.answers(value, [f"change {json.dumps(change)}", "dump"])[-1].removeprefix("dump ")
        )
        status, output, error = self.tools.run("diff", self.tools.put("a", value), self.tools.put("b", after))
        self.assertEqual(status, 0, error)
        self.assertEqual(json.loads(output.splitlines()[0].removeprefix("change ")), change)
        status, output, _ = self.tools.run("diff", self.tools.put("a", value), self.tools.put("b", value))
        self.assertEqual((status, output.splitlines()[-1]), (0, "0 groups, 0 places and 0 OSDs move"))

    def test_whatif(self) -> None:
        """What moves is what differs between the answers before and after; a bucket stands for its OSDs."""
        value = self.tools.map("001-built")
        host = next(bucket for bucket in value["buckets"] if bucket["type"] == 1)
        osds = [item for item, _ in host["items"]]
        status, output, error = self.tools.run("whatif", self.tools.put("m", value), "--out", host["id"], "--json")
        self.assertEqual(status, 0, error)
        found = json.loads(output)
        before = self.tools.sets(value)
        after = self.tools.sets(
            dict(value, osds=[dict(osd, weight=0) if osd["id"] in osds else osd for osd in value["osds"]])
        )
        self.assertEqual(found["groups"], sum(before[group] != after[group] for group in before))
        self.assertGreater(found["groups"], 0)
        self.assertGreaterEqual({flow[0] for flow in found["flows"]}, set(osds))
        self.assertFalse({flow[1] for flow in found["flows"]} & set(osds))
        status, _, error = self.tools.run(
            "whatif", self.tools.put("m", value), "--out", host["id"], "--picture", "flows.svg"
        )
        self.assertEqual(status, 0, error)
        titles = [
            title.text or ""
            for title in xml.etree.ElementTree.parse(self.tools.folder / "flows.svg").iter(
                "{http://www.w3.org/2000/svg}title"
            )
        ]
        bands, bars = ([title for title in titles if (" from " in title) == band] for band in (True, False))
        moved = sum(flow[2] for flow in found["flows"])
        self.assertEqual(sum(int(band.split(" ")[0]) for band in bands), moved)
        self.assertEqual(sum(int(bar.split(": ")[1]) for bar in bars), 2 * moved)
        self.assertTrue(all(f" from bucket {host['id']} to bucket " in band for band in bands), bands)
        status, _, error = self.tools.run(
            "whatif", self.tools.put("m", value), "--out", host["id"], "--picture", "no/flows.svg"
        )
        self.assertEqual((status, error), (2, "no/flows.svg: No such file or directory\n"))
        status, output, _ = self.tools.run("whatif", self.tools.put("m", value), "--each", "1")
        self.assertEqual(status, 0)
        self.assertEqual(len(output.splitlines()), 8)
        status, output, _ = self.tools.run("whatif", self.tools.put("m", value), '{"down":[1]}')
        self.assertEqual(status, 0)
        self.assertIn("have fewer places than their pool's size", output)

    def test_explain(self) -> None:
        """The story of a group ends with the set that the program answers."""
        value = dict(self.tools.map("001-built"), pg_upmap_items=[["1.4", [[99, 1]]]])
        value["pg_upmap_items"] = [["1.4", [[0, 40], [47, 1]]]]
        status, output, error = self.tools.run("explain", self.tools.put("m", value), "1.4")
        self.assertEqual(status, 0, error)
        places = self.tools.sets(value)["1.4"]
        self.assertStarts(output.splitlines()[-1], f"its up set is {places.split(' ')[0]}")
        self.assertIn("its pair 47 to 1", output)

    def test_check(self) -> None:
        """A lawful map and change are told as such; of others each place at fault, all at once, behind the program's
        own answer."""
        value = self.tools.map("001-built")
        self.assertEqual(
            self.tools.run("check", self.tools.put("m", value)), (0, f"{self.tools.folder / 'm'}: lawful\n", "")
        )
        wrong = copied(value)
        wrong["pools"][0]["size"], wrong["max_osd"], wrong["buckets"][2]["items"][0][1] = 11, 0, "1"
        status, output, error = self.tools.run("check", self.tools.put("w", wrong))
        self.assertEqual((status, output), (1, ""), error)
        self.assertEnds(error.splitlines()[0], "refused: 11 BadField")
        for line in (
            "pools[0].size: 11, at most 10 (12 BadLimit)",
            "max_osd: 0, at least 1 (12 BadLimit)",
            "buckets[2].items[0][1]: no whole number of 64 bits (11 BadField)",
        ):
            with self.subTest(line=line):
                self.assertIn(line, error.splitlines())
        change = {"base": 3, "down": [99], "new_items": [["1.0", [[1, 1]]], ["7.0", [[1, 2]]]]}
        status, output, error = self.tools.run("check", self.tools.put("m", value), self.tools.put("c", change))
        self.assertEqual((status, output), (1, ""))
        self.assertIn("20 StaleEpoch", error.splitlines()[0])
        for line in (
            "base: 3, the map's epoch is 9 (20 StaleEpoch)",
            "down[0]: osd.99 does not exist (21 UnknownOsd)",
            "new_items[0][1]: a pair of equal sides (26 BadException)",
            "new_items[1]: no pool 7 (23 UnknownPool)",
        ):
            with self.subTest(line=line):
                self.assertIn(line, error.splitlines())
        status, output, _ = self.tools.run(
            "check", self.tools.put("m", value), self.tools.put("c", '{"base":9,"down":[1]}')
        )
        self.assertEqual(status, 0)
        self.assertEnds(output, "lawful: ok 10 evals 0\n")

    def test_add_host(self) -> None:
        """A host more takes groups from the others, by its weight and no other's."""
        value = self.tools.map("001-built")
        rack = next(str(bucket["id"]) for bucket in value["buckets"] if bucket["type"] == 2)
        status, output, error = self.tools.run(
            "whatif", self.tools.put("m", value), "--add-host", "new", "1,1,1,1,1,1", "--under", rack, "--json"
        )
        self.assertEqual(status, 0, error)
        found = json.loads(output)
        self.assertGreaterEqual({flow[1] for flow in found["flows"]}, set(range(48, 54)))
        self.assertFalse(found["short"])
        self.assertGreater(found["groups"], 100)

    def test_crush_weight(self) -> None:
        """Another weight in the CRUSH map moves what differs between the two maps' sets; the buckets above weigh what
        their items do."""
        value = self.tools.map("001-built")
        holder = next(bucket for bucket in value["buckets"] if bucket["type"] == 1 and bucket["kind"] != "uniform")
        osd, own = holder["items"][0]
        buckets = {
            bucket["id"]: dict(bucket, items=[list(item) for item in bucket["items"]]) for bucket in value["buckets"]
        }
        way, item = holder["id"], osd
        while way is not None:
            for entry in buckets[way]["items"]:
                entry[1] += 3 * own if entry[0] == item else 0
            way, item = (
                next(
                    (bucket["id"] for bucket in buckets.values() if way in [entry[0] for entry in bucket["items"]]),
                    None,
                ),
                way,
            )
        before, after = self.tools.sets(value), self.tools.sets(dict(value, buckets=list(buckets.values())))
        place = self.tools.put("m", value)
        status, output, error = self.tools.run("whatif", place, "--weight", f"osd.{osd}={4 * own / 65536}", "--json")
        self.assertEqual(status, 0, error)
        found = json.loads(output)
        self.assertEqual(found["groups"], sum(before[group] != after[group] for group in before))
        self.assertGreater(sum(before[group] != after[group] for group in before), 0)
        for words, want in (
            (["osd.1=-1"], 2),
            (["osd.1=0"], 1),
            (["osd.1"], 2),
            (["=1"], 2),
            (["osd.1=nan"], 2),
            (["osd.1=65536"], 2),
            (["osd.1=1", "osd.1=2"], 2),
            (["osd.999=1"], 1),
        ):
            with self.subTest(words=words):
                self.assertEqual(
                    self.tools.run("whatif", place, *(part for word in words for part in ("--weight", word)))[0], want
                )
        self.assertEqual(self.tools.run("whatif", place, "--weight", "osd.1=1", "--out", "1")[0], 0)
        self.assertEqual(self.tools.run("whatif", place, "--weight", "osd.1=1", "--each", "1")[0], 2)

    def test_pictures(self) -> None:
        """A picture has a square for each OSD, and marks those that are out; a page has all of them too, and nothing
        from elsewhere."""
        value = self.tools.map("001-built")
        value["osds"][3].update(weight=0)
        value["osds"][4].update(up=False)
        status, output, error = self.tools.run(
            "picture", self.tools.put("m", value), self.tools.put("n", dict(value, pools=[]))
        )
        self.assertEqual(status, 0, error)
        self.assertEqual(output.count('class="c"'), 96, error)
        self.assertEqual(output.count("up,out"), 2, error)
        self.assertEqual(output.count("down</title>"), 2, error)
        xml.etree.ElementTree.fromstring(output)
        status, output, error = self.tools.run("report", self.tools.put("m", value))
        self.assertEqual(status, 0, error)
        first, *plan = re.findall("<figure>.*?</figure>", output, re.DOTALL)
        self.assertEqual([own.count('class="c"') for own in (first, *plan)], [48, 96, 0], error)
        self.assertNotIn("http://", output.replace("http://www.w3.org/2000/svg", ""), error)
        self.assertNotIn("src=", output, error)

    def test_picture_of_the_example(self) -> None:
        """The picture of the pages is what `picture` draws of the example before it is balanced and after."""
        example = EXAMPLES / "balance"
        script = (example / "script.txt").read_text().splitlines()
        lines = itertools.takewhile(lambda line: not line.startswith("balance"), script)
        typed = "\n".join([*lines, "save uneven.json", "balance 1 100", "save even.json"])
        self.assertEqual(self.tools.run("shell", example / "map.json", stdin=typed)[0], 0)
        kept = (TOP / "docs" / "balance.svg").read_text()
        self.assertEqual(self.tools.run("picture", "uneven.json", "even.json"), (0, kept, ""))

    def test_hostile(self) -> None:
        """Input that is none ends with a clear line: with status 2 where a file cannot be read, and with 1 where a map
        is refused or a name is not there."""
        osd, crush = self.tools.dumps("001-built")
        value, none = self.tools.put("m", self.tools.map("002-built")), self.tools.put("none", "")
        for wanted, words in (
            (2, ("import", osd, self.tools.put("cut", "{"))),
            (2, ("import", self.tools.put("list", "[]"), crush)),
            (2, ("import", crush, osd)),
            (2, ("import", osd, "nowhere")),
            (1, ("df", self.tools.put("bare", '{"buckets":[]}'))),
            (1, ("explain", value, "9.9")),
            (1, ("plan", osd, crush, "--of-pool", "nobody")),
            (2, ("diff", none, osd)),
            (1, ("whatif", value, "--out", "nobody")),
        ):
            with self.subTest(words=words):
                status, output, error = self.tools.run(*words)
                self.assertEqual((status, output), (wanted, ""), (words, status, error[-300:]))
                self.assertTrue(error, (words, status, error[-300:]))
                self.assertNotIn("Traceback", error, (words, status, error[-300:]))
        bad = copied(CLUSTERS["001-built"])
        bad["osd_dump"]["pools"][0]["size"], bad["osd_dump"]["osds"][2] = "3", None
        del bad["crush_dump"]["rules"][0]["steps"][0]["item"]
        for words, told in (
            (
                ("import", self.tools.put("o", bad["osd_dump"]), crush),
                ["o: pools[0].size: no whole number", "o: osds[2]: no object"],
            ),
            (("import", osd, self.tools.put("c", bad["crush_dump"])), ["c: rules[0].steps[0].item: missing"]),
        ):
            with self.subTest(words=words):
                status, output, error = self.tools.run(*words)
                self.assertEqual((status, output), (1, ""), error)
                self.assertEqual([line.rsplit("/", 1)[-1] for line in error.splitlines()], told)
        for word in ("df", "net", "picture", "report", "plan"):
            with self.subTest(word=word):
                status, output, error = self.tools.run(
                    word,
                    self.tools.put(
                        "x", {"buckets": [], "epoch": 1, "max_osd": 1, "osds": [], "pools": [{}], "rules": []}
                    ),
                )
                self.assertEqual((status, output, error), (1, "", "refused: BadField\n"), (word, error))
