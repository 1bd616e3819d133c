"""The commands of the tools over stock clusters: their buckets are of kind straw2, as clusters have them since 2016."""

from __future__ import annotations

import json
import subprocess
import xml.etree.ElementTree

from rekhuso import Monitor

from tests.cases import TOP
from tests.clusters import NOBODY, STOCK, ceph_set, commands, copied, with_commands
from tests.tool_cases import SECONDS, StockCase

# Clusters that a map holds as they are.
PLAIN = [
    "001-three-hosts",
    "002-proxmox",
    "003-rook-rgw",
    "004-one-host",
    "009-racks",
    "010-outage",
    "014-replaced",
    "015-ec-osd-domain",
    "016-by-utilization",
    "019-two-roots",
    "020-stretch",
]
# Clusters that a map holds by the wider limits of stock clusters alone: the most that each has of them, and its maps.
WIDE = {
    "021-flat-root": ("items of a bucket", 97, ["pools-1,2.json"]),
    "025-many-pools": ("pools", 37, [f"pools-{','.join(map(str, range(1, 38)))}.json"]),
    "026-large-pool": ("groups of a pool", 8192, ["pools-1,2.json"]),
    "027-dense-hosts": ("items of a bucket", 84, ["pools-1.json", "pools-2,3.json"]),
    "028-many-buckets": ("buckets", 630, ["pools-1.json", "pools-2,3.json"]),
    "008-rgw-ec83": ("places of a pool", 11, ["pools-1.json", "pools-2,3,4.json"]),
    "029-wide-pools": ("places of a pool", 20, ["pools-1,2,3,4.json"]),
    "030-many-osds": ("OSDs", 3000, ["pools-1,2.json"]),
}
# What keeps the other clusters out: the beginning of each line.
OUTSIDE = {"013-removed": [f"osd.{osd} stands below default, but the OSD dump does not list it" for osd in (3, 15)]}


class StockClusters(StockCase):
    """Stock clusters that come in, and those that stay out."""

    def test_up_sets(self) -> None:
        """Every up set of a stock cluster that needs nothing else is Ceph's, and the map says straw2."""
        for name in PLAIN:
            with self.subTest(name=name):
                value, _ = self.brought(name)
                self.assertEqual({bucket["kind"] for bucket in value["buckets"]}, {"straw2"}, name)
                self.has_ceph_sets(name, [value])

    def test_wide_clusters(self) -> None:
        """Every up set of a cluster that has more items, groups, buckets or pools than a plain map is Ceph's, in one
        map or in two."""
        for name, (what, most, files) in WIDE.items():
            with self.subTest(name=name):
                own = STOCK[name]
                counts = {
                    "items of a bucket": max(len(bucket["items"]) for bucket in own["crush_dump"]["buckets"]),
                    "groups of a pool": max(pool["pg_num"] for pool in own["osd_dump"]["pools"]),
                    "buckets": len(own["crush_dump"]["buckets"]),
                    "pools": len(own["osd_dump"]["pools"]),
                    "places of a pool": max(pool["size"] for pool in own["osd_dump"]["pools"]),
                    "OSDs": len(own["osd_dump"]["osds"]),
                }
                self.assertEqual(counts[what], most, (name, counts))
                self.assertEqual(
                    len(own["up"]), sum(pool["pg_num"] for pool in own["osd_dump"]["pools"]), (name, counts)
                )
                maps = self.maps_of(name)
                self.assertEqual(sorted(maps), files, (name, sorted(maps)))
                self.has_ceph_sets(name, maps.values())
                self.assertStarts(self.output("import", *self.dumps(name), "--check"), "the cluster comes in")

    def test_weights_of_zero(self) -> None:
        """Clusters with OSDs and hosts of weight 0 and empty buckets come in as one map, and what is left out is told
        in a line a kind."""
        lines = {
            "006-class-rules-only": ["left out: 3 buckets that weigh 0 or hold nothing: r1h0~ssd, r1~ssd and r1h1~ssd"],
            "011-drained": [
                "left out: 7 OSDs of weight 0, which get no groups: osd.0, osd.1, osd.2, osd.3, osd.16, osd.17 "
                "and osd.23",
                "left out: 2 buckets that weigh 0 or hold nothing: host0 and host6",
            ],
            "012-arriving": [
                "left out: 13 OSDs of weight 0, which get no groups: osd.24, osd.25, osd.26, osd.27, osd.28, osd.29, "
                "osd.30, osd.31 "
                "and 5 more",
                "left out: 5 buckets that weigh 0 or hold nothing: n4~hdd, n4~ssd, n5~hdd, n5~ssd and n6~ssd",
            ],
            "023-thousand": ["left out: 1 OSD of weight 0, which gets no groups: osd.751"],
        }
        for name, wanted in lines.items():
            output, error = self.ran("import", *self.dumps(name), "--names", "names")
            self.assertEqual(error.splitlines(), wanted, (name, error))
            self.has_ceph_sets(name, [json.loads(output)])

    def test_several_maps(self) -> None:
        """Clusters in which pools take OSDs from two trees come in as a map for each set of pools whose trees share
        none."""
        files = {
            "005-openstack-mixed": ["pools-1.json", "pools-2,3,4.json"],
            "007-cephfs-ec": ["pools-1.json", "pools-2,3,4.json"],
            "018-hybrid": ["pools-1.json", "pools-2.json"],
            "022-multi-step-ec": ["pools-1.json", "pools-2.json"],
            "024-large-two-classes": ["pools-1.json", "pools-2,3,4.json"],
            "003-rook-rgw": ["pools-1,2,3,4,5,6,7,8.json"],
        }
        for name, wanted in files.items():
            maps = self.maps_of(name)
            self.assertEqual(sorted(maps), wanted, (name, sorted(maps)))
            self.has_ceph_sets(name, maps.values())
            self.assertEqual(len({len(value["osds"]) for value in maps.values()}), 1)
            self.assertEqual({value["epoch"] for value in maps.values()}, {1000})

    def test_words_for_several_maps(self) -> None:
        """Where one map does not suffice, nothing is put out, and the words that bring the pools in are told; by these
        they come in."""
        name = "005-openstack-mixed"
        output, error = self.ran("import", *self.dumps(name), status=1)
        self.assertEqual(output, "", error)
        self.assertEqual(len(error.splitlines()), 2)
        self.assertEnds(error, "; it takes 2 maps: --to FOLDER writes all, --pools 1 and --pools 2,3,4 one each\n")
        for words, pools in (
            ("2,3,4", {2, 3, 4}),
            ("1", {1}),
            (",".join(pool["pool_name"] for pool in STOCK[name]["osd_dump"]["pools"][1:3]), {2, 3}),
        ):
            with self.subTest(words=words):
                value, _ = self.brought(name, "--pools", words)
                self.assertEqual({pool["id"] for pool in value["pools"]}, pools)
                self.has_ceph_sets(name, [value], pools)
        for words in ("7", "nobody", "1,", ""):
            with self.subTest(words=words):
                output, error = self.ran("import", *self.dumps(name), "--pools", words, status=1)
                self.assertEqual(output, "", error)
                self.assertStarts(error, "no pool ")
        _, error = self.ran("import", *self.dumps(name), "--to", "/dev/null/maps", status=2)
        self.assertEqual(error.splitlines()[-1], "/dev/null/maps: Not a directory")

    def test_weight_set(self) -> None:
        """A compat weight set stands in place of the weights, and that is told; one by pool or by position is refused
        by name."""
        value, _ = self.brought("017-crush-compat")
        self.has_ceph_sets("017-crush-compat", [value])
        own = copied(STOCK["017-crush-compat"])
        sets_of = own["crush_dump"]["choose_args"]
        pool = own["osd_dump"]["pools"][1]["pool_name"]
        for changed, told in (
            (
                {"2": sets_of["-1"]},
                f"choose_args (weight sets of 1): of pools {pool}: `ceph osd crush weight-set rm POOL`",
            ),
            ({"-1": sets_of["-1"], "2": []}, f"choose_args (weight sets of 2): of pools {pool}: "),
            (
                {"-1": [dict(sets_of["-1"][0], weight_set=sets_of["-1"][0]["weight_set"] * 2)]},
                "choose_args: the compat weight set of default is by position: `ceph osd crush weight-set rm-compat`",
            ),
            (
                {"-1": [dict(sets_of["-1"][0], ids=[1, 2, 3, 4, 5, 6])]},
                "choose_args: the compat weight set gives the items of default",
            ),
            (
                {"-1": [dict(sets_of["-1"][0], weight_set=[[1.0]])]},
                "choose_args: the compat weight set of default does not fit",
            ),
            ({"-1": 7}, "choose_args: the compat weight set is of another form"),
        ):
            with self.subTest(told=told):
                own["crush_dump"]["choose_args"] = changed
                output, error = self.ran("import", *self.dumps("017-other", own), status=1)
                self.assertEqual(output, "", (told, error))
                self.assertStarts(error, told)
                self.assertEqual(len(error.splitlines()), 1, (told, error))

    def test_outside(self) -> None:
        """The clusters beyond a limit stay out, by each command that is given them, each with its reason and what to
        do."""
        for name, wanted in OUTSIDE.items():
            with self.subTest(name=name):
                for words in (["--to", "maps"], ["--check"]):
                    output, error = self.ran("import", *self.dumps(name), *words, status=1)
                    lines = error.splitlines()
                    end = (
                        [f"the cluster stays out, for {len(wanted)} reason{'s' * (len(wanted) > 1)}"]
                        if "--check" in words
                        else []
                    )
                    self.assertEqual(output, "", (name, lines))
                    self.assertEqual(lines[len(wanted) :], end, (name, lines))
                    self.assertFalse((self.tools.folder / "maps").exists(), (name, lines))
                    self.assertTrue(
                        all(line.startswith(told) and " --" in line for told, line in zip(wanted, lines)), (name, lines)
                    )
        for name in STOCK.keys() - OUTSIDE.keys():
            if name < "020":
                self.assertStarts(self.output("import", *self.dumps(name), "--check"), "the cluster comes in")

    def test_count_of_the_page(self) -> None:
        """docs/COMMANDS.md says how many of the stock clusters come in."""
        told = f"\n{len(STOCK) - len(OUTSIDE)} of the {len(STOCK)} stock clusters in `tests/`"
        self.assertIn(told, (TOP / "docs" / "COMMANDS.md").read_text())

    def test_some_pools(self) -> None:
        """Of a cluster beyond a limit the pools that a map holds come in by --pools, and of one within it some pools
        alone."""
        for name, pools in (
            ("008-rgw-ec83", {2, 3}),
            ("008-rgw-ec83", {1}),
            ("029-wide-pools", {2, 4}),
            ("025-many-pools", set(range(2, 34))),
        ):
            with self.subTest(name=name):
                value, _ = self.brought(name, "--pools", ",".join(map(str, sorted(pools))))
                self.has_ceph_sets(name, [value], pools)

    def test_removed(self) -> None:
        """OSDs that were removed and stand in CRUSH come in by what `ceph osd tree` tells of them, or as out where that
        is asked for."""
        name = "013-removed"
        value, _ = self.brought(name, "--unmatched")
        self.has_ceph_sets(name, [value])
        # As `ceph osd tree -f json` tells it: both were out before they were removed.
        nodes = [{"id": -1, "name": "default", "type": "root", "type_id": 11, "children": []}]
        nodes += [
            {
                "id": osd,
                "name": f"osd.{osd}",
                "type": "osd",
                "type_id": 0,
                "crush_weight": 1,
                "exists": int(osd not in (3, 15)),
                "status": "up",
                "reweight": int(osd not in (3, 15)),
                "primary_affinity": 1,
            }
            for osd in range(40)
        ]
        value, _ = self.brought(name, "--tree", self.tools.put("tree", {"nodes": nodes, "stray": []}))
        self.assertEqual(
            [osd for osd in value["osds"] if not osd["exists"]],
            [{"exists": False, "id": osd, "up": False, "weight": 0} for osd in (3, 15)],
        )
        self.has_ceph_sets(name, [value])
        for tree, told in (
            ({"nodes": []}, "osd.3 stands below default"),
            ({"nodes": [{"id": "3"}]}, "nodes[0].id: no whole number"),
            ([], "no JSON object"),
        ):
            with self.subTest(told=told):
                path, status = self.tools.put("tree", tree), 1 if tree else 2
                _, error = self.ran("import", *self.dumps(name), "--tree", path, status=status)
                self.assertIn(told, error.splitlines()[0])

    def test_the_option(self) -> None:
        """Without the option the program refuses such a map, and the tools never give it for a map without straw2
        buckets."""
        value, path = self.brought("001-three-hosts")
        done = subprocess.run(
            [self.tools.program, path, self.tools.put("lines", "epoch\n")],
            capture_output=True,
            text=True,
            timeout=SECONDS,
            check=False,
        )
        self.assertEqual((done.returncode, done.stdout, done.stderr), (2, "", "map: BadField\n"))
        with Monitor(value, self.tools.program, timeout=SECONDS, stock=True) as monitor:
            self.assertTrue(monitor.is_stock)
            self.assertEqual(monitor.up("1.0").places, STOCK["001-three-hosts"]["up"]["1.0"][0])
        plain = self.tools.map("002-built")
        for given, wanted in ((None, False), (True, True), (False, False)):
            with self.subTest(given=given):
                with Monitor(plain, self.tools.program, timeout=SECONDS, stock=given) as monitor:
                    words = subprocess.run(
                        ["ps", "-o", "args=", "-p", str(monitor._process.pid)],
                        capture_output=True,
                        text=True,
                        check=True,
                    ).stdout
                    self.assertEqual("--stock" in words, wanted, (given, words))
                    self.assertEqual(wanted, monitor.is_stock, (given, words))
        change = {
            "base": plain["epoch"],
            "new_crush": {"buckets": [dict(own, kind="straw2") for own in plain["buckets"]], "rules": plain["rules"]},
        }
        _, error = self.ran("check", self.tools.put("m", plain), self.tools.put("c", change), status=1)
        self.assertEnds(error.splitlines()[0], "refused: 11 BadField")
        self.assertIn("new_crush.buckets[0].kind: none of uniform, list, tree (11 BadField)", error)
        lists = dict(value, buckets=[dict(bucket, kind="list") for bucket in value["buckets"]])
        output, _ = self.ran("diff", self.tools.put("lists", lists), path)
        self.assertIn('"kind":"straw2"', output)
        self.assertIn(" groups, ", output.splitlines()[-1])

    def test_escaped_kinds(self) -> None:
        """A map whose text writes the word straw2 otherwise is read all the same; a text that is none is refused as
        such."""
        value, _ = self.brought("003-rook-rgw")
        text = json.dumps(value)
        self.ran("check", self.tools.put("m", text.replace("straw2", "str\\u0061w2")))
        for wrong, name in (
            (text[:-1], "10 BadJson"),
            (text.replace('"straw2"', '"straw"', 1), "11 BadField"),
            (json.dumps(dict(value, epoch=0)), "12 BadLimit"),
        ):
            with self.subTest(name=name):
                _, error = self.ran("check", self.tools.put("w", wrong), status=1)
                self.assertEnds(error.splitlines()[0], f"refused: {name}")

    def test_commands(self) -> None:
        """Each command works over such maps, and what one tells of groups is what the others do."""
        for name in ("002-proxmox", "010-outage", "015-ec-osd-domain"):
            with self.subTest(name=name):
                value, path = self.brought(name, "--names", self.tools.folder / "names")
                self.assertEnds(self.output("check", path), ": lawful\n")
                counts = dict.fromkeys((osd["id"] for osd in value["osds"]), 0)
                for places, _ in STOCK[name]["up"].values():
                    for osd in set(places) - set(NOBODY):
                        counts[osd] += 1
                tree = self.json("df", path)
                rows = [row for row in tree["nodes"] + tree["stray"] if row["id"] >= 0]
                self.assertEqual({row["id"]: row["pgs"] for row in rows}, counts, name)
                group = max(STOCK[name]["up"], key=lambda own: len(own))
                self.assertStarts(
                    self.output("explain", path, group).splitlines()[-1],
                    f"its up set is {ceph_set(STOCK[name]['up'][group]).split(' ')[0]}",
                )
                other = dict(value, osds=[dict(osd, weight=0) if osd["id"] == 3 else osd for osd in value["osds"]])
                was, now = self.sets(value), self.sets(other)
                moved = sum(was[group] != now[group] for group in was)
                line = next(
                    line
                    for line in self.output("whatif", path, "--out", "osd.3").splitlines()
                    if not line.startswith("an outage: ")
                )
                self.assertStarts(line, f"{moved} groups and ", name)
                self.assertStarts(
                    self.output("diff", path, self.tools.put("other", other)).splitlines()[-1],
                    f"{moved} groups, ",
                    name,
                )
                osds = len([row for row in tree["nodes"] if row["id"] >= 0])
                for word, pictures in (("picture", 1), ("report", 3)):
                    page = self.output(word, path, "--names", self.tools.folder / "names")
                    self.assertEqual(page.count('class="c"'), pictures * osds, (name, word))
                xml.etree.ElementTree.fromstring(self.output("picture", path))
                output, _ = self.tools.run("shell", path, stdin=f"up {group}\nepoch\n")[1:]
                self.assertEqual(output, f"up 1000 {group} {ceph_set(STOCK[name]['up'][group])}\nepoch 1000\n")

    def test_plans(self) -> None:
        """The commands of a pool's plan by itself, put into the map, give the sets of the program's own plan, and leave
        nothing to move."""
        for name in ("001-three-hosts", "009-racks", "016-by-utilization"):
            with self.subTest(name=name):
                value, path = self.brought(name)
                output, _ = self.ran("plan", *self.dumps(name), "--of-pool", "2", "--alone")
                after = with_commands(value, commands(output))
                *_, dump = self.tools.answers(value, ["balance 2 1024", "dump"], "--stock")
                self.assertTrue(output, name)
                self.assertEqual(self.sets(after), self.sets(json.loads(dump.removeprefix("dump "))), name)
                self.assertStarts(self.tools.answers(after, ["balance 2 1024"], "--stock")[0], "moved 0 ", name)
                self.assertEqual(
                    commands(self.output("plan", path, "--of-pool", "2", "--alone")), commands(output), name
                )
