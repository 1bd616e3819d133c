"""The commands of the tools over the two dumps of stock clusters, which may take several maps and are told as one.

What a command tells of groups is compared with Ceph's up sets.
"""

from __future__ import annotations

import json
import pathlib
import xml.etree.ElementTree

from tests.clusters import NOBODY, STOCK, ceph_set, commands, copied, with_commands
from tests.stock_clusters import WIDE
from tests.tool_cases import StockCase

SEVERAL, DRAINED, SET = "005-openstack-mixed", "011-drained", "017-crush-compat"


def counts(name: str) -> dict[int, int]:
    """In how many groups' up sets each OSD stands, by Ceph."""
    found: dict[int, int] = {}
    for places, _ in STOCK[name]["up"].values():
        for osd in set(places) - set(NOBODY):
            found[osd] = found.get(osd, 0) + 1
    return found


def own_tree(name: str) -> tuple[dict[int, list[int]], dict[int, float]]:
    """The buckets of a cluster that are no shadows, each with its items, and the weight of each item as a part of 1."""
    own = [bucket for bucket in STOCK[name]["crush_dump"]["buckets"] if "~" not in bucket["name"]]
    return {bucket["id"]: [item["id"] for item in bucket["items"]] for bucket in own}, {
        item["id"]: item["weight"] / 65536 for bucket in own for item in bucket["items"]
    }


class SeveralMaps(StockCase):
    """What each command tells of a cluster of several maps, or of one with more than its map has."""

    def test_tree(self) -> None:
        """`df` over dumps shows the cluster's own tree, each OSD once, with Ceph's groups of all pools, and what weighs
        0 where it stands."""
        for name in (SEVERAL, DRAINED, "006-class-rules-only", SET, *WIDE):
            with self.subTest(name=name):
                told, (buckets, weights), groups = self.json("df", *self.dumps(name)), own_tree(name), counts(name)
                rows = told["nodes"]
                self.assertEqual(sorted(row["id"] for row in rows), sorted({*buckets, *weights}), name)
                self.assertEqual(told["stray"], [], name)
                for row in rows:
                    if row["id"] >= 0:
                        self.assertEqual(row["pgs"], groups.get(row["id"], 0), (name, row))
                        self.assertEqual(row["crush_weight"], weights[row["id"]], (name, row))
                        self.assertTrue(
                            row["crush_weight"] or (row["pgs"], row["share"], row["ratio"]) == (0, 0, 0), (name, row)
                        )
                above = {}
                for row in rows:
                    above[row["depth"]] = row["id"]
                    self.assertTrue(row["depth"] == 0 or row["id"] in buckets[above[row["depth"] - 1]], (name, row))
                self.assertEqual(told["summary"]["pgs"], sum(groups.values()), name)
                self.assertLess(abs(told["summary"]["share"] - told["summary"]["pgs"]), 1, name)
                self.assertEqual(
                    [pool["id"] for pool in told["pools"]], [pool["pool"] for pool in STOCK[name]["osd_dump"]["pools"]]
                )
                lines = self.output("df", *self.dumps(name)).splitlines()
                self.assertEqual(len(lines), 1 + len(rows) + 1 + len(told["pools"]) + 2, (name, lines))

    def test_many_pools(self) -> None:
        """Pools beyond those of one map are in a further one, which is that of these pools alone; each is told once."""
        name, folder = "001-three-hosts", self.tools.folder / "many"
        own = copied(STOCK[name])
        pools = own["osd_dump"]["pools"]
        last = pools[-1]
        pools += [
            dict(last, pool=at, pool_name=f"p{at}", pg_num=1, pg_placement_num=1)
            for at in range(last["pool"] + 1, 256 + len(pools))
        ]
        dumps, second = self.dumps("many", own), [pool["pool"] for pool in pools[256:]]
        paths = self.output("import", *dumps, "--to", folder).splitlines()
        maps = [json.loads(pathlib.Path(path).read_text()) for path in paths]
        self.assertEqual([[pool["id"] for pool in own["pools"]] for own in maps][1], second, paths)
        self.assertEqual(json.loads(self.output("import", *dumps, "--pools", ",".join(map(str, second)))), maps[1])
        told = self.json("df", *dumps)
        self.assertEqual([pool["id"] for pool in told["pools"]], [pool["pool"] for pool in pools])
        more = len(pools) - len(STOCK[name]["osd_dump"]["pools"])
        self.assertEqual(told["summary"]["pgs"], sum(counts(name).values()) + more * last["size"])

    def test_shares_under_a_weight_set(self) -> None:
        """Under a weight set the shares go by the weights themselves, no plan is made, and it is told what to do."""
        told, weights = self.json("df", *self.dumps(SET)), own_tree(SET)[1]
        osds = {row["id"]: row["share"] for row in told["nodes"] if row["id"] >= 0}
        total, whole = sum(weights[osd] for osd in osds), sum(counts(SET).values())
        self.assertTrue(all(abs(share - whole * weights[osd] / total) < 0.02 for osd, share in osds.items()), osds)
        output, error = self.ran("plan", *self.dumps(SET), status=1)
        self.assertEqual(output, "", error)
        self.assertEqual(len(error.splitlines()), 1)
        self.assertIn("`ceph osd crush weight-set rm-compat`", error)
        self.assertIn("no plan: a compat weight set", self.output("report", *self.dumps(SET)))
        own = copied(STOCK[SET])
        for entry in own["crush_dump"]["choose_args"]["-1"]:
            bucket = next(own for own in own["crush_dump"]["buckets"] if own["id"] == entry["bucket_id"])
            entry["weight_set"] = [[item["weight"] / 65536 for item in bucket["items"]]]
        self.assertNotEqual(self.output("plan", *self.dumps("equal", own)), "")

    def test_trees_in_names(self) -> None:
        """The names that `import` writes keep the cluster's tree where the map has not all of it, so that `df` of the
        map tells what it does of the dumps, and no plan is made of a map with the weights of a set."""
        for name, has_set in ((DRAINED, False), ("012-arriving", False), (SET, True)):
            with self.subTest(name=name):
                path = self.tools.put("m", self.output("import", *self.dumps(name), "--names", "names"))
                for form in ((), ("--json",)):
                    self.assertEqual(
                        self.output("df", path, "--names", "names", *form), self.output("df", *self.dumps(name), *form)
                    )
                _, error = self.ran("plan", path, "--names", "names", status=int(has_set))
                self.assertEqual(error.startswith("no plan: "), has_set)
                self.assertEqual("no plan: " in self.output("report", path, "--names", "names"), has_set, error)
        self.ran("import", *self.dumps("001-three-hosts"), "--names", "names")
        self.assertNotIn("tree", json.loads((self.tools.folder / "names").read_text()))
        for tree in (
            {},
            5,
            [5],
            [{"id": -1}],
            [{"id": -1, "type": 11, "kind": "straw2", "items": [[-1, 1]]}],
            [{"id": -1, "type": 11, "kind": "straw2", "items": [[0, 1], [0, 1]]}],
            [{"id": 3, "type": 11, "kind": "straw2", "items": []}],
        ):
            with self.subTest(tree=tree):
                output, error = self.ran("df", path, "--names", self.tools.put("names", {"tree": tree}), status=1)
                self.assertEqual(output, "", (tree, error))
                self.assertStarts(error, f"{self.tools.folder / 'names'}: tree")
                self.assertEqual(len(error.splitlines()), 1, (tree, error))

    def test_stories_and_pictures(self) -> None:
        """A group's story ends with Ceph's set, whichever map has it, by the cluster's names; a picture has each OSD
        once, and a page three times: as it is, and before and after the plan."""
        for group in ("1.0", "2.1", "3.ff", "4.7f"):
            with self.subTest(group=group):
                lines = self.output("explain", *self.dumps(SEVERAL), group).splitlines()
                self.assertStarts(lines[-1], f"its up set is {ceph_set(STOCK[SEVERAL]['up'][group]).split(' ')[0]}, ")
        self.assertStarts(
            lines[1], "its rule ssd: take default~ssd; chooseleaf as many as the pool's size of type host (firstn)"
        )
        for word, pictures in (("picture", 1), ("report", 3)):
            with self.subTest(word=word):
                page = self.output(word, *self.dumps(SEVERAL))
                self.assertEqual(page.count('class="c"'), pictures * 64, word)
                self.assertIn("ceph-07", page, word)
                self.assertNotIn("~", page, word)
        xml.etree.ElementTree.fromstring(self.output("picture", *self.dumps(SEVERAL)))
        _, error = self.ran("explain", *self.dumps(SEVERAL), "9.0", status=1)
        self.assertEqual(error, "refused: 23 UnknownPool\n")

    def test_whatif(self) -> None:
        """What moves is what moves over all maps; a host stands for its OSDs of every class, and a change's parts go
        where they belong."""
        maps, (buckets, _) = self.maps_of(SEVERAL).values(), own_tree(SEVERAL)
        host = next(bucket for bucket in STOCK[SEVERAL]["crush_dump"]["buckets"] if bucket["name"] == "ceph-03")
        osds = set(buckets[host["id"]])
        was = self.sets(*maps)
        now = self.sets(
            *(
                dict(value, osds=[dict(osd, weight=0) if osd["id"] in osds else osd for osd in value["osds"]])
                for value in maps
            )
        )
        moved = sum(was[group] != now[group] for group in was)
        files = self.dumps(SEVERAL)
        for words in (
            ["--out", "ceph-03"],
            ["--out", str(host["id"])],
            [json.dumps({"weight": [[osd, 0] for osd in osds]})],
        ):
            with self.subTest(words=words):
                found = self.json("whatif", *files, *words)
                self.assertEqual(found["groups"], moved, (words, found["groups"], moved))
                self.assertGreater(moved, 100, (words, found["groups"], moved))
                self.assertGreaterEqual({flow[0] for flow in found["flows"]}, osds, (words, found["groups"], moved))
        line = next(
            line
            for line in self.output("whatif", *files, "--each", "host").splitlines()
            if line.startswith("ceph-03: ")
        )
        self.assertStarts(line, f"ceph-03: {moved} groups and ")
        # Pair by pair, a group of each map: both are there before and act.
        pairs = {group: json.loads(was[group].split(" ")[0])[0] for group in ("1.0", "4.0")}
        spare = {group: next(osd for osd in range(64) if str(osd) not in was[group]) for group in pairs}
        change = {"new_items": [[group, [[pairs[group], spare[group]]]] for group in pairs]}
        self.assertStarts(self.output("whatif", *files, json.dumps(change)), "2 groups and 2 places move")
        for words, status, told in (
            (['{"new_pools":[]}'], 1, "new_pools: the cluster takes 2 maps"),
            (['{"new_items":[["9.0",[[1,2]]]]}'], 1, "23 UnknownPool"),
            (["--add-host", "new", "1,1"], 1, "new: of which device class? --class one of hdd, ssd"),
            (["{", "5"], 2, "error: "),
            (["5"], 2, "5: No such file or directory"),
        ):
            with self.subTest(words=words):
                _, error = self.ran("whatif", *files, *words, status=status)
                self.assertIn(told, error, (words, error))
                self.assertEqual(len(error.splitlines()), 1, (words, error))

    def test_plans(self) -> None:
        """The plans of a cluster of several maps, each pool by itself, are those of its pools, and leave nothing to
        move in any map."""
        files = self.dumps(SEVERAL)
        output, error = self.ran("plan", *files, "--alone")
        groups = [
            tuple(int(part, 16 if at else 10) for at, part in enumerate(line.split(" ")[3].split(".")))
            for line in commands(output)
        ]
        self.assertEqual(groups, sorted(groups))
        self.assertEqual({pool for pool, _ in groups}, {2, 3, 4})
        names = {pool["pool"]: pool["pool_name"] for pool in STOCK[SEVERAL]["osd_dump"]["pools"]}
        lines = [line.split(":")[0] for line in error.splitlines() if not line.startswith("cluster ")]
        self.assertEqual(lines, [names[pool] for pool in (1, 2, 3, 4)], error)
        for value in self.maps_of(SEVERAL).values():
            own = {str(pool["id"]) for pool in value["pools"]}
            after = with_commands(value, [line for line in commands(output) if line.split(" ")[3].split(".")[0] in own])
            for pool in sorted(own):
                self.assertStarts(self.tools.answers(after, [f"balance {pool} 1024"], "--stock")[0], "moved 0 ")
        part, _ = self.ran("plan", *files, "--of-pool", "4", "--alone")
        moves = [line for line in commands(output) if " 4." in line]
        self.assertTrue(moves, part)
        self.assertEqual(commands(part), moves)
        short, error = self.ran("plan", *files, "--pools", "4", "--deviation", "1", "--alone")
        self.assertGreater(len(commands(short)), 0, (short, error))
        self.assertLessEqual(len(commands(short)), len(moves), (short, error))
        self.assertIn(f"\n{names[4]}: ", error, (short, error))
        for words in (["--of-pool", "7"], ["--pools", "nobody"]):
            with self.subTest(words=words):
                _, error = self.ran("plan", *files, *words, status=1)
                self.assertStarts(error, "no pool ")

    def test_groups_with_an_empty_place(self) -> None:
        """A plan leaves groups of which Ceph has a set with an empty place as they are, since its monitor takes their
        pairs away again (found by osdmaptool --upmap-cleanup 16.2.15), and tells how many it would have moved."""
        files, sets = self.dumps(DRAINED), STOCK[DRAINED]["up"]
        output, error = self.ran("plan", *files)
        told = {pool["id"]: pool for pool in self.json("plan", *files)["pools"]}
        empty = {group for group, (places, _) in sets.items() if set(NOBODY) & set(places)}
        moved = {line.split(" ")[3] for line in commands(output)}
        self.assertGreater(len(empty), 20, moved & empty)
        self.assertTrue(moved, moved & empty)
        self.assertFalse(moved & empty)
        left = set(told[3]["left_out"])
        self.assertTrue(left, left)
        self.assertLessEqual(left, empty)
        self.assertFalse(told[2]["left_out"])
        name = next(pool["pool_name"] for pool in STOCK[DRAINED]["osd_dump"]["pools"] if pool["pool"] == 3)
        line = next(line for line in error.splitlines() if line.startswith(f"{name}: "))
        self.assertIn(
            f"; {len(left)} groups are left out, whose pairs Ceph's monitor would take away again, "
            "by step take default",
            line,
        )
        value = next(
            value for value in self.maps_of(DRAINED).values() if any(pool["id"] == 3 for pool in value["pools"])
        )
        after = self.sets(with_commands(value, commands(output)))
        counts = dict.fromkeys((osd["id"] for osd in value["osds"]), 0)
        for group in (group for group in after if group.startswith("3.")):
            for osd in json.loads(after[group].split(" ")[0].replace("none", "null")):
                counts.update({osd: counts[osd] + 1} if osd is not None else {})
        self.assertEqual(told[3]["after"]["greatest"], max(counts.values()))

    def test_crush_weights(self) -> None:
        """Another weight in the CRUSH map moves as many groups as Ceph's tools say (osdmaptool --adjust-crush-weight
        16.2.15)."""
        for name, pool, weight, groups in (
            ("001-three-hosts", 2, "0=2.5", 16),
            ("006-class-rules-only", 3, "51=0.25", 16),
            ("009-racks", 2, "71=0.25", 74),
            ("015-ec-osd-domain", 2, "0=2.5", 68),
            ("016-by-utilization", 2, "79=0.25", 46),
            ("019-two-roots", 3, "24=2.5", 25),
        ):
            with self.subTest(name=name):
                told = self.json("whatif", *self.dumps(name), "--pools", str(pool), "--weight", f"osd.{weight}")
                self.assertEqual(told["groups"], groups, (name, pool, weight, told["groups"]))
        _, error = self.ran("whatif", *self.dumps(SET), "--weight", "osd.0=2", status=1)
        self.assertStarts(error, "--weight: a compat weight set (choose_args) is in force")

    def test_options_that_do_not_go_together(self) -> None:
        """Options for dumps beside a map are an error of use, and so are three files."""
        path = self.tools.put("m", self.brought("001-three-hosts")[0])
        for words in (
            ["df", path, "--pools", "1"],
            ["explain", path, "1.0", "--tree", "x"],
            ["whatif", path, "--out", "3", "--unmatched"],
            ["picture", path, "--pools", "1"],
            ["plan", path, "--tree", "x"],
            ["import", path, path, "--check", "--to", "maps"],
            ["import", path, path, "--check", "--names", "names"],
            ["report", path, path, path],
            ["df", path, path, path],
        ):
            with self.subTest(words=words):
                _, error = self.ran(*words, status=2)
                self.assertIn("error: ", error, (words, error))
                self.assertEqual(len(error.splitlines()), 1, (words, error))
        for name, *more in (["df"], ["report"], ["explain", "1.0"], ["plan"], ["whatif", "--out", "3"]):
            with self.subTest(name=name):
                own = copied(STOCK["008-rgw-ec83"])
                own["osd_dump"]["pools"][3]["size"] = 21
                _, error = self.ran(name, *self.dumps("too-wide", own), *more, status=1)
                self.assertStarts(error, "pool 4 has size 21, more than 20: ")
                self.assertEqual(len(error.splitlines()), 1, error)
