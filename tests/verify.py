"""`verify`: the groups of clusters beside where Ceph says that they lie; differences that are planted are found.

Live records are dumps of whole clusters of Ceph 16.2.15, the groups as its managers told them. The sets of all other
clusters are those of Ceph's own tools, written as such a dump.
"""

from __future__ import annotations

import json
import pathlib
import random

from tests.ceph_monitor import WORST
from tests.cases import HERE, TOP
from tests.clusters import STOCK, Json, copied, kept
from tests.reef import REEF, SOME
from tests.stock_clusters import OUTSIDE
from tests.tool_cases import StockCase, ToolCase

LIVE: dict[str, Json] = kept("verify.json.gz")
NONE = 2147483647


def rows_of(cluster: Json) -> list[Json]:
    """The sets of a cluster's groups, as a dump of groups has them."""
    return [
        {
            "pgid": group,
            "state": "active+clean",
            "reported_epoch": cluster["osd_dump"]["epoch"],
            "up": [NONE if osd is None else osd for osd in places],
            "up_primary": -1 if primary is None else primary,
            "acting": [NONE if osd is None else osd for osd in places],
        }
        for group, (places, primary) in cluster["up"].items()
    ]


def told_now(name: str) -> Json:
    """A live record all of whose groups were told at the epoch of the OSD dump."""
    own = copied(LIVE[name])
    for row in own["pgs"]:
        row["reported_epoch"] = own["osd_dump"]["epoch"]
    return own


class VerifyCase(ToolCase):
    """Tests over dumps of a cluster and of its groups."""

    def three(self, cluster: Json, rows: list[Json]) -> list[object]:
        """The dumps of a cluster, and that of its groups behind its option."""
        dumps = [self.tools.put("osd", cluster["osd_dump"]), self.tools.put("crush", cluster["crush_dump"])]
        return [*dumps, "--pgs", self.tools.put("pgs", {"pg_map": {"pg_stats": rows}})]


class Clusters(VerifyCase, StockCase):
    """Clusters of several kinds."""

    def lies(self, name: str, cluster: Json, *words: str) -> None:
        """Asks that each group of a cluster lies where Ceph says."""
        with self.subTest(name=name):
            pools = [
                pool for pool in cluster["osd_dump"]["pools"] if not words or str(pool["pool"]) in words[1].split(",")
            ]
            count = sum(pool["pg_num"] for pool in pools)
            told = self.output("verify", *self.three(cluster, rows_of(cluster)), *words)
            self.assertEqual(told, f"{count:,} of {count:,} groups lie where the cluster says\n")

    def test_stock(self) -> None:
        """Stock clusters that come in, by a monitor of Ceph 16.2.15."""
        for name in STOCK.keys() - OUTSIDE.keys():
            self.lies(name, STOCK[name])

    def test_operators(self) -> None:
        """Clusters as operators have them at their worst."""
        for name, own in WORST.items():
            self.lies(name, own)

    def test_reef(self) -> None:
        """Clusters of Ceph 18.2, with primaries that are named and affinities."""
        for name in REEF:
            self.lies(name, REEF[name], *(["--pools", SOME[name]] if name in SOME else []))

    def test_planted(self) -> None:
        """Each of 200 planted differences is found, and no other: a place, an order, a primary."""
        found, chance = 0, random.Random(7)
        clusters = [
            STOCK["001-three-hosts"],
            STOCK["007-cephfs-ec"],
            WORST["four_hosts"],
            REEF["affinity"],
            WORST["racks"],
        ]
        for own in clusters:
            rows = copied(rows_of(own))
            erasure = {str(pool["pool"]) for pool in own["osd_dump"]["pools"] if pool["type"] == 3}
            planted = chance.sample([row for row in rows if len(row["up"]) > 1], 40)
            for at, row in enumerate(planted):
                plant(row, at % 3 if row["pgid"].split(".")[0] not in erasure else at % 2, own["osd_dump"]["max_osd"])
            output, _ = self.ran("verify", *self.three(own, rows), "--json", status=1)
            told = {own["group"] for own in json.loads(output)["differ"]}
            self.assertEqual(told, {row["pgid"] for row in planted})
            found += len(told)
        self.assertEqual(found, 200)


def plant(row: Json, kind: int, most: int) -> None:
    """Plants a difference: a place or a primary; of a replicated group also the order of its set."""
    up = row["up"]
    if kind == 0:
        up[-1] = next(osd for osd in range(most) if osd not in up)
    elif kind == 1:
        row["up_primary"] = next(osd for osd in up if osd not in (row["up_primary"], NONE))
    else:
        up[-1], up[-2] = up[-2], up[-1]


class LiveGroups(VerifyCase):
    """What live clusters told of their groups."""

    def test_live(self) -> None:
        """Each group that is told lies there; one amid a split that was told before its set changed is not told yet."""
        records: list[tuple[str, int, list[str]]] = [("bluestore", 113, []), ("split", 113, ["2.24"]), ("held", 65, [])]
        for name, count, untold in records:
            with self.subTest(name=name):
                own = LIVE[name]
                output, error = self.ran("verify", *self.three(own, own["pgs"]))
                self.assertStarts(output, f"{count - len(untold)} of {count} groups lie where the cluster says")
                self.assertEqual(error, "")
                told = json.loads(self.output("verify", *self.three(own, own["pgs"]), "--json"))
                self.assertEqual((told["untold"], told["differ"]), (untold, []))

    def test_before_pairs(self) -> None:
        """Where the OSD dump is one from before pairs were given, each group of theirs differs: its story is told as
        `explain` tells it, and the step at which the ways part."""
        own = told_now("held")
        pairs = sorted(entry["pgid"] for entry in own["osd_dump"]["pg_upmap_items"])
        before = dict(own, osd_dump=dict(own["osd_dump"], pg_upmap_items=[]))
        words = self.three(before, own["pgs"])
        output, error = self.ran("verify", *words, status=1)
        self.assertStarts(
            output, f"{65 - len(pairs)} of 65 groups lie where the cluster says; {len(pairs)} lie elsewhere\n"
        )
        self.assertEqual(error, f"{len(pairs)} of 65 groups lie elsewhere than the cluster says\n")
        self.assertIn(self.output("explain", *words[:2], pairs[0]), output)
        self.assertEqual(output.count("the ways part at step chooseleaf"), 5)
        self.assertIn(f"and {len(pairs) - 5} more: ", output)
        told = json.loads(self.ran("verify", *words, "--json", status=1)[0])
        self.assertEqual(sorted(own["group"] for own in told["differ"]), pairs)

    def test_page(self) -> None:
        """What docs/COMMANDS.md says of such dumps of a live cluster is what `verify` tells."""
        own, page = LIVE["held"], (TOP / "docs" / "COMMANDS.md").read_text()
        before = dict(own, osd_dump=kept("unrest.json.gz")["growing"]["new_osd_dump"])
        output, _ = self.ran("verify", *self.three(before, own["pgs"]), status=1)
        self.assertIn("\n".join(f"    {line}".rstrip() for line in output.splitlines()[:9]), page)

    def test_parting(self) -> None:
        """The step at which the ways part: an order, a primary, an OSD of the same host, an OSD that is elsewhere."""
        own = told_now("bluestore")
        group = next(row for row in own["pgs"] if row["pgid"] == "2.3f")
        one, two, three = group["up"]
        self.assertEqual([osd // 3 for osd in group["up"]], [1, 0, 2])
        beside = next(osd for osd in range(3, 6) if osd != one)
        for up, primary, told in (
            ([one, three, two], one, "the ways part at the order of its set"),
            (group["up"], two, f"the ways part at its primary: osd.{one} here, osd.{two} there"),
            ([beside, two, three], beside, f"of type host (firstn): osd.{one} here, osd.{beside} there"),
            ([77, two, three], 77, "the ways part at step take default: osd.77 does not stand below it"),
        ):
            with self.subTest(told=told):
                rows = [dict(row, up=up, up_primary=primary) if row["pgid"] == "2.3f" else row for row in own["pgs"]]
                self.assertIn(told, self.ran("verify", *self.three(own, rows), status=1)[0])

    def test_down(self) -> None:
        """Where the OSD dump has an OSD down that the cluster has up, the ways part there."""
        own = told_now("bluestore")
        own["osd_dump"]["osds"][3]["up"] = 0
        output, _ = self.ran("verify", *self.three(own, own["pgs"]), status=1)
        self.assertIn("the ways part at the OSDs that are down: the cluster has the set with them", output)


class NotTold(VerifyCase):
    """Groups that the cluster does not tell yet, and dumps that are not of the cluster."""

    def changed(self, count: int, **keys: object) -> list[object]:
        """The files of a live cluster, of which some groups have other keys."""
        own = LIVE["bluestore"]
        rows = [dict(row, **keys) if at < count else row for at, row in enumerate(own["pgs"])]
        return self.three(own, rows)

    def test_states(self) -> None:
        """Groups of states that say nothing are not told yet; below 90 % told the status is 3."""
        for state in ("stale+active+clean", "unknown", "remapped+peering", "creating"):
            with self.subTest(state=state):
                output = self.output("verify", *self.changed(11, state=state))
                self.assertStarts(
                    output, "102 of 113 groups lie where the cluster says; 11 not told yet\nnot told yet: "
                )
                _, error = self.ran("verify", *self.changed(12, state=state), status=3)
                self.assertEqual(error, "fewer than 90 % are told: 12 of 113 groups are not told yet\n")

    def test_epochs(self) -> None:
        """A group that differs is not told yet if it was told at an earlier epoch, as a number or a text; at a later
        one it differs, with the advice to dump again."""
        epoch = LIVE["bluestore"]["osd_dump"]["epoch"]
        other = {"up": [0, 3], "up_primary": 0}
        for reported in (epoch - 1, str(epoch - 1)):
            output = self.output("verify", *self.changed(1, reported_epoch=reported, **other))
            self.assertStarts(output, "112 of 113 groups lie where the cluster says; 1 not told yet\n")
        for reported in (epoch, str(epoch)):
            output, _ = self.ran("verify", *self.changed(1, reported_epoch=reported, **other), status=1)
            self.assertNotIn("dump all three again", output)
        output, _ = self.ran("verify", *self.changed(1, reported_epoch=epoch + 1, **other), status=1)
        self.assertIn(f"1 of them was told at a later epoch than {epoch}, that of the OSD dump: dump all three", output)
        output = self.output("verify", *self.changed(113, reported_epoch=epoch - 9))
        self.assertEqual(output, "113 of 113 groups lie where the cluster says\n")

    def test_dates(self) -> None:
        """Where pools and OSDs have dates, a group that differs and was told earlier is not told yet only if its pool
        has changed since, or an OSD of one of its sets came up or went down; else it differs. So it is for `plan`."""
        own = copied(LIVE["bluestore"])
        epoch, group = own["osd_dump"]["epoch"], own["pgs"][0]["pgid"]
        number = int(group.split(".")[0])
        pool = next(pool for pool in own["osd_dump"]["pools"] if pool["pool"] == number)
        osds = {osd["osd"]: osd for osd in own["osd_dump"]["osds"]}
        for entry in own["osd_dump"]["pools"]:
            entry["last_change"] = str(epoch - 90)
        for osd in osds.values():
            osd.update(up_from=epoch - 90, down_at=0, lost_at=0)
        was, now = own["pgs"][0]["up"], [osd for osd in osds if osd not in own["pgs"][0]["up"]]
        beside = now[len(own["pgs"][0]["up"]) :]
        other = now[: len(was)]
        rows = [dict(row, reported_epoch=epoch - 2) for row in own["pgs"]]
        rows[0].update(up=other, up_primary=other[0])

        def status(*words: object) -> int:
            """How a command ends."""
            return self.tools.run(*(words or ("verify", *self.three(own, rows))))[0]

        output, _ = self.ran("verify", *self.three(own, rows), status=1)
        self.assertIn(
            "1 of them was told at an earlier epoch, and neither their pools nor their OSDs have chan", output
        )
        self.assertEqual(status("plan", *self.three(own, rows)), 1)
        for entry, key in ((pool, "last_change"), (osds[was[0]], "down_at"), (osds[other[-1]], "up_from")):
            before = entry[key]
            for value, ends in ((epoch - 2, 1), (epoch - 1, 0)):
                entry[key] = str(value) if key == "last_change" else value
                with self.subTest(key=key, value=value):
                    self.assertEqual(status(), ends)
            entry[key] = before
        if beside:
            osds[beside[0]]["up_from"] = epoch - 1
            self.assertEqual(status(), 1)

    def test_files(self) -> None:
        """A dump of groups of another form or of another cluster is told, and one without sets."""
        own = LIVE["bluestore"]
        rows = own["pgs"]
        for other, told in (
            ([row for row in rows if row["pgid"] != "2.3"], "no group 2.3"),
            ([*rows, dict(rows[0], pgid="9.0")], "the cluster has no pool 9"),
            ([*rows, rows[0]], "a group stands there twice"),
            ([dict(rows[0], up=3), *rows[1:]], "pg_stats[0].up: no list"),
            ([dict(rows[0], up_primary=None), *rows[1:]], "pg_stats[0].up_primary: no whole number"),
        ):
            with self.subTest(told=told):
                self.is_told(self.tools.run("verify", *self.three(own, other)), 1, told, told)
        bare = [{"pgid": row["pgid"]} for row in rows]
        self.is_told(self.tools.run("verify", *self.three(own, bare)), 3, "tells the up set of no group", "bare")
        files = self.three(own, rows)
        self.assertEqual(self.tools.run("verify", *files[:2])[0], 2)
        self.assertEqual(self.tools.run("verify", files[0], *files[2:])[0], 2)

    def test_pools_that_stay_out(self) -> None:
        """The pools that come in are looked at where others stay out, which are named."""
        own = copied(LIVE["bluestore"])
        own["osd_dump"]["pools"][1]["size"] = 21
        output = self.output("verify", *self.three(own, own["pgs"]))
        self.assertEqual(
            output,
            "49 of 49 groups lie where the cluster says\n"
            "not looked at, as they stay out (import --check says why): rbd\n",
        )


class Guards(VerifyCase):
    """Commands that look by themselves."""

    def test_commands(self) -> None:
        """`plan --pgs`, `hold --pgs` and `import --check --pgs` do nothing where a group lies elsewhere, but for
        `--anyway`; where all lie there they say nothing of it, and `import` how many."""
        own = told_now("bluestore")
        df = self.tools.put("df", own["df"])
        good = self.three(own, own["pgs"])
        rows = [dict(row, up=row["up"][::-1]) if row["pgid"] == "2.3" else row for row in own["pgs"]]
        bad = [*good[:3], self.tools.put("bad", {"pg_stats": rows})]
        line = "1 of 113 groups lie elsewhere than these maps say, the first 2.3: "
        for what, words, wrong in (
            ("planned", ["plan", *good, "--df", df], ["plan", *bad, "--df", df]),
            ("taken for the cluster's", ["import", "--check", *good], ["import", "--check", *bad]),
            ("held", ["hold", "--pgs", good[3], *good[:2]], ["hold", "--pgs", bad[3], *bad[:2]]),
        ):
            with self.subTest(what=what):
                self.ran(*words)
                _, error = self.ran(*wrong, status=1)
                self.assertIn(line, error)
                self.assertEqual(error.splitlines()[-1], f"nothing is {what}: --anyway does it nonetheless")
                self.ran(*wrong, "--anyway")
        self.assertEqual(
            self.output("import", *good, "--check"),
            "the cluster comes in as one map\n113 of 113 groups lie where the cluster says\n",
        )
        told = self.json("import", *good, "--check")
        self.assertEqual(told["verified"], {"groups": 113, "same": 113, "differ": 0, "untold": 0})
        self.is_told(self.tools.run("import", *good), 2, "--pgs and --anyway go with --check", "import")


class Cases(VerifyCase):
    """Groups that stand in a file of their own."""

    def test_case(self) -> None:
        """--case writes the first group that differs, and all that places it, without a name of the cluster; it stands
        in the tests as it is."""
        own = told_now("bluestore")
        rows = [dict(row, up=row["up"][::-1]) if row["pgid"] == "2.1" else row for row in own["pgs"]]
        self.ran("verify", *self.three(own, rows), "--case", "case", status=1)
        text = pathlib.Path(self.tools.folder, "case").read_text()
        found = json.loads(text)
        row = next(row for row in rows if row["pgid"] == "2.1")
        self.assertEqual((found["group"], found["up"], found["up_primary"]), ("2.1", row["up"], row["up_primary"]))
        names = [bucket["name"] for bucket in own["crush_dump"]["buckets"]]
        names += [pool["pool_name"] for pool in own["osd_dump"]["pools"]]
        names += [rule["rule_name"] for rule in own["crush_dump"]["rules"]]
        self.assertEqual([name for name in names if f'"{name}"' in text], [])
        self.assertNotIn(own["osd_dump"]["fsid"], text)
        self.assertNotIn(own["osd_dump"]["osds"][0]["uuid"], text)
        self.ran("verify", *self.three(own, own["pgs"]), "--case", "good")
        self.holds(json.loads(pathlib.Path(self.tools.folder, "good").read_text()))

    def holds(self, case: Json) -> None:
        """Asks that a group lies where its case says."""
        files = self.tools.put("osd", case["osd_dump"]), self.tools.put("crush", case["crush_dump"])
        told = self.json("explain", *files, case["group"])
        self.assertEqual((told["up"], told["up_primary"]), (case["up"], case["up_primary"]))

    def test_verified(self) -> None:
        """Each case of `verified/` lies where its cluster said."""
        paths = sorted((HERE / "verified").glob("*.json"))
        self.assertGreater(len(paths), 2)
        for path in paths:
            with self.subTest(name=path.name):
                self.holds(json.loads(path.read_text()))
