"""Commands that read some pools of a cluster alone, by `--pools`: what they tell of those that are left out, beside
what real monitors then moved, as it was kept, and beside monitors where they are there.

osdmaps.json.gz has the binary maps of clusters of operators.json.gz and reef.json.gz, by the release of their monitors;
other maps of reef.json.gz stand there.
"""

from __future__ import annotations

import base64
import json
import os
import pathlib
import shutil
from collections import Counter
from collections.abc import Iterator

from tests.ceph_monitor import RECORDS, WORST
from tests.clusters import Json, copied, kept
from tests.holds import RECORDS as HOLDS
from tests.moving import RECORDS as MOVES
from tests.reef_tools import ReefMonitor, reef_tools
from tests.tool_cases import StockCase

OSDMAPS: dict[str, dict[str, str]] = kept("osdmaps.json.gz")
REEF: dict[str, Json] = kept("reef.json.gz")["clusters"]
# Clusters at whose monitors OSDs are drained; the first alone where it is not to take long.
DRAINED = ["takes", "tiers", "affinity", "b_lrc", "six_hosts", "four_hosts", "d_fourlevels", "ec_pairs", "hammer"]
DRAINED += ["racks", "b_drainpairs", "few_hosts", "local_steps"]
SOON = 2


def pool_of(group: str) -> int:
    """The pool of a group."""
    return int(group.split(".")[0])


def moved_by_pool(dump: Json, was: Json, now: Json) -> Counter[int]:
    """How many groups of each pool have other sets than before, where they were there: by places in an erasure pool,
    and in another one by OSDs."""
    kinds = {pool["pool"]: pool["type"] for pool in dump["pools"]}
    found: Counter[int] = Counter()
    for group, (places, _) in now.items():
        old = was[group][0] if group in was else places
        is_same = old == places if kinds[pool_of(group)] == 3 else {*old} - {None} == {*places} - {None}
        found[pool_of(group)] += not is_same
    return found


def others(dump: Json, pool: int) -> str:
    """All pools of a dump but one, as words have them."""
    return ",".join(str(own["pool"]) for own in dump["pools"] if own["pool"] != pool)


class SomePools(StockCase):
    """What is told of pools that are left out."""

    def files(self, own: Json) -> list[pathlib.Path]:
        """The dumps of a cluster, and those behind a change where there are some."""
        keys = [key for key in ("osd_dump", "crush_dump", "new_osd_dump", "new_crush_dump") if key in own]
        return [self.tools.put(key, own[key]) for key in keys]

    def is_all_told(self, told: Json, moved: Counter[int], pool: int, what: object) -> int:
        """Asks that of each pool but one as many groups may move as have moved at least, and that none has moved of a
        pool of which nothing is told to change. How many have moved."""
        beside = {own["id"]: own for own in told.get("beside", [])}
        seen = {number: count for number, count in moved.items() if number != pool}
        for number, count in seen.items():
            self.assertLessEqual(count, beside[number]["may_move"], (what, number))
            self.assertTrue(beside[number]["changes"] or beside[number]["may_move"] or not count, (what, number))
        return sum(seen.values())

    def test_holds(self) -> None:
        """Of each change that a monitor made, and each pool that alone is held: what moves of the others is told."""
        total = 0
        for key, record in {**HOLDS, **MOVES}.items():
            dump, moved = record["osd_dump"], moved_by_pool(record["osd_dump"], record["up"], record["new_up"])
            for pool in [own["pool"] for own in dump["pools"]][:SOON]:
                with self.subTest(key=key, pool=pool):
                    words = ["--pools", pool, "--anyway", "--leaving", others(dump, pool), "--json"]
                    status, output, error = self.tools.run("hold", *self.files(record), *words)
                    if status == 0:
                        total += self.is_all_told(json.loads(output), moved, pool, key)
                    else:
                        self.assertIn("nothing is held", error)
        self.assertGreater(total, 100)

    def test_whatif(self) -> None:
        """Of each command that a monitor was given, and each pool that alone is asked of: what moves of the others is
        told."""
        total = 0
        for record in (record for record in RECORDS if record["words"] != ["{}"]):
            own = WORST[record["cluster"]]
            if any(record["given"].values()):
                continue
            moved = moved_by_pool(own["osd_dump"], own["up"], {**own["up"], **record["up"]})
            for pool in [pool["pool"] for pool in own["osd_dump"]["pools"]][-SOON:]:
                with self.subTest(cluster=record["cluster"], words=record["words"], pool=pool):
                    told = self.json("whatif", *self.files(own), "--pools", pool, *record["words"])
                    total += self.is_all_told(told, moved, pool, record["words"])
        self.assertGreater(total, 100)

    def test_refused(self) -> None:
        """`drain` and `hold` are refused where the rule or the OSDs of pools change that are left out, each of which is
        told; --leaving has to name each of them."""
        files = self.files(WORST["takes"])
        for words in (["drain", *files, "osd.3"], ["hold", *files, "--weight", "osd.3=1"]):
            status, output, error = self.tools.run(*words, "--pools", "r")
            self.assertEqual((status, output), (1, ""))
            lines = error.splitlines()
            self.assertEqual(lines[-1].split(": ")[1], "--leaving 1,3,4,5,6 does it nonetheless", words)
            self.assertEqual(lines[1], "r3, 32 groups and 96 places: all may move, as its rule or OSDs change")
            self.assertEqual(len(lines), 6, lines)
            status, output, error = self.tools.run(*words, "--pools", "r", "--leaving", "1,3,4,5")
            self.assertEqual((status, output), (1, ""))
            text, error = self.ran(*words, "--pools", "r", "--leaving", "1,3,4,5,s3")
            self.assertIn("# beside: s3, 32 groups and 96 places: all may move, as its rule or OSDs change", text)
            self.assertIn("of the pools that were read", text.splitlines()[0])
            self.assertIn("left out by --pools, and placed by no program: h, 16 groups and 32 places: all may", error)
            self.is_told(self.tools.run(*words, "--leaving", "h"), 2, "--leaving goes with --pools", words)
            self.is_told(self.tools.run(*words, "--pools", "r", "--leaving", "nobody"), 1, "no pool nobody", words)

    def test_others_stay(self) -> None:
        """A pool whose rule and OSDs stay as they are, as it takes another host alone, keeps nothing back, and the
        script asks for its rule."""
        own = WORST["takes"]
        pool = next(pool for pool in own["osd_dump"]["pools"] if pool["pool_name"] == "h")
        rule = next(rule for rule in own["crush_dump"]["rules"] if rule["rule_id"] == pool["crush_rule"])
        host = next(own for own in own["crush_dump"]["buckets"] if own["id"] == rule["steps"][0]["item"])
        other = next(osd for osd in range(20) if osd not in {item["id"] for item in host["items"]})
        words = ["hold", *self.files(own), "--weight", f"osd.{other}=1", "--pools", "r", "--leaving", "1,3,5,6"]
        told = {row["name"]: (row["changes"], row["may_move"]) for row in self.json(*words)["beside"]}
        self.assertEqual((told["h"], told["s3"]), ((False, 0), (True, 32)))
        self.assertIn(f"has '^pool 4 .* crush_rule {rule['rule_id']} object_hash [^'\"'\"']*$' ", self.output(*words))
        self.assertNotIn("crush_rule", self.output(*words, "--no-guard"))

    def test_unknown_changes(self) -> None:
        """Where a change is made already and only the data tells of it, or a pool cannot be read, all may move."""
        own = copied(WORST["takes"])
        stats = [
            dict({"pgid": group, "state": "active+clean"}, up=up, acting=up, up_primary=first, acting_primary=first)
            for group, (up, first) in own["up"].items()
        ]
        files = [*self.files(own), "--pgs", self.tools.put("pgs", {"pg_stats": stats})]
        _, _, error = self.tools.run("hold", *files, "--pools", "r")
        self.assertIn("nothing is held: --leaving 1,3,4,5,6 does it nonetheless", error)
        own["osd_dump"]["pools"][4]["size"] = "3"
        told = self.json("df", *self.files(own), "--pools", "r")
        self.assertEqual(told["beside"][-1], dict(dict.fromkeys(told["beside"][-1]), id=5, name="pool 5", changes=True))

    def test_looks(self) -> None:
        """Each command that looks at some pools says which it leaves out, in JSON too; over all pools nothing is
        said."""
        files = self.files(WORST["takes"])
        told = "left out by --pools: device_health_metrics, r3, h, s and s3, with 145 groups\n"
        for words in (["df", *files], ["explain", *files, "2.1"], ["import", *files, "--check"]):
            with self.subTest(words=words[0]):
                output, error = self.ran(*words, "--pools", "r")
                self.assertIn("left out by --pools", output + error)
                beside = self.json(*words, "--pools", "r")["beside"]
                self.assertEqual([own["id"] for own in beside], [1, 3, 4, 5, 6])
                self.assertEqual({own["changes"] for own in beside}, {False})
                self.assertNotIn("left out by", "".join(self.ran(*words)))
                self.assertNotIn("beside", self.json(*words))
        more: list[list[object]] = [[word, *files] for word in ("import", "picture", "report")]
        for words in (*more, ["plan", *files, "--status"], ["diff", *files, *files]):
            self.assertIn("left out by --pools", "".join(self.ran(*words, "--pools", "r")), words)
        self.assertIn(told, self.ran("df", *files, "--pools", "r")[1])
        text, _ = self.ran("release", *files, "--pools", "r")
        self.assertTrue(not text or "# beside: r3, 32 groups" in text)

    def test_plans(self) -> None:
        """A plan of some pools tells the cluster before and after by all pools that can be placed, as `df` counts it
        once its commands are given."""
        own = copied(WORST["takes"])
        own["osd_dump"]["pools"][5]["size"] = 21
        files = self.files(own)
        told = self.json("plan", *files, "--pools", "r")
        self.assertEqual(told["all_pools"]["pools"], [1, 2, 3, 4, 5])
        self.assertEqual([row["id"] for row in told["beside"]], [1, 3, 4, 5, 6])
        pairs = [line.split(" ") for line in told["commands"]]
        entries = {line[3]: list(map(int, line[4:])) for line in pairs if line[2] == "pg-upmap-items"}
        items = {entry["pgid"]: entry for entry in own["osd_dump"]["pg_upmap_items"]}
        for group, osds in entries.items():
            mappings = [{"from": osds[at], "to": osds[at + 1]} for at in range(0, len(osds), 2)]
            items[group] = {"pgid": group, "mappings": mappings}
        for line in pairs:
            if line[2] == "rm-pg-upmap-items":
                del items[line[3]]
        for key, entry in (("before", own["osd_dump"]["pg_upmap_items"]), ("after", list(items.values()))):
            later = dict(own, osd_dump=dict(own["osd_dump"], pg_upmap_items=entry))
            nodes = self.json("df", *self.files(later), "--pools", "1,2,3,4,5")["nodes"]
            has = {node["id"]: node["pgs"] for node in nodes}
            for word in ("fullest", "emptiest"):
                found = told["all_pools"][key][word]
                self.assertEqual(found["has"], has[found["id"]], (key, word))
        _, error = self.ran("plan", *self.files(own), "--pools", "r")
        self.assertIn("cluster by groups of all 5 pools that can be placed: before fullest ", error)
        self.assertNotIn("all_pools", self.json("plan", *self.files(WORST["takes"]), "--of-pool", "r"))


class AtMonitors(StockCase):
    """Drains of some pools at real monitors."""

    def monitors(self) -> Iterator[tuple[pathlib.Path, str, bytes]]:
        """Where tools are, and the name and the map of a cluster that their monitor is given."""
        found, reef = shutil.which("ceph-mon"), reef_tools()
        names = DRAINED if os.environ.get("LONG") else DRAINED[:SOON]
        if found is not None:
            for name in names:
                yield pathlib.Path(found).parent, name, base64.b64decode(OSDMAPS["16.2.15"][name])
        if reef is not None:
            own = {name: base64.b64decode(text) for name, text in OSDMAPS["18.2.7"].items()}
            own |= {name: base64.b64decode(value["osdmap"]) for name, value in REEF.items() if "osdmap" in value}
            for name in list(own) if os.environ.get("LONG") else list(own)[:SOON]:
                yield reef, name, own[name]

    def dumps_of(self, monitor: ReefMonitor) -> list[pathlib.Path]:
        """The dumps of a monitor."""
        told = {}
        for name, words in (("osd", ["osd", "dump", "-f", "json"]), ("crush", ["osd", "crush", "dump"])):
            told[name] = monitor.run("ceph", "-c", monitor.conf, *words).stdout
        return [self.tools.put(f"{name}.json", text) for name, text in told.items()]

    def test_drains(self) -> None:
        """An OSD is drained of each pool alone, and the monitor given all commands: no group of another pool moves but
        by what is told."""
        self.needs("ceph-mon", bool(shutil.which("ceph-mon") or reef_tools()))
        moved = 0
        for tools, name, osdmap in self.monitors():
            with self.subTest(tools=tools, name=name), ReefMonitor(tools, osdmap) as monitor:
                moved += self.moved_beside(monitor, name)
        self.assertGreater(moved, 0)

    def moved_beside(self, monitor: ReefMonitor, name: str) -> int:
        """Drains an OSD of a pool: how many groups of other pools move."""
        files = self.dumps_of(monitor)
        dump = json.loads(files[0].read_text())
        pool = max(dump["pools"], key=lambda own: (own["pg_num"], own["pool"]))["pool"]
        was = monitor.sets()
        osd = next(osd for group in sorted(was) if pool_of(group) == pool for osd in was[group][0] if osd is not None)
        words = [f"osd.{osd}", "--pools", pool, "--leaving", others(dump, pool), "--anyway", "--json"]
        status, output, error = self.tools.run("drain", *files, *words)
        if status != 0:
            self.assertIn("nothing is drained", error, (name, error))
            return 0
        told = json.loads(output)
        lines = [line for part in told["parts"] for line in part["commands"]]
        ends = [told[key]["change"] + told[key]["commands"] for key in ("begin", "end")]
        monitor.refused([*ends[0], *lines, *ends[1]])
        moved = moved_by_pool(dump, was, monitor.sets())
        beside = {own["id"]: own["may_move"] for own in told.get("beside", [])}
        self.assertEqual({number for number in moved if number != pool and moved[number] > beside[number]}, set(), name)
        return sum(count for number, count in moved.items() if number != pool)
