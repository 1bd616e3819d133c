"""Plans that are carried out by `next` alone: over a cluster whose dumps follow the commands by steps, as a monitor's
do, with cuts at every step."""

from __future__ import annotations

import json
import pathlib
from collections import Counter
from collections.abc import Iterator

from rekhuso.plans.guards import is_guard

from tests.clusters import STOCK, Json, copied, exceptions_in, exceptions_told, raised, with_commands
from tests.drains import BUILT, come_in, reweighted, weights_of
from tests.holds import sets_of
from tests.schemas import faults_of
from tests.tool_cases import StockCase

NOBODY = 2147483647
DONE, OUT, WAITS = 0, 10, 11


class Cluster:
    """A cluster as its dumps tell it, whose data follows its sets by steps."""

    def __init__(self, case: StockCase, own: Json) -> None:
        self.case, self.dump, self.crush = case, copied(own["osd_dump"]), copied(own["crush_dump"])
        self.given = 0
        self.acting = self.sets()

    def files(self) -> list[pathlib.Path]:
        """The dumps as files."""
        return [self.case.tools.put("osd", self.dump), self.case.tools.put("crush", self.crush)]

    def sets(self) -> dict[str, list[int | None]]:
        """The sets that are up, by the program."""
        value = json.loads(self.case.output("import", *self.files()))
        return sets_of(self.case.tools.sets(raised(value), "--stock"))

    def pgs(self) -> pathlib.Path:
        """What `ceph pg dump` tells: where the data is, and that it moves."""
        ups, stats = self.sets(), []
        for group, up in ups.items():
            moves = self.acting[group] != up
            state = "active+remapped+backfilling" if moves else "active+clean"
            own: Json = {"pgid": group, "up": up, "acting": self.acting[group], "state": state}
            stats.append({**own, "stat_sum": {"num_bytes": 2**30}})
        return self.case.tools.put("pgs", {"pg_ready": True, "pg_map": {"pg_stats": stats}})

    def give(self, lines: list[str]) -> None:
        """Commands of an operator."""
        tables = exceptions_in(self.dump)
        there = {entry[0] for entries in tables.values() for entry in entries}
        pairs = [line for line in lines if "pg-upmap" in line]
        after = with_commands(tables, [line for line in pairs if " rm-" not in line or line.split(" ")[3] in there])
        self.dump["pg_upmap_items"] = exceptions_told(**after)["pg_upmap_items"]
        self.crush = reweighted(self.crush, weights_of(lines))
        out = {int(word[4:]) for line in lines if line.startswith("ceph osd out ") for word in line.split(" ")[3:]}
        for osd in self.dump["osds"]:
            osd["weight"] = 0 if osd["osd"] in out else osd["weight"]
        self.dump["epoch"] += 1
        self.given += len(lines)

    def moving(self) -> list[tuple[str, int]]:
        """The places that are under way."""
        return come_in({"osd_dump": self.dump}, self.acting, self.sets())

    def busiest(self) -> int:
        """In how many moves under way an OSD takes part at most."""
        of_group: dict[str, set[int]] = {}
        for group, osd in self.moving():
            first = next(own for own in self.acting[group] if own is not None)
            of_group.setdefault(group, {first}).add(osd)
        return max(Counter(osd for osds in of_group.values() for osd in osds).values(), default=0)

    def work(self, most: int) -> None:
        """The data of some groups arrives."""
        ups = self.sets()
        for group in [group for group, up in ups.items() if self.acting[group] != up][:most]:
            self.acting[group] = ups[group]


class CarriedPlans(StockCase):
    """A drain and a plan that are carried out by `next` alone."""

    def asked(self, cluster: Cluster, plan: object, *words: object) -> tuple[int, list[str], str]:
        """The status of `next`, its commands, and what it tells."""
        found = self.tools.run("next", *cluster.files(), plan, "--pgs", cluster.pgs(), *words)
        self.assertIn(found[0], (DONE, OUT, WAITS), found[2][-400:])
        lines = [line for line in found[1].splitlines() if line.startswith("ceph ")]
        self.assertEqual(bool(lines), found[0] == OUT, found[2])
        return found[0], lines, found[2]

    def test_drain(self) -> None:
        """A drain, each output of which is cut off and asked for again, and each asked for twice: never more places
        under way than asked for, no OSD in more moves; in the end nothing lies on the OSD, and all is done."""
        own = STOCK[BUILT]
        files = self.tools.put("o", own["osd_dump"]), self.tools.put("c", own["crush_dump"])
        self.output("drain", *files, "osd.7", "--batch", 20, "--to", self.tools.folder / "plan")
        told, cluster = self.json("drain", *files, "osd.7", "--batch", 20), Cluster(self, own)
        first, seen = dict(cluster.acting), Counter[str]()
        words = "plan", "--most", 9, "--osd-most", 3
        for turn in range(60):
            status, lines, _ = self.asked(cluster, *words)
            if status == DONE:
                break
            is_stage = any("norebalance" in line for line in lines)
            cluster.give(lines[: turn % (len(lines) + 1)])
            status, again, _ = self.asked(cluster, *words)
            cluster.give(again)
            if not is_stage or again:
                self.assertLessEqual(len(cluster.moving()), 9)
                self.assertLessEqual(cluster.busiest(), 3)
            self.assertFalse({osd for _, osd in cluster.moving()} & {7})
            seen.update({group for group, _ in cluster.moving()})
            cluster.work(3)
        self.assertEqual(status, DONE)
        self.assertEqual(sum(7 in places for places in cluster.acting.values()), 0)
        self.assertEqual(len(come_in(own, first, cluster.acting)), told["places"])
        self.assertEqual([osd["weight"] for osd in cluster.dump["osds"] if osd["osd"] == 7], [0])
        self.assertEqual(len(seen), told["moving"]["groups"])

    def test_counts(self) -> None:
        """Before any command of a drain nothing of it is done, and all its groups are left; behind the script that
        begins it all are left still, and those that it holds for good are done."""
        own = STOCK[BUILT]
        cluster = Cluster(self, own)
        drain = self.tools.put("drain.json", self.output("drain", *cluster.files(), "osd.7", "--json"))
        value = json.loads(drain.read_text())
        moving = value["moving"]["groups"]
        named = {line.split(" ")[3] for line in value["begin"]["commands"]}
        sent = {line.split(" ")[3] for part in value["parts"] for line in part["commands"]}
        words = "next", *cluster.files(), drain, "--pgs", cluster.pgs(), "--json"
        told = json.loads(self.tools.run(*words)[1])
        self.assertEqual((told["done"], told["under_way"]["groups"], told["left"]["groups"]), (0, 0, moving))
        cluster.give(value["begin"]["change"] + value["begin"]["commands"])
        words = "next", *cluster.files(), drain, "--pgs", cluster.pgs(), "--json"
        told = json.loads(self.tools.run(*words)[1])
        held = (len(named - sent), 0, moving)
        self.assertEqual((told["done"], told["under_way"]["groups"], told["left"]["groups"]), held)
        self.assertGreater(moving, 9)

    def test_plan(self) -> None:
        """A plan by its JSON without --most: all its commands at once, then nothing until the groups have moved; the
        bytes that are left are those of the places."""
        own = STOCK[BUILT]
        cluster = Cluster(self, own)
        plan = self.tools.put("plan.json", self.output("plan", *cluster.files(), "--json"))
        told = json.loads(plan.read_text())
        status, lines, error = self.asked(cluster, plan)
        self.assertEqual((status, lines), (OUT, told["commands"]))
        places = told["moving"]["places"]
        self.assertIn(f"left: {told['moving']['groups']} groups and {places} places, some {places}.0 GiB", error)
        cluster.give(lines)
        self.assertEqual(self.asked(cluster, plan)[:2], (WAITS, []))
        cluster.work(99)
        self.assertEqual(self.asked(cluster, plan)[:2], (DONE, []))
        told = self.json("next", *cluster.files(), plan, "--pgs", cluster.pgs())
        self.assertEqual((told["status"], told["commands"], told["left"]["places"]), (DONE, [], 0))

    def test_parts(self) -> None:
        """Without --most a part comes once the groups of the one before have moved, whole."""
        own = STOCK[BUILT]
        cluster = Cluster(self, own)
        paths = self.output("plan", *cluster.files(), "--batch", 6, "--to", self.tools.folder / "plan").splitlines()
        texts = [pathlib.Path(path).read_text() for path in paths]
        for text in texts:
            status, lines, _ = self.asked(cluster, "plan")
            self.assertEqual((status, lines), (OUT, [line for line in text.splitlines() if line.startswith("ceph ")]))
            cluster.give(lines)
            self.assertEqual(self.asked(cluster, "plan")[0], WAITS)
            cluster.work(99)
        self.assertEqual(self.asked(cluster, "plan")[0], DONE)

    def test_states(self) -> None:
        """Data is not there yet where a dump of groups is older than the command, or tells that a group is not clean,
        though the set that acts is the one that is up; primary affinity may give both another order."""
        own = STOCK[BUILT]
        cluster = Cluster(self, own)
        plan = self.tools.put("plan.json", self.output("plan", *cluster.files(), "--json"))
        before = json.loads(cluster.pgs().read_text())
        cluster.give(json.loads(plan.read_text())["commands"])
        old = self.tools.put("old", before)
        self.assertEqual(self.tools.run("next", *cluster.files(), plan, "--pgs", old)[0], WAITS)
        cluster.work(99)
        late = json.loads(cluster.pgs().read_text())
        group = json.loads(plan.read_text())["commands"][0].split(" ")[3]
        for stat in late["pg_map"]["pg_stats"]:
            stat["state"] = "active+recovering" if stat["pgid"] == group else stat["state"]
        path = self.tools.put("late", late)
        self.assertEqual(self.tools.run("next", *cluster.files(), plan, "--pgs", path)[0], WAITS)
        for stat in late["pg_map"]["pg_stats"]:
            stat.update(state="active+clean", up=stat["up"][::-1], acting=stat["acting"][::-1])
        path = self.tools.put("led", late)
        self.assertEqual(self.tools.run("next", *cluster.files(), plan, "--pgs", path)[0], DONE)

    def test_guards(self) -> None:
        """What is put out asks, before anything is given, whether the cluster is the one of the dumps and has their
        CRUSH map and groups; so does a stage, in place of the guards of its script. --no-guard leaves them
        out."""
        own = copied(STOCK[BUILT])
        own["osd_dump"].update(fsid="3360e166-03f7-4c83-ab03-2704d1bb31a8", crush_version=61)
        cluster = Cluster(self, own)
        self.output("drain", *cluster.files(), "osd.7", "--batch", 20, "--to", self.tools.folder / "plan")
        plan = self.tools.put("plan.json", self.output("plan", *cluster.files(), "--json"))
        drain = self.tools.put("drain.json", self.output("drain", *cluster.files(), "osd.7", "--json"))
        pgs, files = cluster.pgs(), cluster.files()
        for given in (plan, "plan", drain):
            words = ["next", *files, given, "--pgs", pgs]
            lines = self.tools.run(*words)[1].splitlines()
            first = next(at for at, line in enumerate(lines) if line.startswith("ceph "))
            asked = [line for line in lines[:first] if is_guard(line)]
            for part in (f"^fsid {cluster.dump['fsid']}$", "^crush_version 61$", "^pool 2 "):
                self.assertEqual(sum(part in line for line in asked), 1, (given, part))
            self.assertEqual(lines[lines.index("set -e") + 1 :][: len(asked)], asked)
            bare = self.tools.run(*words, "--no-guard")[1].splitlines()
            above = [line for line in lines[:first] if line not in asked]
            self.assertEqual(bare, [*above, *lines[first:]])

    def test_page(self) -> None:
        """The page of `report --next` tells what `next` does of a plan amid its way: what is done, under way and left,
        and OSD by OSD what is still to come and to go. In the end nothing is, and without --next nothing is told."""
        cluster = Cluster(self, STOCK[BUILT])
        self.output("drain", *cluster.files(), "osd.7", "--batch", 20, "--to", self.tools.folder / "plan")
        told = self.json("drain", *cluster.files(), "osd.7", "--batch", 20)
        cluster.give(told["begin"]["change"] + told["begin"]["commands"] + told["parts"][0]["commands"])
        cluster.work(5)
        found = self.tools.run("next", *cluster.files(), "plan", "--pgs", cluster.pgs(), "--json")
        self.assertEqual(found[0], WAITS)
        own = json.loads(found[1])
        self.assertEqual(faults_of(own), [])
        to_go = {osd["id"]: osd["to_go"] for osd in own["osds"]}
        self.assertEqual(to_go.pop(7), told["places"] - 5)
        self.assertEqual(sum(to_go.values()), 0)
        page = self.output("report", *cluster.files(), "--next", "plan", "--pgs", cluster.pgs())
        self.assertIn(f'<progress max="{own["done"] + own["under_way"]["groups"] + own["left"]["groups"]}"', page)
        for line in found[2].splitlines():
            self.assertIn(f"<p>{line}</p>", page)
        for osd in own["osds"]:
            cells = (f"osd.{osd['id']}", osd["under_way"], osd["left"], osd["to_go"])
            first, *rest = cells
            row = f'<tr><th scope="row">{first}</th>' + "".join(f"<td>{cell}</td>" for cell in rest)
            self.assertIn(f"{row}</tr>", page)
        self.assertNotIn("carried out", self.output("report", *cluster.files()))

    def test_page_words(self) -> None:
        """Words of `report` of which one would be passed over are errors of use."""
        files = self.dumps(BUILT)
        words = ["report", *files, "--pgs", files[0]]
        self.is_told(self.tools.run(*words), 2, "--pgs tells where the data is, and goes with --next", words)
        words = ["report", files[0], "--next", "plan.sh"]
        self.is_told(self.tools.run(*words), 2, "--next goes with two dumps alone", words)

    def test_report(self) -> None:
        """A report has the dumps in it, and without --pgs its temporary sets tell what moves."""
        own = STOCK[BUILT]
        cluster = Cluster(self, own)
        plan = self.tools.put("plan.json", self.output("plan", *cluster.files(), "--json"))
        group = json.loads(plan.read_text())["commands"][0].split(" ")[3]
        was = cluster.acting[group]
        report = self.tools.put("report", {"osdmap": cluster.dump, "crushmap": cluster.crush})
        status, output, _ = self.tools.run("next", "--report", report, plan)
        self.assertEqual(status, OUT)
        cluster.give([line for line in output.splitlines() if line.startswith("ceph ")])
        for temporary, wanted in (([{"pgid": group, "osds": was}], WAITS), ([], DONE)):
            dump = dict(cluster.dump, pg_temp=temporary)
            report = self.tools.put("report", {"osdmap": dump, "crushmap": cluster.crush})
            self.assertEqual(self.tools.run("next", "--report", report, plan)[0], wanted)


class BadPlans(StockCase):
    """What `next` does where it cannot do its work."""

    def test_use(self) -> None:
        """Files that are missing, and options of which one would be passed over."""
        files = self.dumps(BUILT)
        cases: list[tuple[list[object], str]] = [
            ([*files], "next takes the two dumps of a cluster and a plan"),
            ([*files, "plan.sh"], "next wants --pgs, which tells where the data is"),
            (["--report", "r", *files, "plan.sh"], "next takes the two dumps of a cluster and a plan"),
            ([*files, "plan.sh", "--pgs", "p", "--most", "0"], "argument --most: 0: no number of moves"),
        ]
        for words, told in cases:
            self.is_told(self.tools.run("next", *words), 2, told, words)

    def test_plans(self) -> None:
        """What is no plan, or lacks a part, is told."""
        cluster, folder = Cluster(self, STOCK[BUILT]), self.tools.folder / "plan"
        folder.mkdir()
        (folder / "undo-001.sh").write_text("set -e\n")
        pgs, line = cluster.pgs(), "ceph osd pg-upmap-items 2.0 1 2\n"

        def is_told(plan: object, told: str, status: int = 1) -> None:
            """Asks that a plan is refused."""
            self.is_told(self.tools.run("next", *cluster.files(), plan, "--pgs", pgs), status, told, plan)

        is_told("plan", "plan: no script of a plan")
        (folder / "plan-001.sh").write_text(line)
        (folder / "drain-000.sh").write_text(line)
        is_told("plan", "plan: scripts of several plans: drain, plan")
        (folder / "drain-000.sh").unlink()
        (folder / "plan-003.sh").write_text(line)
        is_told("plan", "plan: part 2 is missing")
        is_told(self.tools.put("a.sh", "ceph osd purge 1\n"), "ceph osd purge 1: no line of a script of these tools")
        is_told(self.tools.put("b.sh", f'set -e\n"$@"\n{line}'), "its change is still to come")
        is_told(self.tools.put("c.json", {"command": "df"}), "no plan: what `df` tells")
        is_told(self.tools.put("d.json", {"command": "drain"}), "no plan that `drain --json` tells")
        is_told("none.sh", "none.sh: No such file or directory", 2)

    def test_changes(self) -> None:
        """A cluster that is no longer the one of the plan ends in status 1 and no command; a command that leads to an
        OSD that is drained or out since is left out, and told."""
        cluster = Cluster(self, STOCK[BUILT])
        plan = self.tools.put("plan.json", self.output("plan", *cluster.files(), "--json"))
        lines = json.loads(plan.read_text())["commands"]
        osd = int(lines[0].split(" ")[-1])
        pgs, files = cluster.pgs(), cluster.files()
        out = copied(cluster.dump)
        for own in out["osds"]:
            own["weight"] = 0 if own["osd"] == osd else own["weight"]
        light = self.tools.put("light", reweighted(cluster.crush, {osd: 0.0001}))
        # A plan of older tools does not tell for which CRUSH map it was made.
        told = json.loads(plan.read_text())
        old = self.tools.put("old.json", {key: own for key, own in told.items() if key != "crush_map"})
        for first, second, own, why in (
            (self.tools.put("out", out), files[1], plan, "out"),
            (files[0], light, old, "drained"),
        ):
            _, output, error = self.tools.run("next", first, second, own, "--pgs", pgs)
            self.assertIn(f"left out: {lines[0]}: osd.{osd} is {why}", error)
            self.assertNotIn(lines[0], output.splitlines())
        self.is_told(
            self.tools.run("next", files[0], light, plan, "--pgs", pgs), 1, "for another CRUSH map", "a drained OSD"
        )
        short = copied(cluster.dump)
        short["pools"][-1]["pg_num"] = short["pools"][-1]["pg_placement_num"] = 8
        stats = json.loads(pgs.read_text())["pg_map"]["pg_stats"]
        kept = [own for own in stats if own["pgid"].split(".")[0] == "1" or int(own["pgid"].split(".")[1], 16) < 8]
        few = self.tools.put("few", {"pg_stats": kept})
        output, error = self.ran("next", self.tools.put("s", short), files[1], plan, "--pgs", few, status=1)
        self.assertEqual(output, "")
        self.assertIn("the cluster has changed: ", error)
        down = copied(cluster.dump)
        down["osds"][0]["up"] = 0
        _, error = self.ran("next", self.tools.put("d", down), files[1], plan, "--pgs", pgs, status=11)
        self.assertIn("an outage: 1 OSD is down", error)
        self.assertIn("no command is given", error)


class OtherClusters(StockCase):
    """Plans that are of another cluster, or for another CRUSH map, in each of their forms."""

    FSID, OTHER = "3360e166-03f7-4c83-ab03-2704d1bb31a8", "99990000-03f7-4c83-ab03-2704d1bb31a8"

    def setUp(self) -> None:
        super().setUp()
        own = copied(STOCK[BUILT])
        own["osd_dump"].update(fsid=self.FSID, crush_version=61)
        self.cluster = Cluster(self, own)
        files = self.cluster.files()
        self.output("plan", *files, "--batch", 8, "--to", self.tools.folder / "plans")
        self.output("drain", *files, "osd.7", "--batch", 20, "--to", self.tools.folder / "drains")
        script = self.tools.put("plan.sh", self.output("plan", *files))
        old = "".join(line for line in script.read_text().splitlines(True) if not line.startswith("# "))
        self.forms = {
            "script": script,
            "folder": self.tools.folder / "plans",
            "drain": self.tools.folder / "drains",
            "plan as JSON": self.tools.put("plan.json", self.output("plan", *files, "--json")),
            "drain as JSON": self.tools.put("drain.json", self.output("drain", *files, "osd.7", "--json")),
            "a script of older tools": self.tools.put("old.sh", old),
        }
        self.pgs = self.cluster.pgs()

    def asked(self, dump: Json, crush: Json, plan: object) -> Iterator[tuple[int, str, str]]:
        """What `next` ends with, and puts out and tells, of a plan over dumps and over a report."""
        files = self.tools.put("now-osd", dump), self.tools.put("now-crush", crush)
        yield self.tools.run("next", *files, plan, "--pgs", self.pgs)
        yield self.tools.run("next", "--report", self.tools.put("now", {"osdmap": dump, "crushmap": crush}), plan)

    def test_fsid(self) -> None:
        """A plan of another cluster is told by one line with status 1, whatever guards are asked for, and in each form
        that a plan has; that of the cluster itself has guards of its own fsid."""
        other = dict(self.cluster.dump, fsid=self.OTHER)
        for name, plan in self.forms.items():
            for found in self.asked(other, self.cluster.crush, plan):
                with self.subTest(name=name):
                    told = f"of another cluster: its fsid is {self.FSID}, and that of the cluster {self.OTHER}"
                    self.is_told(found, 1, told, name)
            status, text, error = next(self.asked(self.cluster.dump, self.cluster.crush, plan))
            self.assertEqual((status, text.count(f"'^fsid {self.FSID}$'")), (OUT, 1), error)

    def test_crush_map(self) -> None:
        """So is a plan for another CRUSH map, as by a weight, also of a cluster that tells no fsid; a script of older
        tools does not tell for which it is."""
        heavier = reweighted(self.cluster.crush, {3: 7.5})
        nameless = {key: own for key, own in self.cluster.dump.items() if key != "fsid"}
        for name, plan in self.forms.items():
            for dump in (self.cluster.dump, nameless):
                for found in self.asked(dump, heavier, plan):
                    with self.subTest(name=name):
                        if name.endswith("older tools"):
                            self.assertEqual(found[0], OUT, found[2])
                        else:
                            self.is_told(found, 1, "for another CRUSH map than the cluster has", name)

    def test_no_fsid(self) -> None:
        """Where the dumps tell no fsid, what is put out asks for that of the plan all the same."""
        nameless = {key: own for key, own in self.cluster.dump.items() if key != "fsid"}
        for name, plan in self.forms.items():
            with self.subTest(name=name):
                status, text, error = next(self.asked(nameless, self.cluster.crush, plan))
                self.assertEqual((status, text.count(f"'^fsid {self.FSID}$'")), (OUT, 1), error)

    def test_pools(self) -> None:
        """A pool that the scripts of a plan ask for, and that is to be split since, is told."""
        dump = copied(self.cluster.dump)
        dump["pools"][-1]["pg_num_target"] = 2 * dump["pools"][-1]["pg_num"]
        for name in ("script", "folder"):
            for found in self.asked(dump, self.cluster.crush, self.forms[name]):
                self.assertEqual(found[:2], (1, ""), name)
                self.assertIn("or is to be split or shrunk\nnothing is given\n", found[2])
