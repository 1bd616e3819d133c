"""`CephCluster`: what Ceph's commands print goes in as values, and what the tools tell comes back as values, in several
threads, while nothing is printed."""

from __future__ import annotations

import doctest
import os
import pathlib
import shutil
import sys
import tempfile
import threading
from concurrent.futures import ThreadPoolExecutor
from typing import Any

from rekhuso import CephCluster, Fault, Monitor
from rekhuso.faults import Misuse

from tests.binary_maps import maps_of
from tests.cases import EXAMPLE, EXAMPLES, TOP, Case, example
from tests.clusters import STOCK, Json, ceph_set, copied
from tests.packaged import ran
from tests.python_files import looked
from tests.reef import REEF
from tests.schemas import faults_of
from tests.tool_cases import AS_STORE, StockCase
from tests.verify import rows_of

SECONDS = 300
# Asks for all that a cluster tells, and prints nothing itself.
SILENT = """
import json, sys
from rekhuso import CephCluster
osd, crush, program = sys.argv[1:]
cluster = CephCluster(json.load(open(osd)), json.load(open(crush)), program=program)
cluster.maps(), cluster.sets(), cluster.plan(), cluster.told("df"), cluster.told("whatif", "--out", "1")
try:
    cluster.told("df", "--nothing")
except Exception:
    pass
sys.exit(0 if cluster.notes else 3)
"""
# What types say of a key that no change has.
TYPED = """
from rekhuso import Monitor
def right(monitor: Monitor) -> None:
    monitor.change(down=[2], new_items=[["1.0", [[3, 1]]]])
    monitor.apply(up=[2])
def wrong(monitor: Monitor) -> None:
    monitor.change(dwon=[2])
"""


def sets_told(cluster: CephCluster) -> dict[str, str]:
    """The sets of a cluster as the program writes them."""
    return {
        group: ceph_set((own.places, -1 if own.primary is None else own.primary))
        for group, own in cluster.sets().items()
    }


class PythonClusters(StockCase):
    """Clusters as values."""

    def of(self, own: Json) -> CephCluster:
        """A cluster by its dumps."""
        return CephCluster(own["osd_dump"], own["crush_dump"], program=self.program)

    def test_sets(self) -> None:
        """The sets of stock clusters are those that Ceph's own tools tell; dumps go in as values, as bytes and as
        texts, and values stay as they are."""
        for name in list(STOCK)[:4]:
            own = copied(STOCK[name])
            wanted = {group: ceph_set(entry) for group, entry in own["up"].items()}
            with self.subTest(name=name):
                self.are_alike(sets_told(self.of(own)), wanted, name)
                self.assertEqual(own, STOCK[name])
                osd, crush = (path.read_bytes() for path in self.dumps(name))
                self.are_alike(sets_told(CephCluster(osd, crush, program=self.program)), wanted, name)
                cluster = CephCluster(osd.decode(), crush.decode(), program=self.program)
                self.are_alike(sets_told(cluster), wanted, name)

    def test_examples(self) -> None:
        """Each public function of a cluster has an example, and each example is as it says."""
        osd, crush, pgs = ((EXAMPLES / "ceph" / f"{name}.json").read_bytes() for name in ("osd", "crush", "pgs"))
        found = [test for test in doctest.DocTestFinder().find(CephCluster, "", globs={}) if test.examples]
        public = {f".{name}" for name in vars(CephCluster) if not name.startswith("_")}
        self.assertEqual({test.name for test in found}, public)
        for test in found:
            with self.subTest(test.name):
                test.globs.update(cluster=CephCluster(osd, crush, program=self.program), pgs=pgs)
                told: list[str] = []
                self.assertEqual(doctest.DocTestRunner(verbose=False).run(test, out=told.append).failed, 0, told)

    def test_one_file(self) -> None:
        """A binary map goes in as its bytes, and has the maps of the dumps of the same monitor, whose epochs were
        replaced."""
        for name, data in list(maps_of("18.2.7").items())[:2]:
            with self.subTest(name=name):
                found, wanted = CephCluster(data, program=self.program).maps(), self.of(REEF[name]).maps()
                self.assertEqual([dict(own, epoch=1) for own in found], [dict(own, epoch=1) for own in wanted])

    def test_answers(self) -> None:
        """What a command tells as JSON over files it tells of values, but for the names of files."""
        name = next(iter(STOCK))
        own, dumps = STOCK[name], self.dumps(name)
        cluster = self.of(own)
        for words in (["df"], ["plan"], ["plan", "--first", "2"], ["whatif", "--out", "1"], ["release"]):
            with self.subTest(words=words):
                wanted = self.json(words[0], *dumps, *words[1:])
                found = cluster.told(*words)
                self.assertEqual(faults_of(found), [])
                self.assertEqual({**found, "of": None}, {**wanted, "of": None})
        sums = [entry["sha256"] for entry in cluster.plan()["of"]]
        self.assertEqual(sums, [entry["sha256"] for entry in self.json("plan", *dumps)["of"]])

    def test_groups(self) -> None:
        """Where groups lie goes in as a value; one that lies elsewhere is told, and is no fault of the call."""
        name = next(iter(STOCK))
        own = copied(STOCK[name])
        rows = rows_of(own)
        cluster = self.of(own)
        found = cluster.verify({"pg_map": {"pg_stats": rows}})
        self.assertEqual((found["differ"], found["same"]), ([], len(rows)))
        rows[0]["up"] = rows[0]["up"][::-1]
        found = cluster.verify({"pg_map": {"pg_stats": rows}})
        self.assertEqual([entry["group"] for entry in found["differ"]], [rows[0]["pgid"]])

    def test_plans(self) -> None:
        """A plan goes in as the value that it came as, and all of it may be given where nothing is limited; as a script
        it is the same, and of few places that may be under way it is the beginning."""
        name = next(iter(STOCK))
        cluster, own = self.of(STOCK[name]), copied(STOCK[name])
        pgs = {"pg_map": {"pg_stats": rows_of(own)}}
        plan = cluster.plan()
        found = cluster.next(plan, pgs)
        self.assertEqual((found["commands"], found["left"]["groups"]), (plan["commands"], plan["moving"]["groups"]))
        script = "\n".join(["set -e", *plan["commands"], ""])
        self.assertEqual(cluster.next(script, pgs)["commands"], plan["commands"])
        few = cluster.next(plan, pgs, "--most", "4")["commands"]
        self.assertTrue(0 < len(few) <= 4, few)
        self.assertEqual(few, plan["commands"][: len(few)])

    def test_later(self) -> None:
        """A cluster beside itself at a later time: the groups that move are those whose sets of Ceph differ."""
        name = next(iter(STOCK))
        own, later = STOCK[name], copied(STOCK[name])
        for osd in later["osd_dump"]["osds"][:1]:
            osd["up"] = 0
        found = self.of(own).diff(self.of(later))
        path = self.tools.put("later", later["osd_dump"])
        wanted = self.json("diff", *self.dumps(name), path, self.dumps(name)[1])
        self.assertEqual(found, wanted)

    def test_refusals(self) -> None:
        """What a command refuses is a fault with its lines, also what keeps a cluster out, and words that mean nothing
        are an error of use."""
        name = next(iter(STOCK))
        own = copied(STOCK[name])
        cluster = self.of(own)
        for words in (["plan", "--nothing"], ["plan", "--help"], ["nothing"], ["plan", "--until", "0"]):
            with self.subTest(words=words), self.assertRaises(Misuse):
                cluster.told(*words)
        own["osd_dump"]["pools"][0]["crush_rule"] = 200
        with self.assertRaises(Fault) as fault:
            self.of(own).maps()
        self.assertIn("200", str(fault.exception))
        with self.assertRaises(Fault) as fault:
            CephCluster("{", "{", program=self.program).sets()
        self.assertStarts(fault.exception.lines[0], "osd_dump: no JSON")

    def test_silence(self) -> None:
        """No call prints anything: what is told beside an answer stands in `notes`."""
        dumps = self.dumps(next(iter(STOCK)))
        found = ran([sys.executable, "-c", SILENT, *dumps, self.program], TOP / "tools")
        self.assertEqual(found, (0, ""))

    def test_threads(self) -> None:
        """Two threads ask over two clusters at the same time: each is told its own, and has notes of its own."""
        names, both = list(STOCK)[:2], threading.Barrier(2)

        def asked(name: str) -> list[Any]:
            """What a thread is told, several times over."""
            found: list[Any] = []
            both.wait(timeout=SECONDS)
            for _ in range(2):
                cluster = self.of(STOCK[name])
                found.append(
                    (cluster.plan()["commands"], cluster.told("df")["nodes"], sets_told(cluster), cluster.notes)
                )
            return found

        with ThreadPoolExecutor(2) as pool:
            told = [future.result(timeout=SECONDS) for future in [pool.submit(asked, name) for name in names]]
        for name, found in zip(names, told):
            self.assertEqual(found[1:], found[:1])
            dumps = self.dumps(name)
            self.assertEqual(found[0][0], self.json("plan", *dumps)["commands"])
            self.assertEqual(found[0][1], self.json("df", *dumps)["nodes"])
        self.assertTrue(told[0][0] != told[1][0])

    def test_pipes(self) -> None:
        """A long-lived Python that is given a pipe twice is told what comes each time."""
        path, value = self.tools.folder / "pipe", example()
        os.mkfifo(path)
        for epoch in (7, 8):
            text = self.tools.put("map", dict(value, epoch=epoch)).read_text()
            writer = threading.Thread(target=path.write_text, args=(text,), daemon=True)
            writer.start()
            with Monitor(path, self.program, timeout=SECONDS) as monitor:
                self.assertEqual(monitor.epoch(), epoch)
            writer.join(SECONDS)


class PythonChanges(Case):
    """The calls of a monitor by their types, and its options."""

    def test_keys_of_changes(self) -> None:
        """A key that no change has is a TypeError, as any keyword is that a call does not have."""
        with Monitor(EXAMPLE, self.program, timeout=SECONDS) as monitor:
            calls: list[Any] = [monitor.change, monitor.apply]
            for call in calls:
                with self.assertRaisesRegex(TypeError, "unexpected keyword argument 'dwon'"):
                    call(dwon=[2])
            self.assertEqual(monitor.change(down=[2]).epoch, 2)

    def test_types_of_changes(self) -> None:
        """`mypy` says so before anything runs, without options for it."""
        self.needs("mypy", shutil.which("mypy") is not None)
        with tempfile.TemporaryDirectory() as folder:
            path = pathlib.Path(folder, "typed.py")
            path.write_text(TYPED)
            words = ["env", f"MYPYPATH={TOP / 'tools'}", "mypy", "--strict", "--cache-dir", folder, path]
            status, told = looked(*words)
        self.assertEqual(status, 1, told)
        self.assertEqual(told.count("error:"), 1, told)
        self.assertIn('Unexpected keyword argument "dwon" for "change"', told)

    def test_options_of_stores(self) -> None:
        """A monitor over a store gives the program the word of its changes, how many stay, and that each is synced
        twice; what the program would not take, or goes with no store, is a ValueError."""
        right: list[tuple[dict[str, Any], list[str]]] = [
            ({"by": "alice"}, ["--by", "alice"]),
            ({"keep": 7, "wary": True}, ["--keep", "7", "--wary"]),
            ({"keep": 0}, ["--keep", "0"]),
        ]
        wrong: list[dict[str, Any]] = [
            {"by": ""},
            {"by": "two words"},
            {"by": "a" * 65},
            {"keep": -1},
            {"keep": 1_000_001},
        ]
        with tempfile.TemporaryDirectory() as folder:
            store, keeper = pathlib.Path(folder, "store"), pathlib.Path(folder, "osdmapstore")
            keeper.write_text(f"{AS_STORE}printf '%s\\n' \"$@\" > {folder}/words\necho epoch 1\necho session 1\ncat\n")
            keeper.chmod(0o755)
            for options, words in right:
                with self.subTest(options=options):
                    with Monitor(example(), keeper, store=store, timeout=SECONDS, **options):
                        pass
                    told = pathlib.Path(folder, "words").read_text().splitlines()
                    at = told.index(words[0])
                    self.assertEqual(told[at : at + len(words)], words)
            for options in wrong:
                with self.subTest(options=options), self.assertRaises(ValueError):
                    Monitor(example(), keeper, store=store, **options)
        for options, _ in right:
            with self.subTest(options=options), self.assertRaisesRegex(ValueError, "go with a store"):
                Monitor(example(), self.program, **options)
