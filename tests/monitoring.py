"""What cron and CI ask for: which of three a plan is, and what `df` tells in Prometheus' text format."""

from __future__ import annotations

import pathlib
import re

from tests.clusters import STOCK, Json, copied
from tests.tool_cases import StockCase
from tests.unrest import RECORDS, WHY

# A sample of the format: the name of a metric, its labels, and a number.
SAMPLE = re.compile(r'(\w+)(?:\{((?:\w+="(?:[^"\\\n]|\\[\\"n])*",?)*)\})? (-?\d+(?:\.\d+)?(?:e-?\d+)?)')
LABEL = re.compile(r'(\w+)="((?:[^"\\\n]|\\[\\"n])*)"')


def samples_in(text: str) -> dict[tuple[str, tuple[str, ...]], float]:
    """Each sample of a text by its name and the values of its labels, which must be of the format."""
    found = {}
    for line in text.splitlines():
        if line.startswith("# "):
            assert re.fullmatch(r"# (HELP|TYPE) rekhuso_\w+ .+", line), line
            continue
        match = SAMPLE.fullmatch(line)
        assert match, line
        key = match[1], tuple(own for _, own in LABEL.findall(match[2] or ""))
        assert key not in found, line
        found[key] = float(match[3])
    return found


class PlanStates(StockCase):
    """Which of three a plan is."""

    def states(self, *words: object) -> tuple[str, str]:
        """The state by --status and by --json; both end with status 0."""
        told = self.json("plan", *words)
        line = self.output("plan", *words, "--status").rstrip("\n")
        self.assertStarts(line, told["state"])
        return line, told["state"]

    def test_planned(self) -> None:
        """A plan is there; once it is given nothing is to do."""
        own = copied(STOCK["001-three-hosts"])
        files = self.dumps("one", own)
        self.assertEqual(self.states(*files), ("planned", "planned"))
        for line in self.json("plan", *files)["commands"]:
            _, _, word, group, *osds = line.split(" ")
            self.assertEqual(word, "pg-upmap-items")
            pairs = [{"from": int(was), "to": int(now)} for was, now in zip(osds[::2], osds[1::2])]
            own["osd_dump"]["pg_upmap_items"].append({"pgid": group, "mappings": pairs})
        self.assertEqual(self.states(*self.dumps("two", own)), ("nothing to do", "nothing to do"))
        self.assertEqual(self.output("plan", *self.dumps("two", own)), "")

    def test_barred(self) -> None:
        """Nothing can be planned where no pool may be, and that is told with why."""
        own = RECORDS["growing"]
        files = self.tools.put("osd", own["osd_dump"]), self.tools.put("crush", own["crush_dump"])
        line, state = self.states(*files)
        self.assertEqual((line, state), (f"nothing can be planned: vm: {WHY['growing']}", "nothing can be planned"))
        self.assertEqual(self.json("plan", *files)["why"], [f"vm: {WHY['growing']}"])

    def test_use(self) -> None:
        """Options of which one would be passed over are errors of use."""
        files = self.dumps("one", STOCK["001-three-hosts"])
        for words in (["--json"], ["--undo"], ["--batch", "5", "--to", "x"]):
            with self.subTest(words=words):
                self.is_told(self.tools.run("plan", *files, "--status", *words), 2, "--status tells the state", words)


class Metrics(StockCase):
    """Prometheus' text format."""

    def metrics(self, own: Json) -> dict[tuple[str, tuple[str, ...]], float]:
        """The samples of a cluster; `df` tells beside them what it tells without."""
        files = self.dumps("cluster", own)
        self.assertEqual(self.output("df", *files, "--prometheus", "out.prom"), self.output("df", *files))
        return samples_in(pathlib.Path(self.tools.folder, "out.prom").read_text())

    def test_osds(self) -> None:
        """Groups, deviations and ratios of OSDs are those of `df --json`, and groups of pools those of Ceph's sets."""
        for name in ("001-three-hosts", "007-cephfs-ec", "010-outage"):
            with self.subTest(name=name):
                own = STOCK[name]
                found = self.metrics(own)
                table = self.json("df", *self.dumps("cluster", own))
                osds = [row for row in table["nodes"] + table["stray"] if row["id"] >= 0]
                self.assertEqual(len([key for key in found if key[0] == "rekhuso_osd_groups"]), len(osds))
                for row in osds:
                    key = (str(row["id"]),)
                    self.assertEqual(found["rekhuso_osd_groups", key], row["pgs"])
                    self.assertAlmostEqual(found["rekhuso_osd_deviation_groups", key], row["deviation"], 2)
                    if row["share"]:
                        self.assertAlmostEqual(found["rekhuso_osd_ratio", key], row["ratio"], 3)
                counts: dict[tuple[str, str], int] = {}
                names = {str(pool["pool"]): pool["pool_name"] for pool in own["osd_dump"]["pools"]}
                for group, (places, _) in own["up"].items():
                    for osd in set(places) - {None}:
                        pool = names[group.split(".")[0]]
                        counts[str(osd), pool] = counts.get((str(osd), pool), 0) + 1
                there = {key[1]: value for key, value in found.items() if key[0] == "rekhuso_osd_pool_groups" and value}
                self.assertEqual(there, counts)
                self.assertEqual(found["rekhuso_osdmap_epoch", ()], own["osd_dump"]["epoch"])

    def test_pools(self) -> None:
        """The deviation of a pool is the root of the mean square of those of its OSDs."""
        found = self.metrics(STOCK["001-three-hosts"])
        away = [
            value
            for key, value in found.items()
            if key[0] == "rekhuso_osd_pool_deviation_groups" and key[1][1] == "rbd"
        ]
        mean = (sum(own * own for own in away) / len(away)) ** 0.5
        self.assertAlmostEqual(found["rekhuso_pool_deviation_groups", ("rbd",)], mean, 4)
        ratios = [value for key, value in found.items() if key[0] == "rekhuso_osd_pool_ratio" and key[1][1] == "rbd"]
        self.assertEqual(found["rekhuso_pool_ratio_most", ("rbd",)], max(ratios))
        self.assertEqual(found["rekhuso_pool_ratio_least", ("rbd",)], min(ratios))

    def test_names(self) -> None:
        """Names of pools with quotes, backslashes and line breaks are one label; an old file is replaced as a whole."""
        own = copied(STOCK["001-three-hosts"])
        own["osd_dump"]["pools"][1]["pool_name"] = 'a"b\\c\nd'
        pathlib.Path(self.tools.folder, "out.prom").write_text("old\n" * 100)
        found = self.metrics(own)
        self.assertEqual(len([key for key in found if key[0] == "rekhuso_pool_groups"]), 2)
        self.assertEqual(sorted(path.name for path in pathlib.Path(self.tools.folder).glob("out.prom*")), ["out.prom"])

    def test_no_place(self) -> None:
        """Where the file cannot be written that is told, and nothing is put out."""
        files = self.dumps("cluster", STOCK["001-three-hosts"])
        self.is_told(self.tools.run("df", *files, "--prometheus", "no/where"), 2, "no/where: No such file", "no place")
