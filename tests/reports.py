"""`ceph report` in place of both dumps: reports of monitors of Ceph 16.2.15 and 18.2.7 beside their own dumps, and one
of a live cluster; what pools hold by a report and by `ceph df`, also where bytes by pool are not raw.
"""

from __future__ import annotations

import gzip
import json
import pathlib
import re
import subprocess

from tests.clusters import Json, kept
from tests.tool_cases import SECONDS, ToolCase
from tests.verify import LIVE

RECORDS: dict[str, Json] = kept("reports.json.gz")
# What each command is given behind the files of a cluster.
COMMANDS: dict[str, list[str]] = {
    "df": [],
    "import": ["--check"],
    "plan": [],
    "explain": ["2.1"],
    "whatif": ["--out", "osd.1"],
    "hold": ["--weight", "osd.1=1.5"],
    "release": [],
    "report": [],
    "shell": [],
    "drain": ["osd.1"],
}


class ReportCase(ToolCase):
    """Tests over reports."""

    def packed(self, name: str, value: Json) -> pathlib.Path:
        """A file with a value as JSON, packed by gzip."""
        path = self.tools.put(name, "")
        path.write_bytes(gzip.compress(json.dumps(value).encode()))
        return path


class Reports(ReportCase):
    """A report in place of two dumps."""

    def said(self, *words: object) -> tuple[int, str, str]:
        """What a command tells, but for the lines of a script that name the files of which it was made."""
        status, output, error = self.tools.run(*words, stdin="up 2.1\n")
        return (
            status,
            re.sub(r"^# (?:made by|        (?:of|and)|rekhuso: end,) .*\n", "", output, flags=re.MULTILINE),
            error,
        )

    def test_commands(self) -> None:
        """Each command tells of a report of either release, also a packed one, what it tells of the two dumps."""
        for name in ("pacific", "reef"):
            own = RECORDS[name]
            dumps = self.tools.put("osd", own["osd_dump"]), self.tools.put("crush", own["crush_dump"])
            files = self.tools.put("report", own["report"]), self.packed("report.gz", own["report"])
            for command, words in COMMANDS.items():
                with self.subTest(name=name, command=command):
                    wanted = self.said(command, *dumps, *words)
                    self.assertEqual(wanted[0], 0, wanted)
                    for path in files:
                        self.assertEqual(self.said(command, path, *words), wanted)
            with self.subTest(name=name, command="two sides"):
                self.assertEqual(self.output("diff", *files), self.output("diff", *dumps, *dumps))
                self.assertEqual(self.said("hold", *files)[1], self.said("hold", *dumps, *dumps)[1])
                self.assertEqual(self.output("picture", *files).count("<svg"), 1)
                text = json.dumps(own["report"])
                self.assertEqual(self.tools.run("df", "-", stdin=text)[1], self.output("df", *dumps))
                text = f"report 24317374\n{text}"
                self.assertEqual(self.output("df", self.tools.put("with-head", text)), self.output("df", *dumps))

    def test_kept(self) -> None:
        """`release --before` takes a report from before the hold."""
        own = RECORDS["reef"]
        path = self.tools.put("report", own["report"])
        words = self.tools.put("osd", own["osd_dump"]), self.tools.put("crush", own["crush_dump"])
        wanted = self.ran("release", *words, "--before", words[0])
        self.assertEqual(self.ran("release", path, "--before", path), wanted)

    def test_live(self) -> None:
        """The groups of a live cluster lie where its report says."""
        own = RECORDS["live"]
        files = self.tools.put("report", own["report"]), self.tools.put("pgs", {"pg_stats": own["pgs"]})
        told = self.output("verify", files[0], "--pgs", files[1])
        self.assertEqual(told, "41 of 41 groups lie where the cluster says\n")

    def test_pipes(self) -> None:
        """A pipe may stand for any file, though it can be read once alone: for a report, dumps, and those of groups."""
        own = RECORDS["live"]
        files = {name: self.tools.put(name, own["report"][name]) for name in ("osdmap", "crushmap")}
        files.update(
            {"report": self.tools.put("report", own["report"]), "pgs": self.tools.put("pgs", {"pg_stats": own["pgs"]})}
        )
        for words in (["df", "osdmap", "crushmap"], ["df", "report"], ["verify", "report", "--pgs", "pgs"]):
            with self.subTest(words=words):
                plain = [str(files.get(word, word)) for word in words]
                pipes = " ".join(f"<(cat {files[word]})" if word in files else word for word in words)
                tool = self.tools.words()
                command = f"{' '.join(tool[:3])} {pipes} {' '.join(tool[3:])}"
                done = subprocess.run(
                    ["bash", "-c", command], capture_output=True, text=True, timeout=SECONDS, check=False
                )
                self.assertEqual((done.returncode, done.stdout), self.tools.run(*plain)[:2], done.stderr)

    def test_next(self) -> None:
        """`next` takes a report in place of the dumps, before the plan."""
        own = RECORDS["live"]
        report, pgs = self.tools.put("report", own["report"]), self.tools.put("pgs", {"pg_stats": own["pgs"]})
        dumps = [self.tools.put(part, own["report"][part]) for part in ("osdmap", "crushmap")]
        plan = self.tools.put("plan.sh", self.output("plan", report, "--anyway"))
        wanted = self.tools.run("next", *dumps, plan, "--pgs", pgs)
        self.assertNotEqual(wanted[2], "")
        self.assertEqual(self.tools.run("next", report, plan, "--pgs", pgs), wanted)

    def test_what_it_lacks(self) -> None:
        """What no report tells is asked for by its command; a report that lacks a dump, or has none, is told so."""
        own = RECORDS["live"]["report"]
        path = self.tools.put("report", own)
        for words, told in (
            (
                ["plan", path, "--pgs", path],
                "which does not tell of groups one by one: give what `ceph pg dump -f json`",
            ),
            (["verify", path, "--pgs", path], "which does not tell of groups one by one: give what `ceph pg dump -f"),
            (["df", path, "--osds", path], "which does not tell of disks one by one: give what `ceph osd df -f json`"),
            (["df", path, "--tree", path], "which does not tell the reweights of OSDs that were removed: give what"),
            (["check", path], "this is what `ceph report` prints, with the OSD dump at .osdmap and the CRUSH dump at"),
        ):
            with self.subTest(words=words[:1]):
                self.is_told(self.tools.run(*words), 2, told, words)
        bare = {key: value for key, value in own.items() if key != "crushmap"}
        for value, told in (
            (bare, "report: no crushmap in it, which `ceph report` prints"),
            (dict(own, crushmap=[]), "report: crushmap: no object"),
        ):
            with self.subTest(told=told):
                self.is_told(self.tools.run("df", self.tools.put("report", value)), 2, told, told)
        torn = self.tools.put("report", dict(own, osdmap={**own["osdmap"], "epoch": "x"}))
        _, error = self.ran("df", torn, status=1)
        self.assertIn("report: osdmap: epoch: no whole number", error)
        self.assertEqual(self.tools.run("df", path, path)[0], 2)

    def test_packed(self) -> None:
        """Any file may be packed by gzip; one that is cut off or damaged is told, and nothing is put out."""
        own = RECORDS["pacific"]
        files = self.packed("osd.gz", own["osd_dump"]), self.packed("crush.gz", own["crush_dump"])
        plain = self.tools.put("osd", own["osd_dump"]), self.tools.put("crush", own["crush_dump"])
        self.assertEqual(self.output("df", *files), self.output("df", *plain))
        whole = files[0].read_bytes()
        for other in (whole[:-20], whole[:100], whole[:60] + b"\0\1\2\3" + whole[64:], b"\x1f\x8b"):
            files[0].write_bytes(other)
            self.is_told(self.tools.run("df", *files), 2, "a gzip file that is cut off or damaged", len(other))


class PoolBytes(ReportCase):
    """What pools hold, by a report and by `ceph df`."""

    def test_of_a_report(self) -> None:
        """By a report pools use the bytes that `ceph df` told of the same statistics of a live cluster, and a plan is
        the same."""
        own, live = RECORDS["bluestore"], LIVE["bluestore"]
        report = {"osdmap": live["osd_dump"], "crushmap": live["crush_dump"]}
        path = self.tools.put("report", {**report, **{key: own[key] for key in ("pool_stats", "osd_sum")}})
        df = self.tools.put("df", own["df"])
        by_report, by_df = (self.json("plan", path, "--df", file) for file in (path, df))
        self.assertEqual(by_report["moving"]["bytes"], by_df["moving"]["bytes"])
        self.assertEqual(by_report["commands"], by_df["commands"])

    def test_bytes_that_are_not_raw(self) -> None:
        """Where OSDs have no statistics by pool, `bytes_used` is refused by that reason; with --pgs the plan begins
        with what really lies on the disks, and by a report it is the same."""
        own = RECORDS["legacy"]
        files = self.tools.put("osd", own["osd_dump"]), self.tools.put("crush", own["crush_dump"])
        df, pgs = self.tools.put("df", own["df"]), self.tools.put("pgs", {"pg_stats": own["pgs"]})
        why = "0 of 12 OSDs have statistics by pool (num_per_pool_osds), so bytes_used is what is stored, and not what"
        for words in (["--df", df], ["--df", df, "--room"]):
            self.is_told(self.tools.run("plan", *files, *words), 1, why, words)
        report = self.tools.put("report", RECORDS["live"]["report"])
        self.is_told(self.tools.run("plan", report, "--df", report), 1, why.replace("12", "9"), "report")
        disks = self.tools.put("disks", own["osds"])
        told = self.json("plan", *files, "--df", df, "--pgs", pgs, "--osds", disks)
        full = told["cluster"]["before"]["bytes"]["fullest"]
        used: dict[int, int] = {disk["id"]: 1024 * disk["kb_used"] for disk in own["osds"]["nodes"]}
        self.assertEqual(max(used, key=lambda osd: used[osd]), full["id"])
        self.assertLess(abs(full["has"] / used[full["id"]] - 1), 0.01)
