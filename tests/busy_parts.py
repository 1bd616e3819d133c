"""Parts of plans, releases and drains in which no OSD and no host takes part in more moves than it may: as the one from
which a group is read, and as each to which a place comes. What a part moves is the program's answer."""

from __future__ import annotations

import json
import pathlib
from collections import Counter
from collections.abc import Iterator

from tests.ceph_monitor import WORST
from tests.clusters import STOCK, Json, raised, with_commands
from tests.drains import BUILT, come_in, reweighted, weights_of
from tests.holds import sets_of
from tests.tool_cases import StockCase


class BusyParts(StockCase):
    """Commands with --osd-most and --host-most."""

    def files(self, own: Json) -> tuple[pathlib.Path, pathlib.Path]:
        """The dumps of a cluster."""
        return self.tools.put("o", own["osd_dump"]), self.tools.put("c", own["crush_dump"])

    def value(self, own: Json, crush: Json) -> Json:
        """The one map of a cluster, with all OSDs up."""
        files = self.tools.put("dump", own["osd_dump"]), self.tools.put("crush", crush)
        return raised(json.loads(self.output("import", *files)))

    def busiest(self, own: Json, value: Json, parts: list[list[str]]) -> Iterator[tuple[int, int, int]]:
        """Of each part in how many moves an OSD takes part at most, and a host, and how many places come."""
        hosts = {
            item["id"]: bucket["id"]
            for bucket in own["crush_dump"]["buckets"]
            for item in bucket["items"]
            if item["id"] >= 0 and "~" not in bucket["name"]
        }
        was = sets_of(super().sets(value))
        for lines in parts:
            value = with_commands(value, lines)
            now = sets_of(super().sets(value))
            come: dict[str, set[int]] = {}
            for group, osd in come_in(own, was, now):
                come.setdefault(group, set()).add(osd)
            osds: Counter[int] = Counter()
            of_hosts: Counter[int] = Counter()
            for group, own_osds in come.items():
                first = next(osd for osd in was[group] if osd is not None)
                osds.update(own_osds | {first})
                of_hosts.update({hosts[osd] for osd in own_osds | {first}})
            yield max(osds.values(), default=0), max(of_hosts.values(), default=0), sum(map(len, come.values()))
            was = now

    def test_plans(self) -> None:
        """Parts of a plan: with a limit there are more of them, and all together are the same commands."""
        own = STOCK[BUILT]
        files, value = self.files(own), self.value(own, own["crush_dump"])
        whole = self.json("plan", *files)["commands"]
        for words, most in ((["--osd-most", 2], (2, 99)), (["--host-most", 3], (99, 3))):
            paths = self.output("plan", *files, "--batch", 50, *words, "--to", f"parts{most[0]}").splitlines()
            texts = [pathlib.Path(self.tools.folder, path).read_text() for path in paths]
            parts = [[line for line in text.splitlines() if line.startswith("ceph ")] for text in texts]
            self.assertGreater(len(parts), 1)
            self.assertEqual(sorted(line for part in parts for line in part), sorted(whole))
            for osds, hosts, _ in self.busiest(own, value, parts):
                self.assertTrue(osds <= most[0] and hosts <= most[1], (osds, hosts))

    def test_releases(self) -> None:
        """Parts of a release."""
        own = WORST["four_hosts"]
        files, value = self.files(own), self.value(own, own["crush_dump"])
        free = self.json("release", *files, "--batch", 20)
        bound = self.json("release", *files, "--batch", 20, "--osd-most", 2)
        self.assertEqual(free["moving"], bound["moving"])
        parts = [[part["commands"] for part in told["parts"]] for told in (free, bound)]
        most = [[osds for osds, _, _ in self.busiest(own, value, lines)] for lines in parts]
        self.assertGreater(max(most[0]), 2)
        self.assertLessEqual(max(most[1]), 2)

    def test_drains(self) -> None:
        """Parts of a drain, also where the number of commands has no limit."""
        own = STOCK[BUILT]
        for words, most in ((["--batch", 20, "--osd-most", 2], 2), (["--osd-most", 4], 4)):
            told = self.json("drain", *self.files(own), "osd.7", *words)
            value = self.value(own, reweighted(own["crush_dump"], weights_of(told["begin"]["change"])))
            value = with_commands(value, told["begin"]["commands"])
            found = list(self.busiest(own, value, [part["commands"] for part in told["parts"]]))
            self.assertGreater(len(found), 2)
            self.assertLessEqual(max(osds for osds, _, _ in found), most)
            self.assertEqual(sum(places for _, _, places in found), told["places"])

    def test_use(self) -> None:
        """Without parts there is nothing to limit; a number of moves is one from 1 on."""
        files = self.dumps(BUILT)
        for words, told in (
            (["plan", *files, "--osd-most", 2], "--osd-most is a limit of parts, and goes with --batch"),
            (["release", *files, "--host-most", 2], "--host-most is a limit of parts, and goes with --batch"),
            (["drain", *files, "osd.7", "--osd-most", 2], "--osd-most is a limit of parts, and goes with --to"),
            (["plan", *files, "--osd-most", 0], "argument --osd-most: 0: no number of moves from 1 on"),
            (["plan", *files, "--host-most", "x"], "argument --host-most: x: no number of moves from 1 on"),
        ):
            self.is_told(self.tools.run(*words), 2, told, words)
