"""Plans of reads: who leads the groups of stock clusters and of clusters of Ceph 18.2 (Reef), beside small cases of
which every way is tried, and where REEF names Reef's tools beside what a real monitor and `osdmaptool --read` make.
"""

from __future__ import annotations

import base64
import itertools
import math
import os
import random
import re
from collections import Counter
from collections.abc import Iterable, Mapping
from fractions import Fraction

from rekhuso.faults import Fault
from rekhuso.plans.leader_flow import LeaderChoice, even_leaders
from rekhuso.plans.printed_reads import PrintedReads
from rekhuso.plans.reads import plan_of_reads
from rekhuso.cluster.view import view_of
from rekhuso.cluster.sources import Source

from tests.cases import Case
from tests.clusters import STOCK, Json, commands, copied, kept
from tests.reef_tools import ReefMonitor, reef_tools
from tests.tool_cases import StockCase

REEF, MAPS = kept("reef.json.gz")["clusters"], kept("osdmaps.json.gz")["18.2.7"]
# Of stock clusters these, and with LONG set all small ones.
NAMES = ["001-three-hosts", "004-one-host", "011-drained", "018-hybrid", "025-many-pools"]
if os.environ.get("LONG"):
    NAMES += ["002-proxmox", "003-rook-rgw", "005-openstack-mixed", "006-class-rules-only", "007-cephfs-ec"]
    NAMES += ["009-racks", "012-arriving", "014-replaced", "016-by-utilization", "019-two-roots", "020-stretch"]
Groups = Mapping[str, "tuple[int, ...]"]

# Groups by their pool, each with its OSDs, the leader first; and how many of them change at least. In each case all
# OSDs may lead all of their groups, and by hand a choice is found within all bounds.
ROWS: dict[str, tuple[dict[str, tuple[int, ...]], int]] = {
    "even already": ({"1.0": (0, 1), "1.1": (1, 0)}, 0),
    "one OSD leads all three": ({"1.0": (0, 1, 2), "1.1": (0, 1, 2), "1.2": (0, 1, 2)}, 2),
    "one group": ({"1.0": (0, 1, 2)}, 0),
    # osd.0 and osd.2 have no group in common: osd.1 hands one on.
    "a way over a third": ({"1.0": (0, 1), "1.1": (0, 1), "1.2": (0, 1), "1.3": (1, 2), "1.4": (1, 2)}, 2),
    # Each share is 3/2 in both pools, and 3 over both.
    "rounded in one pool up, in the other down": (
        {f"{pool}.{at}": (0, 1) if at else (1, 0) for pool in (1, 2) for at in range(3)},
        1,
    ),
}


def shares_of(groups: Groups) -> dict[int, dict[int, Fraction]]:
    """What each OSD is to lead of each pool, where each may lead all of its groups."""
    found: dict[int, dict[int, Fraction]] = {}
    for group, osds in groups.items():
        own = found.setdefault(int(group.split(".")[0]), {})
        for osd in osds:
            own[osd] = own.get(osd, Fraction(0)) + Fraction(1, len(osds))
    return found


def beyond(count: int, share: Fraction) -> int:
    """How far a count is from the whole numbers beside a share."""
    return max(math.floor(share) - count, count - math.ceil(share), 0)


def cost(groups: Groups, leaders: Mapping[str, int]) -> tuple[int, int, int]:
    """How many leads lie beyond bounds of pools, beyond those over all pools, and how many groups have changed."""
    shares, of_pool, of_all = shares_of(groups), Counter[tuple[int, int]](), Counter(leaders.values())
    of_pool.update((int(group.split(".")[0]), osd) for group, osd in leaders.items())
    sums: dict[int, Fraction] = {}
    for own in shares.values():
        for osd, share in own.items():
            sums[osd] = sums.get(osd, Fraction(0)) + share
    return (
        sum(beyond(of_pool[pool, osd], share) for pool, own in shares.items() for osd, share in own.items()),
        sum(beyond(of_all[osd], share) for osd, share in sums.items()),
        sum(leaders[group] != osds[0] for group, osds in groups.items()),
    )


def planned(groups: Groups, barred: Mapping[str, Iterable[int]]) -> dict[str, int]:
    """The leaders that are planned, where some OSDs may not lead some groups."""
    choices = {
        group: LeaderChoice(
            int(group.split(".")[0]), osds[0], tuple(osd for osd in osds[1:] if osd not in barred.get(group, ()))
        )
        for group, osds in groups.items()
    }
    return even_leaders(choices, shares_of(groups))


class LeaderFlow(Case):
    """The flow alone."""

    def test_rows(self) -> None:
        """Leads are within all bounds, at as few changes as by hand."""
        for name, (groups, changes) in ROWS.items():
            with self.subTest(name=name):
                self.assertEqual(cost(groups, planned(groups, {})), (0, 0, changes))

    def test_all_ways(self) -> None:
        """Over small random cases in two pools, also where some OSDs may not lead, no choice of leaders is better."""
        chance = random.Random(1)
        for _ in range(150):
            groups: dict[str, tuple[int, ...]] = {
                f"{pool}.{at}": tuple(chance.sample(range(4), chance.choice((2, 3))))
                for pool in (1, 2)
                for at in range(chance.randrange(1, 5))
            }
            barred = {group: [osd for osd in osds[1:] if chance.random() < 0.2] for group, osds in groups.items()}
            ways = [[osd for osd in osds if osd not in barred[group]] for group, osds in groups.items()]
            best = min(cost(groups, dict(zip(groups, way))) for way in itertools.product(*ways))
            with self.subTest(groups=groups, barred=barred):
                self.assertEqual(cost(groups, planned(groups, barred)), best)


class ReadsCase(StockCase):
    """Tests of plans of reads."""

    def cluster(self, name: str) -> Json:
        """A cluster by its name, all of whose clients know named primaries."""
        own = copied(REEF.get(name) or STOCK[name])
        own["osd_dump"].update(require_osd_release="reef", require_min_compat_client="reef")
        return own

    def read(self, name: str, own: Json, *words: object) -> Json:
        """The plan of reads of a cluster as JSON."""
        return self.json("plan", "--reads", *self.dumps(name, own), "--anyway", *words)

    def replicated(self, own: Json) -> set[str]:
        """The pools of a cluster in which primaries are named."""
        return {str(pool["pool"]) for pool in own["osd_dump"]["pools"] if pool["type"] == 1}

    def is_even(self, own: Json, told: Json, name: str) -> None:
        """Asks that each OSD leads the floor or the ceiling of its share of each pool that is planned, and of all."""
        sets = {group: [osd for osd in up[0] if osd is not None] for group, up in own["up"].items()}
        leaders = led_after({group: up[1] for group, up in own["up"].items()}, sets, told["commands"])
        pools = {str(pool["id"]) for pool in told["pools"]}
        groups = {
            group: (own["up"][group][1], *(osd for osd in osds if osd != own["up"][group][1]))
            for group, osds in sets.items()
            if group.split(".")[0] in pools and osds
        }
        found = cost(groups, {group: leaders[group] for group in groups})
        self.assertEqual(found, (0, 0, len(told["commands"])), name)


def led_after(leaders: Mapping[str, int], sets: Mapping[str, list[int]], lines: Iterable[str]) -> dict[str, int]:
    """Who leads each group once commands are given, where nothing named primaries before and all affinities are 1."""
    found = dict(leaders)
    for line in lines:
        _, _, word, group, *osds = line.split(" ")
        found[group] = int(osds[0]) if word == "pg-upmap-primary" else sets[group][0]
    return found


def with_entries(own: Json, lines: Iterable[str]) -> Json:
    """A cluster once commands on named primaries are given."""
    entries = {entry["pgid"]: entry["primary_osd"] for entry in own["osd_dump"].get("pg_upmap_primaries", [])}
    for line in lines:
        _, _, word, group, *osds = line.split(" ")
        if word == "pg-upmap-primary":
            entries[group] = int(osds[0])
        else:
            entries.pop(group, None)
    found = copied(own)
    found["osd_dump"]["pg_upmap_primaries"] = [{"pgid": group, "primary_osd": osd} for group, osd in entries.items()]
    return found


class Reads(ReadsCase):
    """What `plan --reads` makes of clusters."""

    def test_even(self) -> None:
        """Over Ceph's own sets every OSD then leads its share in every pool and over all, and a second plan is empty;
        pools of erasure code, and those led by fast disks on purpose, are left."""
        for name in NAMES:
            with self.subTest(name=name):
                own = self.cluster(name)
                told = self.read(name, own)
                left = {str(pool["id"]) for pool in told["left_alone"]}
                mixed = {"2"} if name == "018-hybrid" else set()
                self.assertEqual({str(pool["id"]) for pool in told["pools"]}, self.replicated(own) - mixed)
                every = {str(pool["pool"]) for pool in own["osd_dump"]["pools"]}
                self.assertEqual(left, every - self.replicated(own) | mixed)
                self.is_even(own, told, name)
                again = self.read(name, with_entries(own, told["commands"]))
                self.assertEqual((again["commands"], again["state"]), ([], "nothing to do"))
                self.assertEqual(again["cluster"]["before"], told["cluster"]["after"])

    def test_affinity(self) -> None:
        """An OSD of affinity 0 leads nothing; one of less than 1 leads less, and the leaders of groups that no command
        names stay those of Ceph."""
        own = self.cluster("affinity")
        told = self.read("affinity", own)
        none = {osd["osd"] for osd in own["osd_dump"]["osds"] if osd["primary_affinity"] == 0}
        leads = {osd["id"]: (osd["before"], osd["after"], osd["share"]) for osd in told["osds"]}
        self.assertTrue(none)
        for osd in none & leads.keys():
            self.assertEqual(leads[osd], (0, 0, 0))
        self.assertGreater(told["cluster"]["before"]["farthest"], 3)
        self.assertLess(told["cluster"]["after"]["farthest"], 1)
        for pool in told["pools"]:
            self.assertLess(pool["after"]["farthest"], 1)

    def hurt(self) -> Json:
        """A cluster in which entries have six OSDs lead all that they may."""
        own = self.cluster("plain")
        lines = [
            f"ceph osd pg-upmap-primary {group} {min(osds)}"
            for group, (osds, primary) in own["up"].items()
            if min(osds) < 6 and min(osds) != primary
        ]
        return with_entries(own, lines)

    def test_entries_that_hurt(self) -> None:
        """Entries by which few OSDs lead all are taken away: none names an OSD any more where it leads without."""
        own = self.hurt()
        told = self.read("plain", own)
        gone = [line for line in told["commands"] if " rm-pg-upmap-primary " in line]
        self.assertGreater(len(gone), 5)
        named = {entry["pgid"] for entry in own["osd_dump"]["pg_upmap_primaries"]}
        self.assertLessEqual({line.split(" ")[3] for line in gone}, named)
        self.assertLess(max(pool["after"]["farthest"] for pool in told["pools"]), 1)
        self.assertGreater(told["cluster"]["before"]["farthest"], 5)
        for line in (line for line in told["commands"] if " pg-upmap-primary " in line):
            _, _, _, group, osd = line.split(" ")
            self.assertNotEqual(own["up"][group][1], int(osd), line)

    def test_undo(self) -> None:
        """The way back gives each group the entry that it had, or none, also where the plan was not given."""
        own = self.hurt()
        told = self.read("plain", own)
        entries = sorted((entry["pgid"], entry["primary_osd"]) for entry in own["osd_dump"]["pg_upmap_primaries"])
        for lines in (told["commands"] + told["undo"], told["undo"]):
            found = with_entries(own, lines)["osd_dump"]["pg_upmap_primaries"]
            self.assertEqual(sorted((entry["pgid"], entry["primary_osd"]) for entry in found), entries)
        output = self.output("plan", "--reads", *self.dumps("plain", own), "--undo")
        self.assertEqual(commands(output), told["undo"])
        self.assertIn("\n# rekhuso: undo of a plan of reads, ", output)

    def test_some_pools(self) -> None:
        """--of-pool plans the pools that it names, also one that fast disks lead on purpose."""
        own = self.cluster("018-hybrid")
        told = self.read("018-hybrid", own, "--of-pool", "2")
        self.assertEqual([pool["id"] for pool in told["pools"]], [2])
        self.assertTrue(told["commands"])
        self.is_even(own, told, "018-hybrid")
        own = self.cluster("002-proxmox")
        told = self.read("002-proxmox", own, "--of-pool", "2,3")
        self.assertEqual({line.split(" ")[3].split(".")[0] for line in told["commands"]}, {"2", "3"})
        self.is_even(own, told, "002-proxmox")

    def test_temporary(self) -> None:
        """Groups that temporary sets and primaries serve keep their leaders, as a monitor judges by these."""
        own = self.cluster("temps")
        dump = own["osd_dump"]
        served = {entry["pgid"] for entry in dump["pg_temp"]} | set(dump["primary_temp"][::2])
        told = self.read("temps", own)
        self.assertTrue(served)
        self.assertEqual(told["temporary"], len(served))
        self.assertFalse(served & {line.split(" ")[3] for line in told["commands"]})

    def test_script(self) -> None:
        """A script tells what it is, asks whether the cluster and its clients are as in the dumps, and stops where a
        command is refused; without guards it asks nothing. Its commands are those that JSON has."""
        own = self.cluster("plain")
        files = self.dumps("plain", own)
        output, error = self.ran("plan", "--reads", *files)
        lines = output.splitlines()
        told = self.json("plan", "--reads", *files)
        self.assertEqual(commands(output), told["commands"])
        self.assertRegex(lines[1], rf"^# rekhuso: plan of reads, {len(told['commands'])} commands, part 1 of 1; epoch ")
        self.assertRegex(lines[-1], "^# rekhuso: end, sha256 [0-9a-f]{64}$")
        at = lines.index("set -e")
        self.assertTrue(any(line.startswith("has '^require_min_compat_client [r-z]'") for line in lines[at:]))
        self.assertNotIn(
            "set-require-min-compat-client", "".join(line for line in lines if line.startswith("# before"))
        )
        self.assertStarts(error, f"{len(told['commands'])} commands; an OSD leads ")
        bare = self.output("plan", "--reads", *files, "--no-guard")
        self.assertFalse([line for line in bare.splitlines() if line.startswith("has ")])
        self.assertEqual(self.output("plan", "--reads", *files, "--status"), "planned\n")
        path = self.tools.folder / "reads.sh"
        self.assertEqual(self.output("plan", "--reads", *files, "--to", path), "")
        self.assertEqual(path.read_text(), output)
        found = self.tools.run("next", *files, path, "--pgs", path)
        self.is_told(found, 1, "a plan of reads, by which no data moves: it is run whole, as it is", "next")

    def test_older(self) -> None:
        """A cluster of before Reef is refused by the name of its release; one whose clients need not know named
        primaries is told the command that it needs, and planned with --anyway."""
        own = self.cluster("plain")
        own["osd_dump"]["require_osd_release"] = "quincy"
        found = self.tools.run("plan", "--reads", *self.dumps("older", own), "--anyway")
        self.is_told(
            found, 1, "the cluster is of quincy (require_osd_release), and primaries are named from reef on", ""
        )
        needed = "ceph osd set-require-min-compat-client reef"
        for release, what in (("luminous", "clients may be of luminous"), (None, "what clients must know is not told")):
            own["osd_dump"].update(require_osd_release="reef", require_min_compat_client=release)
            files = self.dumps("clients", own)
            found = self.tools.run("plan", "--reads", *files)
            self.is_told(found, 1, f"{what} (require_min_compat_client), and must know named primaries: {needed}", "")
            output = self.output("plan", "--reads", *files, "--anyway")
            self.assertIn(f"\n# before: {needed} (clients must know named primaries; ", output)
            told = self.json("plan", "--reads", *files, "--anyway")
            self.assertEqual(told["min_compat_client"], {"now": release, "needed": "reef"})

    def test_words(self) -> None:
        """Words that say what moves do not go with --reads, nor does a map."""
        files = self.dumps("plain", self.cluster("plain"))
        for words in (
            ["--first", "3"],
            ["--alone"],
            ["--df", "x"],
            ["--batch", "3", "--to", "x"],
            ["--deviation", "1"],
        ):
            with self.subTest(words=words):
                found = self.tools.run("plan", "--reads", *files, *words)
                self.is_told(found, 2, f"{words[0]} says what moves, and by --reads nothing does", words)
        _, path = self.brought("001-three-hosts")
        self.is_told(self.tools.run("plan", "--reads", path), 2, "a map knows no named primaries", "map")

    def test_outage(self) -> None:
        """Amid an outage nothing is planned unless it is asked for; then no OSD that is down is named."""
        own = self.cluster("010-outage")
        files = self.dumps("010-outage", own)
        self.is_told(self.tools.run("plan", "--reads", *files), 11, "no plan is made: --anyway makes one", "outage")
        down = {osd["osd"] for osd in own["osd_dump"]["osds"] if not osd["up"]}
        told = self.read("010-outage", own)
        self.assertTrue(down and told["commands"])
        self.assertFalse(down & {int(line.split(" ")[4]) for line in told["commands"] if " pg-upmap" in line})


class Judged(ReadsCase):
    """Commands as printed, with faults planted in them."""

    def test_faults(self) -> None:
        """What a monitor would refuse, or what leads elsewhere than is told, is named, and nothing is put out."""
        own = self.cluster("plain")
        files = self.dumps("plain", own)
        view = view_of(Source((str(files[0]), str(files[1])), None, self.program, None, None, False))
        found, leaders = plan_of_reads(view, (), False, self.program)
        printed = PrintedReads(view, leaders, self.program)
        wanted = {group: osd for pool in found.pools for group, osd in pool.after.items()}
        text, undo = "\n".join(found.commands), "\n".join(found.undo)
        printed.check(text, undo, wanted)
        group, osd = "2.0", own["up"]["2.0"][1]
        elsewhere = next(at for at in range(24) if at not in own["up"]["2.0"][0])
        first, *rest = found.commands
        others = {
            "leads it already": (f"ceph osd pg-upmap-primary {group} {osd}", undo, wanted),
            "does not stand in its up set": (f"ceph osd pg-upmap-primary {group} {elsewhere}", undo, wanted),
            "there is no such group": ("ceph osd pg-upmap-primary 2.40 1", undo, wanted),
            "no command that names a primary": (f"ceph osd pg-upmap {group} 1 2 3", undo, wanted),
            "would be led by": ("\n".join(rest), undo, wanted),
        }
        for why, (lines, back, goal) in others.items():
            with self.subTest(why=why):
                self.assertRaisesRegex(Fault, why, printed.check, lines, back, goal)
        kept_back = "\n".join(line for line in found.undo if line.split(" ")[3] != first.split(" ")[3])
        self.assertRaisesRegex(Fault, "would be led by", printed.check, text, kept_back, wanted)


class ByReef(ReadsCase):
    """Plans of reads given to a monitor of Reef, and beside its own, which runs where REEF names its tools."""

    def monitor(self, name: str) -> ReefMonitor:
        """A monitor over a cluster."""
        tools = reef_tools()
        self.needs("Ceph 18.2 (REEF names a folder with its tools in bin)", tools is not None)
        assert tools is not None
        return ReefMonitor(tools, base64.b64decode(REEF[name].get("osdmap") or MAPS[name]))

    def test_given(self) -> None:
        """Reef takes each command, no set has other OSDs, and each group has the leader that is told; the way back
        brings all as it was."""
        for name in ("plain", "read_primaries", "affinity", "stretch"):
            with self.subTest(name=name), self.monitor(name) as monitor:
                needed = "ceph osd set-require-min-compat-client reef --yes-i-really-mean-it"
                self.assertEqual(monitor.refused([needed]), [])
                before, told = monitor.sets(), self.read(name, self.cluster(name))
                self.assertTrue(told["commands"])
                self.assertEqual(monitor.refused(told["commands"]), [])
                after = monitor.sets()
                self.assertEqual({group for group in before if set(before[group][0]) != set(after[group][0])}, set())
                leads = Counter(up[1] for group, up in after.items() if group.split(".")[0] in self.planned(told))
                self.assertEqual(
                    {osd["id"]: osd["after"] for osd in told["osds"]},
                    {osd["id"]: leads[osd["id"]] for osd in told["osds"]},
                )
                changed = {group for group in before if before[group][1] != after[group][1]}
                self.assertEqual(changed, {line.split(" ")[3] for line in told["commands"]})
                self.assertEqual(monitor.refused(told["undo"]), [])
                self.assertEqual(monitor.sets(), before)

    def planned(self, told: Json) -> set[str]:
        """The pools of a plan."""
        return {str(pool["id"]) for pool in told["pools"]}

    def test_beside_osdmaptool(self) -> None:
        """In no pool where `osdmaptool --read` brings every OSD within one of its share does the plan of the pool have
        more commands."""
        compared = 0
        for name in sorted(name for name in REEF if REEF[name].get("osdmap") or name in MAPS):
            with self.monitor(name) as monitor:
                own = self.cluster(name)
                for pool in own["osd_dump"]["pools"]:
                    if pool["type"] != 1 or pool["pg_num"] < 2:
                        continue
                    with self.subTest(name=name, pool=pool["pool_name"]):
                        theirs = self.by_osdmaptool(monitor, pool["pool_name"])
                        told = self.read(name, own, "--of-pool", str(pool["pool"]))
                        if self.are_within_one(own, pool["pool"], theirs):
                            compared += 1
                            self.assertLessEqual(len(told["commands"]), len(theirs))
        self.assertGreater(compared, 1)

    def by_osdmaptool(self, monitor: ReefMonitor, pool: str) -> list[str]:
        """The commands of `osdmaptool --read` for a pool."""
        out = monitor.folder / "read"
        out.write_text("")
        monitor.run("osdmaptool", monitor.map_file(), "--read", out, "--read-pool", pool)
        return [line for line in out.read_text().splitlines() if re.match("ceph osd (rm-)?pg-upmap-primary ", line)]

    def are_within_one(self, own: Json, pool: int, lines: list[str]) -> bool:
        """Whether by commands each OSD leads a pool within less than one of its share."""
        ups = {group: up for group, up in own["up"].items() if group.startswith(f"{pool}.")}
        leaders = led_after(
            {group: up[1] for group, up in ups.items()}, {group: up[0] for group, up in ups.items()}, lines
        )
        groups = {group: tuple(up[0]) for group, up in ups.items()}
        return cost(groups, leaders)[0] == 0
