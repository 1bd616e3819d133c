"""The tools over clusters as operators have them at their worst, beside what a real monitor made of commands.

The monitor (Ceph 16.2.15) was given exceptions and commands over clusters that it had made itself; operators.json.gz
has its dumps, of which keys that nobody reads here were left out, and for each record the exceptions that it then took
away and the up sets that it then had.
"""

from __future__ import annotations

import collections
import json
import pathlib
from collections.abc import Iterable
from typing import Any

from rekhuso.cluster.affinity import all_with_affinity
from rekhuso.cluster.view import view_of
from rekhuso.command_line import parser
from rekhuso.commands.whatif import commands_of, options_of
from rekhuso.plans.question import Question, sets_of_maps

from tests.clusters import STOCK, Json, ceph_set, commands, copied, kept
from tests.runs import zipped
from tests.tool_cases import StockCase

DATA = kept("operators.json.gz")
WORST, RECORDS = DATA["clusters"], DATA["records"]
# What advice moves, as the monitor then had it.
MOVED = {"by_pool_weights": "which moves data: 15 of 192 places of"}


def with_given(record: Json) -> Json:
    """The OSD dump of a record's cluster with the exceptions that the monitor was given."""
    dump = copied(WORST[record["cluster"]]["osd_dump"])
    for key, name in (("pg_upmap", "osds"), ("pg_upmap_items", "mappings")):
        for group, own in record["given"][key]:
            value = own if key == "pg_upmap" else [{"from": pair[0], "to": pair[1]} for pair in own]
            dump[key] = [entry for entry in dump[key] if entry["pgid"] != group] + [{"pgid": group, name: value}]
    return dump


def moved(name: str, was: Json, now: Json) -> tuple[int, int]:
    """How many groups and places of a cluster move between two times: in an erasure pool each place has data of its
    own, and in a replicated one all have the same."""
    erasure = {str(pool["pool"]) for pool in WORST[name]["osd_dump"]["pools"] if pool["type"] == 3}
    groups = places = 0
    for group in was:
        old, new = was[group][0], now[group][0]
        if group.split(".")[0] in erasure:
            groups += old != new
            places += sum(osd is not None and osd != before for before, osd in zipped(old, new))
        else:
            groups += set(old) != set(new)
            places += len(set(new) - set(old) - {None})
    return groups, places


class CephMonitor(StockCase):
    """What the tools say beside what the monitor did."""

    def files(self, name: str, dump: Json | None = None) -> tuple[pathlib.Path, pathlib.Path]:
        """The two dumps of a cluster as files, the first as it is or as it was changed to."""
        own = WORST[name]
        return self.tools.put(f"{name}-osd", dump or own["osd_dump"]), self.tools.put(
            f"{name}-crush", own["crush_dump"]
        )

    def answered_after(self, files: Iterable[pathlib.Path], words: Iterable[str]) -> tuple[Any, Json, Json]:
        """The up sets before and after commands, as `whatif` finds them."""
        given = ["whatif", *map(str, files), *words, "--program", str(self.tools.program)]
        options = options_of(parser().parse_args(given))
        question = Question(view_of(options.source), options.source.program)
        found, now = question.result(commands_of(options, question))
        after = all_with_affinity(now.pools, sets_of_maps(now.maps, self.tools.program), question.affinities)
        before, now_up = (
            {group: [up.places, -1 if up.primary is None else up.primary] for group, up in sets.items()}
            for sets in (question.before, after)
        )
        return found, before, now_up

    def are_told(self, record: Json, told: Json) -> None:
        """Asks that the exceptions that the monitor took away, whole or in part, are told."""
        self.assertEqual(sorted(told["gone"]), record["gone"])
        fewer = sorted(group for key in record["other"] for group, _ in record["other"][key])
        self.assertEqual(sorted(told["fewer"]), fewer, (record["name"], record["cluster"], told["fewer"], fewer))

    def test_up_sets(self) -> None:
        """Every up set and primary of such a cluster is Ceph's, also where OSDs have a primary affinity."""
        for name, own in WORST.items():
            with self.subTest(name=name):
                _, before, _ = self.answered_after(self.files(name), ["{}"])
                self.assertEqual(
                    before, own["up"], (name, [group for group in before if before[group] != own["up"].get(group)][:3])
                )

    def test_exceptions_that_go(self) -> None:
        """Exceptions that a monitor is given and takes away, whole or in part, are those that `whatif` tells at any
        change."""
        self.assertGreater(len({record["name"] for record in RECORDS}), 20)
        for record in (record for record in RECORDS if record["words"] == ["{}"]):
            files = self.files(record["cluster"], with_given(record))
            self.are_told(record, self.json("whatif", *files, *record["words"])["exceptions"])

    def test_commands(self) -> None:
        """The up sets and primaries after commands, and the exceptions that go, are those of the monitor, and so is
        what moves where nothing was given before."""
        for record in (record for record in RECORDS if record["words"] != ["{}"]):
            files, was = self.files(record["cluster"], with_given(record)), WORST[record["cluster"]]["up"]
            found, _, after = self.answered_after(files, record["words"])
            self.are_told(record, found["exceptions"])
            wanted = {**was, **record["up"]}
            unlike = [(group, wanted[group], after.get(group)) for group in wanted if after.get(group) != wanted[group]]
            self.assertFalse(unlike, (record["name"], record["cluster"], len(unlike), unlike[:3]))
            self.assertEqual(after.keys(), wanted.keys(), (record["name"], record["cluster"], len(unlike), unlike[:3]))
            if not record["given"]["pg_upmap"] and not record["given"]["pg_upmap_items"]:
                groups, places = moved(record["cluster"], was, wanted)
                self.assertEqual(
                    (found["groups"], found["places"]), (groups, places), (record["name"], found["groups"], groups)
                )
                counts = collections.Counter(osd for places, _ in wanted.values() for osd in set(places) - {None})
                fullest = found["fullest_by_count"]
                self.assertEqual(
                    (counts[fullest["osd"]], fullest["groups"]), (max(counts.values()),) * 2, (record["name"], fullest)
                )

    def test_plans_that_stay(self) -> None:
        """A pool whose rule has a plain choose step behind another has no plan, by the step that takes every exception
        away; others keep theirs."""
        cases: list[tuple[str, set[int], set[int]]] = [("d_fourlevels", {2, 3, 4}, set()), ("b_lrc", {2}, {4})]
        for name, barred, free in cases:
            with self.subTest(name=name):
                output, error = self.ran("plan", *self.files(name))
                told = self.json("plan", *self.files(name))
                refused = {pool["id"]: pool["refused"] for pool in told["pools"] if pool["refused"]}
                self.assertLessEqual(barred, refused.keys(), (name, refused))
                self.assertFalse(free & refused.keys(), (name, refused))
                self.assertTrue(all("step choose " in refused[pool] for pool in barred), refused)
                groups = {line.split(" ")[3].split(".")[0] for line in commands(output)}
                self.assertFalse(groups & set(map(str, barred)), (name, groups))
                self.assertLessEqual(set(map(str, free)), groups, (name, groups))
                named = {pool["id"]: pool["name"] for pool in told["pools"]}
                self.assertIn(
                    f"{named[min(barred)]}: no plan: Ceph's monitor takes every exception of this pool away again, "
                    "by step",
                    error,
                )

    def test_outage(self) -> None:
        """Amid an outage a plan is made only where it is asked for nonetheless; `whatif` tells of it before anything
        else."""
        own = copied(WORST["racks"]["osd_dump"])
        for osd in own["osds"]:
            osd["up"] = int(osd["osd"] not in (5, 6))
        files = self.files("racks", own)
        short = sum(bool({5, 6} & set(places)) for places, _ in WORST["racks"]["up"].values())
        line = f"an outage: 2 OSDs are down and {short} groups are short"
        line += ", so Ceph's balancer would wait until they are whole"
        output, error = self.ran("plan", *files, status=11)
        self.assertEqual(output, "", error)
        self.assertEqual(error, f"{line}; no plan is made: --anyway makes one\n")
        output, error = self.ran("plan", *files, "--anyway")
        self.assertTrue(commands(output), error)
        self.assertEqual(error.splitlines()[0], line)
        output, _ = self.ran("whatif", *files, "--out", "osd.5")
        self.assertEqual(output.splitlines()[0], line)
        self.assertEqual(output.splitlines()[1].split(" ")[1], "groups")
        told = self.json("whatif", *files, "--out", "osd.5")
        self.assertEqual(told["outage"], {"down": [5, 6], "short": short})
        self.assertIsNone(self.json("whatif", *self.files("racks"), "--out", "osd.5")["outage"])
        self.ran("plan", *self.files("racks"))

    def test_what_becomes_short(self) -> None:
        """Groups that were short before are told apart from those that become short, and those that fall below their
        pool's min_size."""
        own = copied(WORST["racks"]["osd_dump"])
        for osd in own["osds"]:
            osd["up"] = int(osd["osd"] != 5)
        sets = {group: set(places) - {None} for group, (places, _) in WORST["racks"]["up"].items()}
        pools = {pool["pool"]: pool for pool in own["pools"]}
        for down in ((6, 7), (20, 40, 60)):
            with self.subTest(down=down):
                words = [word for osd in down for word in ("--down", f"osd.{osd}")]
                told = self.json("whatif", *self.files("racks", own), *words)
                left = {group: len(osds - {5, *down}) for group, osds in sets.items()}
                was = {group: len(osds - {5}) for group, osds in sets.items()}
                size = {group: pools[int(group.split(".")[0])]["size"] for group in sets}
                least = {group: pools[int(group.split(".")[0])]["min_size"] for group in sets}
                self.assertEqual(set(told["short"]), {group for group in sets if left[group] < size[group]})
                self.assertEqual(
                    set(told["short_anew"]), {group for group in sets if left[group] < size[group] <= was[group]}
                )
                self.assertNotEqual(
                    {group for group in sets if left[group] < size[group] <= was[group]}, set(told["short"])
                )
                self.assertEqual(
                    set(told["below_min_size"]), {group for group in sets if left[group] < least[group] <= was[group]}
                )

    def test_coming_up(self) -> None:
        """OSDs that were down come back by `--up`: a place comes to them of each set of the monitor in which they
        stand, and no group is short any more."""
        own = copied(WORST["racks"]["osd_dump"])
        for osd in own["osds"]:
            osd["up"] = int(osd["osd"] not in (5, 6))
        back = [len({5, 6} & {*places}) for places, _ in WORST["racks"]["up"].values()]
        for words in (["--up", "5", "6"], ["--up", "osd.5", "--up", "6", "--up", "7"]):
            told = self.json("whatif", *self.files("racks", own), *words)
            self.assertEqual((told["groups"], told["places"]), (len([one for one in back if one]), sum(back)))
            self.assertEqual(told["short"], [])

    def test_coming_in(self) -> None:
        """An OSD that went out with a reweight has it again where it comes in, as Ceph keeps it; one that is in stays
        as it is."""
        own = copied(WORST["racks"]["osd_dump"])
        own["osds"][3]["weight"], own["osds"][9]["weight"] = 0, 0.5
        own["osd_xinfo"] = [{"osd": 3, "old_weight": 32768, "features": 1}]
        files = self.files("racks", own)
        by_in, by_weight = (
            self.json("whatif", *files, *words)
            for words in (["--in", "osd.3", "--in", "osd.9"], ["--reweight", "osd.3", "0.5"])
        )
        self.assertEqual(by_in, by_weight)
        self.assertGreater(by_in["groups"], 0)

    def test_hosts(self) -> None:
        """A host that comes needs a class where the cluster has several, a name of its own, and a bucket above hosts; a
        map alone guesses its id. A class that the cluster does not have is told."""
        files = self.files("tiers")
        for words, told in (
            (["--add-host", "new", "1"], "new: of which device class? --class one of hdd, ssd"),
            (["--add-host", "default", "1", "--class", "ssd"], "default: a bucket of that name is there"),
            (
                ["--add-host", "new", "1", "--class", "ssd", "--under", "nobody"],
                "new: below which bucket? --under one of ",
            ),
        ):
            with self.subTest(words=words):
                _, error = self.ran("whatif", *files, *words, status=1)
                self.assertStarts(error, told, (words, error))
        words = ["--add-host", "newhost", "1.0,1.0,1.0,1.0,1.0", "--under", "default", "--class", "nvme"]
        output, error = self.ran("whatif", *self.files("six_hosts"), *words)
        self.assertStarts(
            output, "37 groups and 40 places move", output.splitlines()[0]
        )  # as a monitor (16.2.15) then has it
        self.assertEqual(error, "newhost: device class nvme is new: the cluster has hdd\n")
        output, _ = self.ran("import", *self.files("six_hosts"))
        value = self.tools.put("m", output)
        by_map, by_dumps = (
            self.json("whatif", *own, "--add-host", "newhost", "1,1") for own in ([value], self.files("six_hosts"))
        )
        self.assertTrue(any("is a guess" in note for note in by_map["notes"]))
        self.assertFalse(any("guess" in note for note in by_dumps["notes"]))
        self.assertGreater(by_map["groups"], 0)
        self.assertGreater(by_dumps["groups"], 0)

    def test_primaries(self) -> None:
        """Where OSDs have a primary affinity `explain` tells Ceph's set and primary and says so, and `df` counts
        primaries as Ceph has them."""
        files, up = self.files("affinity"), WORST["affinity"]["up"]
        low = {osd["osd"] for osd in WORST["affinity"]["osd_dump"]["osds"] if osd["primary_affinity"] != 1}
        self.assertTrue(low)
        groups = [group for group, (places, _) in up.items() if low & set(places)]
        for group in groups[:8] + [group for group in up if group not in groups][:2]:
            told = self.json("explain", *files, group)
            self.assertEqual([told["up"], told["up_primary"]], up[group])
            self.assertEqual({own["osd"] for own in told["primary_affinity"]}, low & set(up[group][0]))
            self.assertEqual(
                "primary affinity is applied" in self.output("explain", *files, group), bool(low & set(up[group][0]))
            )
        told = self.json("df", *files)
        counts = collections.Counter(primary for _, primary in up.values())
        self.assertEqual(
            {own["id"]: own["primaries"] for own in told["nodes"] if own["id"] >= 0},
            {osd["osd"]: counts[osd["osd"]] for osd in WORST["affinity"]["osd_dump"]["osds"]},
        )
        self.assertEqual({own["osd"] for own in told["primary_affinity"]}, low)
        _, error = self.ran("import", *files)
        self.assertEqual(sum("primary affinity of " in line and "`up` lines" in line for line in error.splitlines()), 1)

    def test_advice(self) -> None:
        """Each thing to do about what keeps a cluster out is what a monitor took, after which its dumps come in; pools
        that come in without the others are named, and do so with Ceph's sets."""
        for own in DATA["outside"]:
            name = own["cluster"]
            files = self.tools.put("o", own["osd_dump"]), self.tools.put("c", own["crush_dump"])
            _, error = self.ran("import", *files, "--check", status=1)
            self.assertIn(own["advice"], error, (name, error))
            self.assertIn(MOVED.get(name, ""), error, name)
            self.assertNotIn("no monitor dumps it so", error, (name, error))
            self.assertEqual("--pools " in error, bool(own["pools"]), (name, error))
            self.assertIn(f"--pools {own['pools']}", error + "--pools ", (name, error))
            if own["mended"]:
                mended = [self.tools.put(key, own[key] | own["mended"][key]) for key in ("osd_dump", "crush_dump")]
                self.assertEqual(self.output("import", *mended, "--check"), "the cluster comes in as one map\n", name)
            files = self.tools.put("o", own["osd_dump"]), self.tools.put("c", own["crush_dump"])
            words = (
                ["--pools", own["pools"]]
                if own["pools"]
                else ["--tree", self.tools.put("tree", own["tree"])]
                if own["tree"]
                else None
            )
            if words:
                found = self.sets(json.loads(self.output("import", *files, *words)))
                self.assertEqual(found, {group: ceph_set(entry) for group, entry in own["up"].items()}, name)

    def test_what_others_have(self) -> None:
        """What is wrong with a rule that no pool uses, or with pools that are not taken and their rules, keeps nobody
        out."""
        own = copied(WORST["racks"])
        own["crush_dump"]["rules"].append({"rule_id": 9, "rule_name": "torn", "type": 1, "steps": [{"op": "take"}]})
        files = self.tools.put("o", own["osd_dump"]), self.tools.put("c", own["crush_dump"])
        self.assertEqual(self.output("import", *files, "--check"), "the cluster comes in as one map\n")
        cases: tuple[tuple[dict[str, object], str], ...] = (
            ({"crush_rule": 9}, "host, with 128 groups"),
            ({"size": "3"}, "pool 3"),
            ({"type": 2}, "host, with 128 groups"),
        )
        for changes, left in cases:
            with self.subTest(changes=changes):
                other = copied(own["osd_dump"])
                other["pools"][2].update(changes)
                files = self.tools.put("o", other), self.tools.put("c", own["crush_dump"])
                _, error = self.ran("import", *files, "--check", status=1)
                self.assertStarts(error.splitlines()[-1], "the cluster stays out")
                self.assertEqual(
                    self.output("import", *files, "--check", "--pools", "1,2"),
                    f"the cluster comes in as one map\nleft out by --pools: {left}\n",
                    changes,
                )

    def test_shares_by_block(self) -> None:
        """Where a rule takes one copy from one tree and the others from another, each tree's OSDs share the places that
        lie in it."""
        own = STOCK["018-hybrid"]
        kinds = {device["id"]: device["class"] for device in own["crush_dump"]["devices"]}
        told = self.json("df", *self.dumps("018-hybrid"), "--pools", "2")
        places = collections.Counter(
            kinds[osd] for group, (places, _) in own["up"].items() if group.startswith("2.") for osd in places
        )
        count = collections.Counter(kinds.values())
        for row in (row for row in told["nodes"] if row["id"] >= 0):
            kind = kinds[row["id"]]
            self.assertLess(abs(row["share"] - places[kind] / count[kind]), 0.006)
