"""OSDs that are emptied by `drain`: beside the program, and beside what a real monitor made of its scripts.

Monitors of Ceph 16.2.15 and 18.2.7 were given the scripts over clusters of operators.json.gz, one after the other.
drains.json.gz has, of each run, the scripts' commands, how many of them were refused, the sets that had become others
behind each script, and the exceptions that the monitor had in the end.
"""

from __future__ import annotations

import json
import pathlib
import re
from collections import Counter
from collections.abc import Iterator
from typing import Optional

from tests.ceph_monitor import WORST
from tests.clusters import STOCK, Json, commands, copied, exceptions_in, exceptions_told, kept, raised, with_commands
from tests.holds import sets_of
from tests.tool_cases import StockCase

RECORDS = kept("drains.json.gz")
BEGIN, END = ["ceph balancer off", "ceph osd set norebalance"], "ceph osd unset norebalance"
BUILT = "001-three-hosts"
Sets = dict[str, list[Optional[int]]]


def erasure_in(own: Json) -> set[str]:
    """The pools of a cluster whose places each hold a part of their own."""
    return {str(pool["pool"]) for pool in own["osd_dump"]["pools"] if pool["type"] == 3}


def come_in(own: Json, was: Sets, now: Sets) -> list[tuple[str, int]]:
    """The places that come to other OSDs between two times, each with its group."""
    erasure, found = erasure_in(own), []
    for group, places in now.items():
        if group.split(".")[0] in erasure:
            found += [(group, osd) for osd, old in zip(places, was[group]) if osd is not None and osd != old]
        else:
            found += [(group, osd) for osd in places if osd is not None and osd not in was[group]]
    return found


def lying(sets: Sets, osds: set[int]) -> int:
    """How many places lie on some OSDs."""
    return sum(osd in osds for places in sets.values() for osd in places)


def weights_of(lines: list[str]) -> dict[int, float]:
    """The weights that commands give OSDs."""
    words = [line.split(" ") for line in lines if line.startswith("ceph osd crush reweight ")]
    return {int(own[4].removeprefix("osd.")): float(own[5]) for own in words}


def reweighted(crush: Json, weights: dict[int, float]) -> Json:
    """A CRUSH dump where OSDs have other weights, and the buckets above them what their items come to."""
    found = copied(crush)
    own = {bucket["id"]: bucket for bucket in found["buckets"]}
    units = {osd: int(weight * 65536) for osd, weight in weights.items()}

    def put(bucket: Json) -> int:
        """Gives the items of a bucket their weights, and tells what they come to."""
        for item in bucket["items"]:
            changed = units.get(item["id"], item["weight"]) if item["id"] >= 0 else put(own[item["id"]])
            item["weight"] = changed
        return sum(item["weight"] for item in bucket["items"])

    inside = {item["id"] for bucket in own.values() for item in bucket["items"]}
    for bucket in own.values():
        if bucket["id"] not in inside:
            put(bucket)
    return found


def left_by(dump: Json, scripts: list[list[str]]) -> Json:
    """The exceptions of a dump once the commands of scripts are given, each of which stays."""
    lines = [line for script in scripts for line in script if "pg-upmap" in line]
    after = with_commands(exceptions_in(dump), lines)
    return {key: sorted(own) for key, own in after.items()}


class Drains(StockCase):
    """Commands of `drain`."""

    def files(self, own: Json) -> tuple[pathlib.Path, pathlib.Path]:
        """The dumps of a cluster."""
        return self.tools.put("o", own["osd_dump"]), self.tools.put("c", own["crush_dump"])

    def maps(self, dump: Json, crush: Json) -> list[Json]:
        """The maps of a cluster, with all OSDs up."""
        files = self.tools.put("dump", dump), self.tools.put("crush", crush)
        return [raised(part["map"]) for part in json.loads(self.output("import", *files, "--json"))["maps"]]

    def sets_under(self, maps: list[Json], lines: list[str]) -> Sets:
        """The sets of all groups once commands are given, each over the map that has its pool."""
        found: Sets = {}
        for value in maps:
            pools = {str(pool["id"]) for pool in value["pools"]}
            own = [line for line in lines if line.split(" ")[3].split(".")[0] in pools]
            found.update(sets_of(super().sets(with_commands(value, own))))
        return found

    def test_monitor(self) -> None:
        """The monitors took every command of the scripts that are told, and left every exception; the first script and
        the last one moved nothing, no place came to a drained OSD, and each group moved once."""
        self.assertEqual({record["ceph"] for record in RECORDS}, {"16.2.15", "18.2.7"})
        for record in RECORDS:
            with self.subTest(cluster=record["cluster"], words=record["words"], ceph=record["ceph"]):
                own = WORST[record["cluster"]]
                told = self.json("drain", *self.files(own), *record["words"], "--batch", 20)
                begin, end = told["begin"], told["end"]
                scripts = [begin["change"] + begin["commands"], *(part["commands"] for part in told["parts"])]
                self.assertEqual([*scripts, end["change"] + end["commands"]], record["scripts"])
                self.assertEqual(record["refused"], 0)
                self.assertEqual(left_by(own["osd_dump"], record["scripts"]), record["kept"])
                self.are_seen(own, told, record)

    def are_seen(self, own: Json, told: Json, record: Json) -> None:
        """Asks of the monitor's sets behind each script what is told of it."""
        gone, was = set(told["osds"]), {group: entry[0] for group, entry in record["up"].items()}
        self.assertEqual(lying(was, gone), told["places"])
        seen: Counter[str] = Counter()
        for at, changed in enumerate(record["behind"]):
            now = {**was, **changed}
            come = come_in(own, was, now)
            seen.update({group for group, _ in come})
            self.assertFalse(gone & {osd for _, osd in come})
            if at in (0, len(record["behind"]) - 1):
                self.assertEqual(come, [])
            else:
                moving = told["parts"][at - 1]["moving"]
                self.assertEqual((len({group for group, _ in come}), len(come)), (moving["groups"], moving["places"]))
            was = now
        self.assertEqual(lying(was, gone), 0)
        self.assertEqual(set(seen.values()), {1})
        self.assertLessEqual(told["moving"]["places"], 1.15 * told["places"])

    def test_program(self) -> None:
        """By the program, over dumps with the weights that are told: behind the first script each group has what it
        had; each part moves groups off the drained OSDs, as told, and no place to them; and without these OSDs all
        groups are where the parts have brought them."""
        for name, word in (("takes", "osd.3"), ("tiers", "osd.1")):
            with self.subTest(cluster=name, word=word):
                own = WORST[name]
                told = self.json("drain", *self.files(own), word, "--batch", 12)
                gone, left = set(told["osds"]), {entry["group"] for entry in told["begin"]["left"]}
                was = self.sets_under(self.maps(own["osd_dump"], own["crush_dump"]), [])
                light = self.maps(own["osd_dump"], reweighted(own["crush_dump"], weights_of(told["begin"]["change"])))
                lines = told["begin"]["commands"]
                now = self.sets_under(light, lines)
                self.assertEqual({group for group, _ in come_in(own, was, now)} - left, set())
                for part in told["parts"]:
                    lines = lines + part["commands"]
                    was, now = now, self.sets_under(light, lines)
                    come = come_in(own, was, now)
                    self.assertEqual(len(come), part["moving"]["places"])
                    self.assertFalse(gone & {osd for _, osd in come})
                self.assertEqual(lying(now, gone), 0)
                none = self.maps(own["osd_dump"], reweighted(own["crush_dump"], weights_of(told["end"]["change"])))
                self.assertEqual(come_in(own, now, self.sets_under(none, lines + told["end"]["commands"])), [])

    def test_undo(self) -> None:
        """The way back gives the weights and the exceptions of the dump again, whichever script was run."""
        own = WORST["six_hosts"]
        files = self.files(own)
        told = self.json("drain", *files, "osd.7", "--batch", 12)
        weights = {item["id"]: item["weight"] for bucket in own["crush_dump"]["buckets"] for item in bucket["items"]}
        back = commands(self.output("drain", *files, "osd.7", "--undo"))
        self.assertEqual((back[:2], back[-1]), (BEGIN, END))
        self.assertEqual(back[2:-1], told["undo"]["change"] + told["undo"]["commands"])
        self.assertEqual(int(weights_of(back)[7] * 65536), weights[7])
        self.assertIn("ceph osd reweight 7 1.0", back)
        value = self.maps(own["osd_dump"], own["crush_dump"])[0]
        begin, parts = told["begin"]["commands"], [part["commands"] for part in told["parts"]]
        for lines in ([], begin, begin + parts[0], [*begin, *(line for part in parts for line in part)]):
            after = with_commands(value, lines)
            there = {entry[0] for key in ("pg_upmap", "pg_upmap_items") for entry in after[key]}
            undo = [line for line in told["undo"]["commands"] if " rm-" not in line or line.split(" ")[3] in there]
            self.assertEqual(with_commands(after, undo), with_commands(value, []))

    def scripts(self, *words: object) -> dict[str, list[str]]:
        """The commands of the scripts in a folder, by their names."""
        paths = self.output(*words, "--to", "scripts").splitlines()
        return {path: commands(pathlib.Path(self.tools.folder, path).read_text()) for path in paths}

    def test_scripts(self) -> None:
        """The scripts by their names: the first and the last keep data where it is meanwhile; without a folder all
        stand behind one another; a folder that has such scripts is refused."""
        files = self.dumps(BUILT)
        words = ["drain", *files, "osd.7", "--batch", 20]
        told, found = self.json(*words), self.scripts(*words)
        first, *parts, last = found.values()
        self.assertEqual([*found][0], "scripts/drain-000.sh")
        self.assertEqual([*found][1:-1], [f"scripts/drain-{at:03}.sh" for at in range(1, len(parts) + 1)])
        self.assertEqual([*found][-1], "scripts/drain-end.sh")
        self.assertEqual(first, [*BEGIN, *told["begin"]["change"], *told["begin"]["commands"], END])
        self.assertEqual(parts, [part["commands"] for part in told["parts"]])
        self.assertEqual(last, [*BEGIN, "ceph osd crush reweight osd.7 0", "ceph osd out osd.7", END])
        output, error = self.ran("drain", *files, "osd.7")
        self.assertEqual(sorted(commands(output)), sorted(first + [line for part in parts for line in part] + last))
        self.assertStarts(error, f"{told['places']} places of groups lie on osd.7; ")
        _, error = self.ran(*words, "--to", "scripts", status=2)
        self.assertEnds(error, "scripts/drain-000.sh is there already: name another folder\n")
        self.assertEqual(self.output("drain", *files, "osd.7", "--undo", "--to", "back"), "back/undo-001.sh\n")

    def test_again(self) -> None:
        """Over the dumps of a cluster that is drained in part, what is left goes, and no weight is given again; once
        all has gone, nothing is left but the end."""
        files = self.dumps(BUILT)
        told = self.json("drain", *files, "osd.7", "--batch", 20)
        crush = reweighted(STOCK[BUILT]["crush_dump"], weights_of(told["begin"]["change"]))
        lines, was = told["begin"]["commands"] + told["parts"][0]["commands"], STOCK[BUILT]["osd_dump"]
        for more, places in (
            ([], told["places"] - told["parts"][0]["moving"]["places"]),
            ([line for part in told["parts"][1:] for line in part["commands"]], 0),
        ):
            lines = lines + more
            entries = exceptions_told(**with_commands(exceptions_told(), lines))["pg_upmap_items"]
            own = {"osd_dump": dict(was, pg_upmap_items=entries), "crush_dump": crush}
            again = self.json("drain", *self.files(own), "osd.7", "--batch", 20)
            self.assertEqual((again["places"], again["moving"]["places"]), (places, places))
            self.assertEqual((again["begin"]["change"], again["begin"]["commands"]), ([], []))
        self.assertEqual(again["parts"], [])

    def test_even(self) -> None:
        """With --even what lies there goes to where `plan` then has it, and no other group moves: the deviation from
        the shares is no greater than without."""
        files = self.files(WORST["takes"])
        plain, even = self.json("drain", *files, "osd.3"), self.json("drain", *files, "osd.3", "--even")
        self.assertEqual(plain["moving"]["groups"], even["moving"]["groups"])
        self.assertLessEqual(even["fullest"]["after"]["deviation"], plain["fullest"]["after"]["deviation"] + 0.01)

    def test_classes(self) -> None:
        """Where a rule takes OSDs of all classes, --keep-class has each place stay on OSDs of its class."""
        own = copied(WORST["tiers"])
        for rule in own["crush_dump"]["rules"]:
            for step in rule["steps"]:
                step.update({"item": -1, "item_name": "default"} if step["op"] == "take" else {})
        classes = {device["id"]: device["class"] for device in own["crush_dump"]["devices"]}
        osd = next(osd for osd in sorted(classes) if classes[osd] == "ssd")
        seen = []
        for more in ("--anyway", "--keep-class"):
            told = self.json("drain", *self.files(own), f"osd.{osd}", more)
            was = self.sets_under(self.maps(own["osd_dump"], own["crush_dump"]), [])
            light = self.maps(own["osd_dump"], reweighted(own["crush_dump"], weights_of(told["begin"]["change"])))
            lines = [line for part in told["parts"] for line in part["commands"]]
            come = come_in(own, was, self.sets_under(light, told["begin"]["commands"] + lines))
            self.assertEqual(len(come), told["places"])
            seen.append({classes[other] for _, other in come})
        self.assertIn("hdd", seen[0])
        self.assertEqual(seen[1], {"ssd"})


class BadDrains(StockCase):
    """What `drain` does where it cannot do its work."""

    def cases(self) -> Iterator[tuple[list[object], int, str]]:
        """Words behind the dumps, the status, and what is told."""
        yield ["osd.1", "--batch", "5"], 2, "--batch goes with --to"
        yield ["osd.1", "--json", "--undo"], 2, "--json tells the commands and their undoing at once"
        yield ["osd.1", "osd.1"], 2, "osd.1 is named twice"
        yield ["osd.1", "1"], 1, "osd.1 is named twice, by osd.1 and 1"
        yield ["node1", "osd.1"], 1, "osd.1 is named twice, by node1 and osd.1"
        yield ["osd.99"], 1, "osd.99: no OSD of the map, nor a bucket with any"
        yield ["nobody"], 1, "nobody: no OSD of the map, nor a bucket with any"

    def test_words(self) -> None:
        """OSDs that are not there or named twice, and words of which one would be passed over."""
        files = self.dumps(BUILT)
        self.is_told(self.tools.run("drain", *files), 2, "drain takes the two dumps of a cluster, and the OSDs", files)
        for words, status, told in self.cases():
            with self.subTest(words=words):
                self.is_told(self.tools.run("drain", *files, *words), status, told, words)

    def refused(self, own: Json, *words: object, status: int = 1) -> str:
        """What is told where nothing is drained."""
        files = self.tools.put("o", own["osd_dump"]), self.tools.put("c", own["crush_dump"])
        output, error = self.ran("drain", *files, *words, status=status)
        self.assertEqual(output, "")
        return error

    def test_short(self) -> None:
        """Where a pool would be short, its groups are told, with how many hosts are left for how many places."""
        for words in (["node3"], ["node3", "--even"]):
            error = self.refused(STOCK[BUILT], *words)
            self.assertIn("pool 2: 128 groups cannot go, and would have 2 of 3 places, with 2 left for ", error)
            self.assertEnds(error, "nothing is drained\n")

    def test_states(self) -> None:
        """OSDs that are out already, of a uniform bucket beside others, and all that a rule takes are told, with what
        to do."""
        own = copied(STOCK[BUILT])
        own["osd_dump"]["osds"][1]["weight"] = 0
        self.assertIn("osd.1 is out already", self.refused(own, "osd.1"))
        self.assertIn("`hold --pgs PGS` stops what is moving still", self.refused(own, "node1"))
        own = copied(STOCK[BUILT])
        self.assertIn("pool 2: its rule takes these OSDs alone", self.refused(own, "default"))
        for bucket in own["crush_dump"]["buckets"]:
            if bucket["name"] == "node1":
                bucket["alg"] = "uniform"
        error = self.refused(own, "osd.1")
        self.assertIn("osd.1 stands in a uniform bucket, whose items all have one weight: osd.0, osd.2 and", error)

    def test_moving_clusters(self) -> None:
        """A cluster that moves already, or is amid an outage, is told, and drained with --anyway alone."""
        own = copied(STOCK[BUILT])
        own["osd_dump"]["pg_temp"] = [{"pgid": "2.0", "osds": [1, 2, 3]}]
        error = self.refused(own, "osd.7", status=11)
        self.assertStarts(error, "the cluster moves already: 1 group has a pg_temp")
        self.assertEnds(error, "nothing is drained: --anyway does it nonetheless\n")
        files = self.tools.put("o", own["osd_dump"]), self.tools.put("c", own["crush_dump"])
        self.assertTrue(commands(self.output("drain", *files, "osd.7", "--anyway")))

    def test_holes(self) -> None:
        """Groups that cannot be held, as a place of theirs is empty, are told with the reason."""
        own = WORST["few_hosts"]
        files = self.tools.put("o", own["osd_dump"]), self.tools.put("c", own["crush_dump"])
        _, error = self.ran("drain", *files, "osd.1")
        self.assertTrue(re.search("^at once, by drain-000.sh: [0-9]+ groups cannot be held: ", error, re.M), error)
