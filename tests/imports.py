"""`import` over clusters of Ceph's that were changed in one place or several, so that no map holds them.

What is told of each is written here by hand.
"""

from __future__ import annotations

import json
import subprocess
from collections.abc import Callable
from typing import Any

from tests.clusters import CLUSTERS, Json, copied, exceptions_told
from tests.tool_cases import SECONDS, ToolCase

Work = Callable[[Json, Json], object]
FIT = "are both dumps of one cluster?"


def dumps_of(name: str) -> tuple[Json, Json]:
    """The two dumps of a cluster, to be changed."""
    own = copied(CLUSTERS[name])
    return own["osd_dump"], own["crush_dump"]


def first_of(crush_dump: Any, kind: str) -> Json:
    """The first bucket of a type."""
    number = next(own["type_id"] for own in crush_dump["types"] if own["name"] == kind)
    return next(bucket for bucket in crush_dump["buckets"] if bucket["type_id"] == number)


def changed(work: Work, name: str = "002-built") -> tuple[Json, Json]:
    """The dumps of a cluster after some work on them."""
    osd_dump, crush_dump = dumps_of(name)
    work(osd_dump, crush_dump)
    return osd_dump, crush_dump


def no_tunable(_: Json, crush: Json) -> None:
    del crush["tunables"]["chooseleaf_stable"]


def straw(_: Json, crush: Json) -> None:
    for bucket in crush["buckets"][:3]:
        bucket["alg"] = "straw"


def weight_sets(_: Json, crush: Json) -> None:
    crush["choose_args"] = {"1": [], "2": []}


def empty(_: Json, crush: Json) -> None:
    first_of(crush, "host")["items"] = []


def other_pool(osd: Json, _: Json) -> None:
    osd["pools"][0]["type"] = 2


def high_osd(osd: Json, _: Json) -> None:
    osd["osds"].append(dict(osd["osds"][0], osd=1024, up=0))


def other_step(_: Json, crush: Json) -> None:
    crush["rules"][0]["steps"][1] = {"op": "noop"}


def no_block(_: Json, crush: Json) -> None:
    crush["rules"][0]["steps"].pop()


def twice_in_one(_: Json, crush: Json) -> None:
    first, second = [bucket for bucket in crush["buckets"] if bucket["type_id"] == 1][:2]
    second["items"].append(dict(first["items"][0]))


def low_epoch(osd: Json, _: Json) -> None:
    osd["epoch"] = 0


def no_such_rule(osd: Json, _: Json) -> None:
    osd["pools"][0]["crush_rule"] = 7


def other_rule(_: Json, crush: Json) -> None:
    crush["rules"][0]["type"] = 3
    crush["rules"][0]["steps"][1]["op"] = "chooseleaf_indep"


def placed_above(osd: Json, _: Json) -> None:
    osd["pools"][0]["pg_placement_num"] = 193


def no_bucket(_: Json, crush: Json) -> None:
    first_of(crush, "host")["items"][0]["id"] = -99


def round_about(_: Json, crush: Json) -> None:
    first_of(crush, "host")["items"][0]["id"] = -5


def listed_twice(osd: Json, _: Json) -> None:
    osd["osds"].append(dict(osd["osds"][3]))


def not_there(osd: Json, _: Json) -> None:
    osd["osds"][3]["state"] = ["autoout"]


def above_most(osd: Json, _: Json) -> None:
    osd["max_osd"] = 11


def low_type(_: Json, crush: Json) -> None:
    next(own for own in crush["types"] if own["name"] == "host")["type_id"] = 16
    for bucket in crush["buckets"]:
        bucket["type_id"] = {1: 14, 2: 15}[bucket["type_id"]]


def many_tries(_: Json, crush: Json) -> None:
    crush["rules"][0]["steps"].insert(0, {"op": "set_choose_tries", "num": 201})


def many_chosen(_: Json, crush: Json) -> None:
    crush["rules"][0]["steps"][1]["num"] = 11


def long_set(osd: Json, _: Json) -> None:
    osd.update(exceptions_told([["1.4", [0, 4, 8, 9]]]))


def double_set(osd: Json, _: Json) -> None:
    osd.update(exceptions_told([["1.4", [0, 4, 4]]]))


def uneven(_: Json, crush: Json) -> None:
    host = first_of(crush, "host")
    host["alg"] = "uniform"
    host["items"][0]["weight"] += 1


ONE = [
    (no_tunable, ["no tunable chooseleaf_stable: is it a dump of an older release?"]),
    (straw, ["3 straw buckets, as a stock cluster has them"]),
    (weight_sets, ["choose_args (weight sets of 2)"]),
    (empty, ["bucket host0 is empty"]),
    (other_pool, ["pool 1 is of type 2, neither replicated (1) nor erasure (3)"]),
    (high_osd, ["osd.1024 is at or above osd.1024"]),
    (other_step, ["rule replicated_rule has a step noop, which is not in the grammar"]),
    (
        no_block,
        [
            "rule replicated_rule: its steps are not in the grammar: a block is a take, one to three choose steps "
            "and an emit"
        ],
    ),
    (twice_in_one, ["osd.0 stands below two buckets of root: host0 and host1"]),
    (low_epoch, ["the epoch is 0, less than 1"]),
    (no_such_rule, ["pool 1 uses rule 7, which is not there"]),
    (other_rule, ["pool 1 is replicated, but its rule replicated_rule is for erasure pools"]),
    (placed_above, ["pool 1 places 193 groups, more than it has, 192"]),
    (no_bucket, ["bucket host0 holds -99, which is no bucket"]),
    (round_about, ["bucket host0 of type host holds root of type root, which is not below it"]),
    (listed_twice, ["osd.3 is listed twice in the OSD dump"]),
    (not_there, ["osd.3 is listed in the OSD dump, but does not exist"]),
    (above_most, ["osd.11 is not below max_osd, 11"]),
    (low_type, ["rule replicated_rule chooses the type host, whose number is 16, more than 15"]),
    (many_tries, ["rule replicated_rule has the number 201 in a step set_choose_tries, more than 200"]),
    (many_chosen, ["rule replicated_rule has the number 11 in a step chooseleaf_firstn, more than 10"]),
    (long_set, ["the explicit set of 1.4 has 4 entries, 1 to the pool's size, 3"]),
    (double_set, ["the explicit set of 1.4 has an OSD twice"]),
    (uneven, ["bucket host0 is uniform, but its items have unequal weights"]),
]


class Imports(ToolCase):
    """What keeps a cluster out."""

    def imported(self, osd_dump: Any, crush_dump: Any, *words: object) -> tuple[int, str, list[str]]:
        """Status, output and lines of error of an import."""
        status, output, error = self.tools.run(
            "import", self.tools.put("o", osd_dump), self.tools.put("c", crush_dump), *words
        )
        return status, output, error.splitlines()

    def reasons(self, osd_dump: Any, crush_dump: Any, *words: object, status: int = 1) -> list[str]:
        """What keeps a cluster out, once nothing was put out."""
        found, output, lines = self.imported(osd_dump, crush_dump, *words)
        self.assertEqual((found, output), (status, ""), (found, lines))
        return lines

    def test_each_reason(self) -> None:
        """Each thing alone that keeps a cluster out is told in its line, and no other."""
        for work, wanted in ONE:
            with self.subTest(work=work):
                found = self.reasons(*changed(work))
                self.assertEqual(found, wanted, (work.__name__, found))

    def test_names_of_pools(self) -> None:
        """What keeps a cluster out tells pools by their names beside their numbers, but not in what is to be typed."""
        osd_dump, crush_dump = dumps_of("002-built")
        osd_dump["pools"][0]["size"] = 11
        number, name = osd_dump["pools"][0]["pool"], osd_dump["pools"][0]["pool_name"]
        files = self.tools.put("osd", osd_dump), self.tools.put("crush", crush_dump)
        for words in (["import"], ["import", "--check"], ["df"]):
            with self.subTest(words=words):
                done = subprocess.run(
                    self.tools.words(*words, *files), capture_output=True, text=True, timeout=SECONDS, check=False
                )
                self.assertIn(f"pool {number} ({name}) has size 11, more than 10", done.stderr)

    def test_fit(self) -> None:
        """Dumps of two clusters are told as such, three OSDs by name and more by their number, and come in by
        --unmatched alone; a few OSDs to which no rule comes are told."""
        osd_dump, crush_dump = dumps_of("001-built")
        whole = list(osd_dump["osds"])
        for gone, told in (
            ([17], "osd.17 stands below root, but the OSD dump does not list it: "),
            (list(range(20, 44)), "24 devices stand below root, but the OSD dump does not list them: "),
        ):
            with self.subTest(told=told):
                osd_dump["osds"] = [osd for osd in whole if osd["osd"] not in gone]
                self.assertEqual(self.reasons(osd_dump, crush_dump), [told + FIT])
                status, output, lines = self.imported(osd_dump, crush_dump, "--unmatched")
                self.assertEqual(status, 0, lines)
                self.assertTrue({osd["id"] for osd in json.loads(output)["osds"]}.isdisjoint(gone), lines)
                names = (
                    ": osd.20, osd.21, osd.22, osd.23, osd.24, osd.25, osd.26, osd.27 and 16 more"
                    if len(gone) > 3
                    else ""
                )
                self.assertIn(f"taken as out: {told.removesuffix(': ')}{names}", lines)
        found = self.reasons(dict(osd_dump, osds=whole), dumps_of("002-built")[1])
        self.assertEqual(
            found, [f"36 OSDs are up and in, but the CRUSH dump does not list them among its devices: {FIT}"]
        )
        beside = dict(osd_dump, osds=[osd for osd in whole if osd["osd"] < 14])
        status, output, lines = self.imported(beside, dumps_of("002-built")[1])
        self.assertEqual((status, output), self.imported(beside, dumps_of("002-built")[1], "--unmatched")[:2])
        self.assertEqual(status, 0)
        far = "is up and in, but the CRUSH dump does not list it among its devices"
        self.assertEqual(
            [line for line in lines if "osd." in line], [f"taken as out of reach: osd.{osd} {far}" for osd in (12, 13)]
        )
        out = [dict(osd, up=osd["osd"] % 2, weight=1 - osd["osd"] % 2) if osd["osd"] >= 12 else osd for osd in whole]
        self.assertEqual(self.imported(dict(osd_dump, osds=out), dumps_of("002-built")[1])[0], 0)

    def test_all_at_once(self) -> None:
        """Faults of rules' blocks and of a dump's form are told beside all others, and what a fault of form hides is
        not guessed."""
        osd_dump, crush_dump = dumps_of("002-built")
        for work in (low_epoch, no_block, no_tunable, twice_in_one, weight_sets):
            with self.subTest(work=work):
                work(osd_dump, crush_dump)
        osd_dump["osds"].pop(5)
        osd_dump["pools"][0]["pg_num"] = 5000
        found = self.reasons(osd_dump, crush_dump)
        wanted = [
            "choose_args (weight sets of 2)",
            f"osd.5 stands below root, but the OSD dump does not list it: {FIT}",
            "pool 1 has 5000 groups, more than 4096",
        ]
        wanted += [
            line for work, lines in ONE for line in lines if work in (low_epoch, no_block, no_tunable, twice_in_one)
        ]
        self.assertEqual(sorted(found), sorted(wanted))
        del crush_dump["buckets"][1]["alg"], osd_dump["pools"][0]["size"]
        osd_dump["pools"].append({"pool": 2})
        osd_dump["osds"][0]["weight"] = float("nan")
        found = self.reasons(osd_dump, crush_dump)
        for line in (
            "choose_args (weight sets of 2)",
            "the epoch is 0, less than 1",
            "no tunable chooseleaf_stable: is it a dump of an older release?",
        ):
            with self.subTest(line=line):
                self.assertIn(line, found)
        forms = [line.rsplit("/", 1)[-1] for line in found if line.startswith(str(self.tools.folder))]
        self.assertEqual(forms[:2], ["o: pools[0].size: missing", "o: pools[1].pool_name: missing"])
        self.assertIn("c: buckets[1].alg: missing", forms)
        self.assertIn("o: osds[0].weight: no number", forms, found)
        self.assertFalse(any(FIT in line for line in found))

    def test_unread(self) -> None:
        """Two files that are no dumps are both told."""
        found = [line.rsplit("/", 1)[-1] for line in self.reasons("{", "[]", status=2)]
        self.assertEqual(len(found), 2)
        self.assertStarts(found[0], "o: no JSON: ")
        self.assertEqual(found[1], "c: no JSON object")

    def test_absent_osds(self) -> None:
        """A set that names an OSD whose reweight no dump tells is refused, and taken as out by --unmatched, as Ceph
        does where it is out.

        Found by osdmaptool 16.2.15: where such an OSD has a reweight of 0, Ceph passes over the set and the pairs
        behind it; where it has another, or is at or above max_osd, the set stands, the OSD is dropped at look-up, and
        the pairs act.
        """
        value = self.tools.map("002-built")
        sets = self.tools.sets(value)
        absent = next(osd for osd in range(12) if f"{osd}" in sets["1.4"].split(" ")[0].strip("[]").split(","))
        others = [osd for osd in range(12) if osd != absent]
        osd_dump, crush_dump = changed(lambda osd, _: osd.update(max_osd=13), "002-built")
        pairs = [["1.4", [[others[0], others[8]]]], ["1.5", [[12, 1]]]]
        osd_dump.update(exceptions_told([["1.4", [others[0], 12, others[5]]]], pairs))
        self.assertEqual(
            self.reasons(osd_dump, crush_dump),
            ["the explicit set of 1.4 names osd.12, which the OSD dump does not list"],
        )
        status, output, lines = self.imported(osd_dump, crush_dump, "--unmatched")
        self.assertEqual(status, 0, lines)
        self.assertEqual(self.tools.sets(json.loads(output)), self.tools.sets(dict(value, max_osd=13)), lines)
        self.assertIn("taken as out: the explicit set of 1.4 names osd.12, which the OSD dump does not list", lines)
        osd_dump.update(exceptions_told([], [["1.4", [[absent, 12]]]]))
        self.assertEqual(
            self.reasons(osd_dump, crush_dump), ["the pairs of 1.4 name osd.12, which the OSD dump does not list"]
        )
        for high in (13, 2147483647):
            with self.subTest(high=high):
                for words in ((), ("--unmatched",)):
                    osd_dump.update(exceptions_told([], [["1.4", [[absent, high]]]]))
                    self.assertEqual(
                        self.reasons(osd_dump, crush_dump, *words),
                        [f"the pairs of 1.4 name osd.{high}, which is not below max_osd, 13"],
                    )
        osd_dump.update(exceptions_told([f"1.{group}", [0, 12]] for group in range(5)))
        self.assertEqual(
            self.reasons(osd_dump, crush_dump), ["5 explicit sets name OSDs which the OSD dump does not list: osd.12"]
        )
        osd_dump.update(exceptions_told([["1.c0", [0, 99]], ["7.0", [99]]]))
        status, output, lines = self.imported(osd_dump, crush_dump)
        self.assertEqual(status, 0, lines)
        self.assertEqual(json.loads(output)["pg_upmap"], [], lines)
        self.assertIn("left out: 2 exceptions that cannot act", lines)
