"""What the commands of the tools tell of a map, beside what is reckoned from the program's answers or told by Ceph's
tools."""

from __future__ import annotations

import html
import json
import os
import random
import re
from collections.abc import Iterable
from unittest import mock

from rekhuso.words import counted, share_words

from tests import model
from tests.cases import EXAMPLE, example
from tests.clusters import CLUSTERS, STOCK, Json, below, commands, copied, places, with_commands
from tests.tool_cases import ToolCase


def out(value: Json, osds: Iterable[int]) -> Json:
    """A map with some OSDs out."""
    return dict(value, osds=[dict(osd, weight=0) if osd["id"] in osds else osd for osd in value["osds"]])


class Watched(model.Cluster):
    """The model of a map, which keeps what rules have met and passed over as out."""

    def __init__(self, value: Json) -> None:
        super().__init__(value)
        self.met: set[int] = set()

    def is_out(self, item: int | None, x: int) -> bool:
        """Whether an item is an OSD that is out."""
        found = super().is_out(item, x)
        self.met.update({item} if found and item is not None else ())
        return found

    def met_by(self, group: str) -> list[int]:
        """Which OSDs the rule of a group meets and passes over."""
        self.met, self.raws = set(), {}
        self.raw(model.group_of(group))
        return sorted(self.met)


class ToolOutput(ToolCase):
    """What each command tells."""

    def test_each_type(self) -> None:
        """A drill over a type that the map does not have lists the types that it has; over one that it has, it tells of
        every bucket."""
        path, names, value, known = self.with_names("001-built")
        there = sorted({bucket["type"] for bucket in value["buckets"]})
        for word in ("chassis", "osd", "0", "15", "²", "-1", "", "Host"):
            with self.subTest(word=word):
                for options, wanted in (
                    ((), there),
                    (("--names", names), [f"{number} ({known['types'][str(number)]})" for number in there]),
                ):
                    for form in ((), ("--json",)):
                        status, output, error = self.tools.run("whatif", path, f"--each={word}", *options, *form)
                        why = f"{word}: no type of the map's buckets; there are {', '.join(map(str, wanted))}"
                        self.assertEqual((status, error), (1, f"{why}\n"))
                        told = json.loads(output)["refused"] if form else output
                        self.assertEqual(told, {"code": "refused", "status": 1, "why": [why]} if form else "")
        hosts = [bucket["id"] for bucket in value["buckets"] if bucket["type"] == 1]
        rows = self.json("whatif", path, "--each", "host", "--names", names)["buckets"]
        before = self.tools.sets(value)
        self.assertEqual([row["id"] for row in rows], hosts)
        self.assertEqual([row["name"] for row in rows], [known["buckets"][str(host)] for host in hosts])
        for row in rows:
            after = self.tools.sets(out(value, below(value, row["id"])))
            self.assertEqual(row["groups"], sum(before[group] != after[group] for group in before))
            self.assertEqual({flow[0] for flow in row["flows"]}, below(value, row["id"]))
        lines = self.output("whatif", path, "--each", "1").splitlines()
        self.assertEqual(
            [line.split(" groups")[0] for line in lines], [f"bucket {row['id']}: {row['groups']}" for row in rows]
        )

    def test_passed_over(self) -> None:
        """Passed over as out are the OSDs that the group's rule met, as by the model; where nobody changed a set, one
        line says so."""
        value, rng = self.tools.map("002-built"), random.Random(3)
        rules = [
            dict(rule, kind="erasure", steps=json.loads(json.dumps(rule["steps"]).replace("firstn", "indep")))
            for rule in value["rules"]
        ]
        erasure = dict(value, rules=rules, pools=[dict(pool, kind="erasure") for pool in value["pools"]])
        for name, value in (("firstn", value), ("indep", erasure)):
            with self.subTest(name=name):
                osds = [
                    dict(osd, weight=rng.choice((0, 0, 32768, 65536, 65536, 65536, 65536)), up=osd["exists"])
                    for osd in value["osds"]
                ]
                value = dict(value, osds=osds, pg_upmap=[], pg_upmap_items=[])
                seen: dict[int, list[str]] = {}
                watched, path = Watched(value), self.tools.put("m", value)
                groups = [f"{pool['id']}.{number:x}" for pool in value["pools"] for number in range(pool["pg_num"])]
                for group in groups:
                    seen.setdefault(min(len(watched.met_by(group)), 4), []).append(group)
                self.assertLessEqual({0, 1, 2, 3}, set(seen), (name, list(seen)))
                for group in [group for own in seen.values() for group in own[:1]]:
                    lines = self.output("explain", path, group).splitlines()
                    told = [
                        re.findall(r"osd\.([0-9]+)", line) for line in lines if line.startswith("passed over as out: ")
                    ]
                    wanted = watched.met_by(group)
                    self.assertEqual(
                        [list(map(int, line)) for line in told],
                        [wanted] if wanted else [],
                        (name, group, wanted, lines),
                    )
                    self.assertEqual(
                        sum(line.startswith("nobody has changed the set") for line in lines),
                        not wanted,
                        (name, group, lines),
                    )

    def test_sets_that_somebody_changed(self) -> None:
        """A group with an exception, or with an OSD that is down, does not say that nobody changed its set."""
        value = example()
        for changed, is_plain in (
            (value, True),
            (dict(value, pg_upmap_items=[["1.0", [[3, 1]]]]), False),
            (dict(value, pg_upmap=[["1.0", [3, 2, 0]]]), False),
            (dict(value, osds=[dict(osd, up=osd["id"] != 2) for osd in value["osds"]]), False),
            (dict(value, osds=[dict(osd, up=osd["id"] != 1) for osd in value["osds"]]), True),
        ):
            with self.subTest(changed=changed):
                lines = self.output("explain", self.tools.put("m", changed), "1.0").splitlines()
                self.assertEqual(any(line.startswith("nobody has changed the set") for line in lines), is_plain)
                self.assertStarts(lines[-1], "its up set is ")

    def test_names_in_faults_and_differences(self) -> None:
        """`check` and `diff` tell buckets, pools, rules and OSDs by the names that they are given."""
        path, names, value, known = self.with_names("002-built")
        known.update(pools={"1": "rbd"}, rules={"0": "racks"}, osds={"3": "disk-three", "12": "disk-twelve"})
        known["buckets"]["-1"] = "host-one"
        names = self.tools.put("named", known)
        wrong = copied(value)
        at = next(at for at, bucket in enumerate(wrong["buckets"]) if bucket["id"] == -1)
        wrong["pools"][0]["size"], wrong["buckets"][at]["items"][0][1] = 11, 0
        status, output, error = self.tools.run("check", self.tools.put("wrong", wrong), "--names", names)
        self.assertEqual((status, output), (1, ""))
        for line in (
            "pools[0].size: 11, at most 10 (12 BadLimit): rbd",
            f"buckets[{at}].items[0][1]: 0, at least 1 (12 BadLimit): host-one",
        ):
            with self.subTest(line=line):
                self.assertIn(line, error.splitlines())
        change = {
            "base": value["epoch"],
            "down": [12],
            "new_items": [["1.0", [[12, 3]]]],
            "new_pools": [value["pools"][0]],
        }
        status, _, error = self.tools.run("check", path, self.tools.put("change", change), "--names", names)
        self.assertEqual(status, 1, error)
        self.assertIn("down[0]: disk-twelve does not exist (21 UnknownOsd)", error.splitlines())
        self.assertIn("new_pools[0].id: pool rbd is there (24 PoolExists)", error.splitlines())
        self.assertEqual(self.tools.run("check", path, "--names", names), (0, f"{path}: lawful\n", ""))
        osds = [dict(osd, exists=osd["id"] != 3, up=osd["id"] != 3) for osd in value["osds"]]
        other = dict(value, pools=[dict(value["pools"][0], size=2)], osds=osds)
        lines = self.output("diff", path, self.tools.put("other", other), "--names", names).splitlines()
        for line in (
            "no change says: pool rbd differs in more than its numbers of groups",
            "no change says: disk-three goes",
        ):
            with self.subTest(line=line):
                self.assertIn(line, lines)

    def test_tree_of_the_page(self) -> None:
        """The page has the buckets with their sums beside the picture, as `df` tells them, and the OSDs below; and no
        figure that stays white in the dark."""
        path, names, value, known = self.with_names("002-built")
        told = self.json("df", path)
        page = self.output("report", path, "--names", names)
        sums = next(iter(re.findall('<table class="sums">.*?</table>', page)), "")
        rows = [
            [html.unescape(cell).strip() for cell in re.findall('<t[dh](?: scope="row")?>(.*?)</t[dh]>', row)]
            for row in re.findall('<tr>(?:<th scope="row">.*?)</tr>', sums)
        ]
        buckets = [row for row in told["nodes"] if row["id"] < 0]
        self.assertEqual([row[0] for row in rows], [*(known["buckets"][str(row["id"])] for row in buckets), "TOTAL"])
        self.assertEqual([int(row[1]) for row in rows], [row["pgs"] for row in [*buckets, told["summary"]]])
        squares = re.findall("<title>(osd[.][0-9]+): ", page.partition("</figure>")[0])
        self.assertEqual(squares, [row["name"] for row in told["nodes"] if row["id"] >= 0])
        roots = [row["share"] for row in told["nodes"] if row["depth"] == 0]
        self.assertLessEqual(abs(sum(roots) - told["summary"]["share"]), 0.005 * (len(roots) + 1))
        self.assertLess(page.index("<svg"), page.index('<table class="sums">'))
        before, heading, behind = page.partition(">OSDs</h2>")
        self.assertTrue(heading and sums in before)
        numbers = dict(
            re.findall('<tr><th scope="row">(osd[.][0-9]+)</th><td>([0-9]+)</td>', behind.partition("</table>")[0])
        )
        self.assertEqual(numbers, {row["name"]: str(row["pgs"]) for row in told["nodes"] if row["id"] >= 0})
        columns = ("NAME", "PGS", "SHARE", "RATIO")
        self.assertIn("".join(f'<th scope="col">{name}</th>' for name in columns), sums)
        self.assertIn("prefers-color-scheme:dark", page)
        self.assertFalse(re.search('<rect[^>]*width="100%"[^>]*fill=', page))

    def test_plan_of_the_page(self) -> None:
        """The page has the groups of each OSD before the plan and after its commands, and what hosts give to others."""
        path, _, value, _ = self.with_names("002-built")
        _, sides, between = re.findall("<figure>.*?</figure>", self.output("report", path), re.DOTALL)
        squares = [tuple(map(int, own)) for own in re.findall("<title>osd[.]([0-9]+): ([0-9]+) group", sides)]
        after, half = with_commands(value, commands(self.output("plan", path))), len(squares) // 2
        for own, found in ((value, squares[:half]), (after, squares[half:])):
            held = [osd for answer in self.tools.sets(own).values() for osd in places(answer)]
            self.assertEqual(found, sorted((osd["id"], held.count(osd["id"])) for osd in value["osds"]))
        moved = sum(map(int, re.findall("<title>([0-9]+) from ", between)))
        self.assertGreater(moved, 0)
        self.assertIn(f" and {moved} places move; ", between)

    def test_best_of_plans(self) -> None:
        """How full any plan leaves the fullest OSD is told where that is more than its share."""
        for name, is_told in (("001-three-hosts", True), ("003-rook-rgw", False)):
            own = STOCK[name]
            with self.subTest(name=name):
                words = self.tools.put("osd", own["osd_dump"]), self.tools.put("crush", own["crush_dump"])
                output, error = self.ran("plan", *words, "--json")
                self.assertEqual(json.loads(output)["cluster"]["least"] >= 1.005, is_told)
                self.assertEqual("cluster at best: " in error, is_told)

    def test_plans_that_are_refused(self) -> None:
        """A pool that the balancer refuses is told where plans are asked for, and is not passed over in silence."""
        path, names, value, known = self.with_names("002-built")
        rule = value["rules"][0]
        twice = self.tools.put("twice", dict(value, rules=[dict(rule, steps=rule["steps"] * 2)]))
        why = "its rule takes OSDs in several steps, of which the balancer plans none (29 BalanceRule)"
        told = self.output("whatif", twice, "--out", "0", "--balance")
        self.assertIn(f"\npool 1 is not balanced: {why}\n", told)
        told = self.output("whatif", twice, "--out", "0", "--balance", "--names", names)
        wanted = f"pool 1 ({known['pools']['1']}) is not balanced: {why}"
        self.assertIn(f"\n{wanted}\n", told)
        for line in self.output("whatif", twice, "--each", "host", "--balance", "--names", names).splitlines():
            self.assertTrue(line.endswith(f"; {wanted}"), line)
        found = self.json("whatif", "twice", "--out", "0", "--balance")
        self.assertEqual(found["unbalanced"], [[1, "29 BalanceRule"]])
        self.assertTrue(
            re.search(
                r"<p>pool 1: no plan: its rule takes OSDs in several steps, .* \(29 BalanceRule\)</p>",
                self.output("report", "twice"),
            )
        )
        self.assertEqual(self.json("whatif", path, "--out", "0", "--balance")["unbalanced"], [])

    def test_help(self) -> None:
        """Every argument of every command has its help, and each form of `plan` its line of usage."""
        commands = re.findall("^    ([a-z]+) ", self.output("--help"), re.MULTILINE)
        self.assertEqual(len(commands), 24)
        for command in commands:
            usage, _, *parts = self.output(command, "--help", "--all").split("\n\n")
            listed = [
                line
                for part in parts
                if part.split("\n")[0].startswith(("positional arguments:", "options"))
                for line in part.split("\n")[1:]
                if line
            ]
            for line, behind in zip(listed, [*listed[1:], ""]):
                is_named = len(line) - len(line.lstrip()) == 2
                self.assertTrue(not is_named or "  " in line.strip() or behind.startswith(" " * 8), (command, line))
            if command == "plan":
                forms = [line.removeprefix("usage:").split("rekhuso plan ")[1] for line in usage.splitlines()]
                self.assertEqual([form.split(" [")[0] for form in forms], ["MAP", "OSD_DUMP CRUSH_DUMP"], usage)

    def test_difference_of_dumps(self) -> None:
        """`diff` takes the two dumps of each side, and tells from where to where places go, by the names that the
        dumps have."""
        own = copied(CLUSTERS["002-built"])
        before = self.tools.dumps("002-built")
        own["osd_dump"]["osds"][0]["weight"] = 0
        after = self.tools.put("after", own["osd_dump"]), before[1]
        status, output, error = self.tools.run("diff", *before, *after, "--json")
        told, osd = json.loads(output), own["osd_dump"]["osds"][0]["osd"]
        self.assertEqual((status, told["change"]["weight"]), (0, [[osd, 0]]), (output, error))
        self.assertTrue(told["flows"], (output, error))
        self.assertEqual(sum(flow[2] for flow in told["flows"]), told["places"])
        self.assertTrue(any(flow[0] == osd for flow in told["flows"]), told["flows"])
        lines = self.tools.run("diff", *before, *after)[1].splitlines()
        was, now, count = told["flows"][0]
        self.assertEqual(lines[1], f"{count} from osd.{was} to osd.{now}")
        self.assertEnds(lines[-1], " move")

    def test_title_of_a_page(self) -> None:
        """The title of a page is the cluster, where its OSD dump tells the id; else the name of the file."""
        osd, crush = self.tools.dumps("002-built")
        named = self.tools.put("named", dict(CLUSTERS["002-built"]["osd_dump"], fsid="d6cc54f9"))
        for files, title in (((named, crush), "Cluster d6cc54f9"), ((EXAMPLE,), str(EXAMPLE))):
            with self.subTest(title=title):
                page = self.tools.run("report", *files)[1]
                self.assertIn(f"<title>{title}</title>", page)
                self.assertIn(f"<h1>{title}</h1>", page)

    def test_order_of_places(self) -> None:
        """The places of a map at fault come in the same order each time, whatever seed Python's hashes have."""
        wrong = {key: part for key, part in example().items() if key not in ("rules", "epoch")}
        path = self.tools.put("wrong", wrong | {"more": 1, "other": 2, "pools": [{"id": 1}], "osds": [{"up": 1}]})
        found = []
        for seed in ("1", "2", "3", "4"):
            with mock.patch.dict(os.environ, {"PYTHONHASHSEED": seed}):
                found.append(self.tools.run("check", path)[2])
        self.assertGreater(len(found[0].splitlines()), 10)
        self.assertEqual(set(found), {found[0]})

    def test_words_of_numbers(self) -> None:
        """One thing is told as one, and no number as below 0 that is rounded to 0."""
        self.assertEqual([share_words(-1e-9), share_words(-0.01)], ["0.00 %", "-1.00 %"])
        self.assertEqual([counted(1, "group"), counted(2, "group")], ["1 group", "2 groups"])
        self.assertEqual([counted(0, "move"), counted(1, "move")], ["0 moves", "1 move"])
