"""Groups that are chosen to be held or let go, pools that are chosen to be planned, holds that hold nothing, and
commands that would change no set."""

from __future__ import annotations

import json
import pathlib
import re
from collections.abc import Callable

from tests.ceph_monitor import WORST
from tests.clusters import Json, commands, copied, exceptions_told, kept
from tests.drains import come_in, reweighted
from tests.holds import RECORDS, WEIGHT, lines_in, sets_of
from tests.tool_cases import StockCase


def has_no_order(pairs: list[Json]) -> bool:
    """Whether pairs lead to one set in whatever order they stand."""
    return not {pair["from"] for pair in pairs} & {pair["to"] for pair in pairs}


class Chosen(StockCase):
    """`hold` and `release` of some groups."""

    def files(self, record: Json) -> list[pathlib.Path]:
        """The dumps before and behind a change."""
        keys = ("osd_dump", "crush_dump", "new_osd_dump", "new_crush_dump")
        return [self.tools.put(key, record[key]) for key in keys]

    def test_holds(self) -> None:
        """Of a change the chosen groups are held, as without a choice, and the others are told as left with the sets
        that they get, which are the monitor's."""
        record = RECORDS[WEIGHT]
        files = self.files(record)
        whole = self.json("hold", *files)
        was = {group: entry[0] for group, entry in record["up"].items()}
        new = {**was, **{group: entry[0] for group, entry in record["new_up"].items()}}
        below = {item["id"] for own in record["crush_dump"]["buckets"] if own["name"] == "h1" for item in own["items"]}
        wanted: dict[str, tuple[str, Callable[[str], bool]]] = {
            "--of-pg": ("2.0,2.1,2.2", lambda group: group in ("2.0", "2.1", "2.2")),
            "--of-osd": ("osd.3,4", lambda group: bool({3, 4} & {*was[group]})),
            "--of-host": ("h1", lambda group: bool(below & {*was[group]})),
            "--of-class": ("hdd", lambda group: True),
            "--of-pool": ("2", lambda group: group.startswith("2.")),
        }
        for option, (word, is_chosen) in wanted.items():
            with self.subTest(option=option):
                told = self.json("hold", *files, option, word)
                own = [line for line in whole["commands"] if is_chosen(line.split(" ")[3])]
                self.assertEqual([line for line in told["commands"] if " rm-" not in line], own)
                left = {entry["group"]: entry for entry in told["left"]}
                self.assertFalse([group for group in left if is_chosen(group)])
                for group, entry in left.items():
                    self.assertEqual((entry["was"], entry["now"]), (was[group], new[group]), group)
                    self.assertEqual(entry["step"], "the choice of groups")

    def test_words(self) -> None:
        """Words that name nothing are told."""
        record = RECORDS[WEIGHT]
        files = self.files(record)
        for option, word, told in (
            ("--of-pg", "2.0,9.9", "no group 9.9"),
            ("--of-osd", "osd.99", "osd.99: no OSD of the map"),
            ("--of-host", "nobody", "nobody: no OSD of the map, nor a bucket"),
            ("--of-class", "tape", "no OSD of device class tape; there are hdd"),
            ("--of-pool", "nobody", "no pool nobody"),
        ):
            for words in (["hold", *files], ["release", *files[:2]]):
                self.is_told(self.tools.run(*words, option, word), 1, told, words)
        self.is_told(self.tools.run("release", *files[:2], "--from", "osd.99"), 1, "osd.99: no OSD of the map", files)

    def test_torn(self) -> None:
        """Of a cluster some of whose groups are degraded the others are held as ever where the data is told; these stay
        as they are, and are told. With --anyway they are held too."""
        record = RECORDS[WEIGHT]
        files = self.files(record)[2:]
        torn = sorted(group for group in record["new_up"] if group.endswith("1"))
        stats = [
            {
                "pgid": group,
                "acting": osds,
                "state": "active+undersized+degraded" if group in torn else "active+clean+remapped",
            }
            for group, (osds, _) in record["up"].items()
        ]
        path = self.tools.put("pgs", {"pg_stats": stats})
        whole = self.json("hold", "--pgs", path, *files, "--anyway")
        told = self.json("hold", "--pgs", path, *files)
        of_torn = [line for line in whole["commands"] if line.split(" ")[3] in torn]
        self.assertTrue(of_torn)
        self.assertEqual(told["commands"], [line for line in whole["commands"] if line not in of_torn])
        self.assertEqual({entry["group"] for entry in told["left"]}, set(torn))
        _, error = self.ran("hold", "--pgs", path, *files)
        self.assertIn(f"{path}: {len(torn)} groups are degraded or not active: ", error)
        self.assertIn("; they stay as they are\n", error)

    def test_affinities(self) -> None:
        """Where affinities choose primaries, these stand first in the sets that are told: no command has more pairs
        than by the dumps of before, which tell no such order."""
        own = WORST["affinity"]
        osds = [
            item["id"] for bucket in own["crush_dump"]["buckets"] if bucket["name"] == "h1" for item in bucket["items"]
        ]
        new = self.tools.put("n", reweighted(own["crush_dump"], dict.fromkeys(osds, 3.0)))
        files = [self.tools.put("o", own["osd_dump"]), self.tools.put("c", own["crush_dump"])]
        stats = [{"pgid": group, "acting": osds, "state": "active+clean"} for group, (osds, _) in own["up"].items()]
        path = self.tools.put("pgs", {"pg_stats": stats})
        told, wanted = self.json("hold", "--pgs", path, files[0], new), self.json("hold", *files, files[0], new)
        self.assertGreater(len(wanted["commands"]), 10)
        for key in ("undo", "groups", "places", "held", "left"):
            self.assertEqual(told[key], wanted[key], key)
        lines, others = (
            {line.split(" ")[3]: line.split(" ")[4:] for line in own["commands"]} for own in (told, wanted)
        )
        self.assertEqual(lines.keys(), others.keys())
        longer = {group: (own, others[group]) for group, own in lines.items() if len(own) > len(others[group])}
        self.assertEqual(longer, {})

    def held(self) -> tuple[Json, list[pathlib.Path]]:
        """A cluster whose groups are held behind a change, and its dumps."""
        record = RECORDS[WEIGHT]
        dump = {**record["new_osd_dump"], **exceptions_told(**record["kept"])}
        return dump, [self.tools.put("held", dump), self.tools.put("crush", record["new_crush_dump"])]

    def test_releases(self) -> None:
        """Of held groups the chosen ones are let go as all would be; with --from those that leave an OSD then."""
        _, files = self.held()
        whole = self.json("release", *files)["parts"][0]["commands"]
        record = RECORDS[WEIGHT]
        was = {**{group: entry[0] for group, entry in record["up"].items()}}
        was.update({group: entry[0] for group, entry in record["held_up"].items()})
        bare = copied(record["new_osd_dump"])
        bare["pg_upmap"], bare["pg_upmap_items"] = [], []
        value = self.output("import", self.tools.put("bare", bare), files[1])
        to = sets_of(self.tools.sets(json.loads(value), "--stock"))
        for option, word, wanted in (
            ("--of-osd", "osd.5", [group for group in was if 5 in was[group]]),
            ("--of-pg", "2.0,2.1", ["2.0", "2.1"]),
            ("--from", "osd.5", [group for group in was if 5 in {*was[group]} - {*to[group]}]),
        ):
            with self.subTest(option=option):
                told = self.json("release", *files, option, word)
                lines = [line for part in told["parts"] for line in part["commands"]]
                self.assertEqual(sorted(lines), sorted(line for line in whole if line.split(" ")[3] in wanted))
                self.assertTrue(lines)
        own = {"osd_dump": record["new_osd_dump"]}
        moved = {group: to[group] for group in wanted}
        self.assertFalse({osd for _, osd in come_in(own, was, {**was, **moved})} & {5})

    def test_nothing(self) -> None:
        """Where nothing can be held, that is told first, with what can be in its place, as it does when it is tried;
        there is no script. The way back is put out all the same."""
        own = WORST["affinity"]
        files = [self.tools.put("o", own["osd_dump"]), self.tools.put("c", own["crush_dump"])]
        for words in (["--weight", "h1=0"], ["--out", "h1"], ["--reweight", "h1", "0"]):
            output, error = self.ran("hold", *files, *words, status=1)
            first, second, *_ = error.splitlines()[-4:]
            found = re.fullmatch(r"`(.*)` in its place holds ([0-9]+) of ([0-9]+) groups: `drain` begins .*", second)
            assert found is not None, error
            self.assertEqual(output, "")
            self.assertTrue(first.startswith("nothing is held: of ") and first.endswith(" none can be"), first)
            told = self.json("hold", *files, *found[1].split(" "))
            self.assertEqual((str(told["held"]), str(told["groups"]), told["left"]), (found[2], found[3], []))
        commands(self.output("hold", *files, "--out", "h1", "--undo"))

    def test_none_chosen(self) -> None:
        """Where none of the groups that would move is chosen, nothing is held: status 1, no script, also as JSON."""
        record = RECORDS[WEIGHT]
        files, was, now = self.files(record), record["up"], record["new_up"]
        still = next(group for group in was if was[group] == now.get(group, was[group]))
        for words in (
            ["--of-pg", still],
            ["--of-pg", still, "--json"],
            ["--of-pg", still, "--to", self.tools.folder / "none.sh"],
        ):
            status, output, error = self.tools.run("hold", *files, *words)
            last = error.splitlines()[-1]
            self.assertRegex(last, "^nothing is held: of [0-9]+ groups that would move none is chosen$")
            self.assertEqual(status, 1, error)
            told = json.loads(output)["refused"] if "--json" in words else output
            self.assertEqual(told, {"code": "refused", "status": 1, "why": [last]} if "--json" in words else "")
        self.assertFalse((self.tools.folder / "none.sh").exists())

    def test_nothing_but_before(self) -> None:
        """Where nothing can be held and all of it can be moved before the change, that is told."""
        own, new = WORST["racks"], self.tools.put("new", kept("prepared.json.gz")["new_crush_dump"])
        files = [self.tools.put("o", own["osd_dump"]), self.tools.put("c", own["crush_dump"])]
        left = [entry["group"] for entry in self.json("hold", *files, "--crush", new)["left"]]
        _, error = self.ran("hold", *files, "--crush", new, "--of-pg", ",".join(left), status=1)
        first, second, *_ = error.splitlines()
        self.assertTrue(first.startswith("nothing is held: of "), first)
        told = f"`--prepare` moves {len(left)} groups before the change, and a hold then leaves 0 groups"
        self.assertEqual(second, told)

    def test_idle_commands(self) -> None:
        """Pairs that lead to the set that a group has are left as they are, in whatever order they stand."""
        dump, files = self.held()
        two = [own for own in dump["pg_upmap_items"] if len(own["mappings"]) > 1 and has_no_order(own["mappings"])]
        self.assertTrue(two)
        for own in two:
            own["mappings"].reverse()
        turned = self.tools.put("turned", dump)
        for path in (files[0], turned):
            output, error = self.ran("hold", path, files[1], path, files[1])
            self.assertEqual(lines_in(output), [], error)
            self.assertEqual(commands(output), [])


class ChosenPools(StockCase):
    """`plan` of the pools of some device classes."""

    def files(self) -> list[pathlib.Path]:
        """The dumps of a cluster of two classes, with a pool for each of them and one across both."""
        own = WORST["tiers"]
        return [self.tools.put("o", own["osd_dump"]), self.tools.put("c", own["crush_dump"])]

    def test_classes(self) -> None:
        """The pools of the classes are planned as by their names, those across are told; of a map by its names too."""
        files = self.files()
        output, error = self.ran("plan", *files, "--of-class", "ssd")
        self.assertStarts(error, "not planned: device_health_metrics, which has places on OSDs of other device classes")
        wanted = commands(self.output("plan", *files, "--of-pool", "hot"))
        self.assertEqual(commands(output), wanted)
        self.assertTrue(wanted)
        both = self.json("plan", *files, "--of-class", "hdd,ssd")
        self.assertEqual(both["commands"], self.json("plan", *files)["commands"])
        names, value = self.tools.folder / "names", self.tools.folder / "map"
        value.write_text(self.output("import", *files, "--pools", "2,3", "--names", names))
        words = ["plan", value, "--names", names]
        output = self.output(*words, "--of-class", "ssd")
        self.assertEqual(commands(output), commands(self.output(*words, "--of-pool", "hot")))
        alone = self.json("plan", *files, "--of-class", "ssd", "--alone")
        self.assertEqual([pool["name"] for pool in alone["pools"]], ["hot"])

    def test_words(self) -> None:
        """A class that no OSD has, and one that no named pool has, are told."""
        files = self.files()
        for words, told in (
            (["--of-class", "tape"], "no OSD of device class tape; there are hdd, ssd"),
            (
                ["--of-class", "hdd", "--of-pool", "hot"],
                "no pool of several groups lies on OSDs of device class hdd alone",
            ),
        ):
            self.is_told(self.tools.run("plan", *files, *words), 1, told, words)
