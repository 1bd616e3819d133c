"""Groups that are held behind changes of the CRUSH map, and let go: beside the program, and beside a real monitor.

The monitor (Ceph 16.2.15) made each change of holds.json.gz, which has its dumps and up sets before, and the dumps
behind the change; it was then given the commands of `hold`, and what it had of sets and exceptions at the map after
them is kept too.
"""

from __future__ import annotations

import json
import pathlib
from collections import Counter

from rekhuso.words import counted

from tests.clusters import Json, commands, exceptions_in, exceptions_told, kept, raised, with_commands
from tests.tool_cases import StockCase

RECORDS = {(own["cluster"], own["change"]): own for own in kept("holds.json.gz")}
GROWN = next(own for own in kept("moves.json.gz") if own["change"] == "grow")
WEIGHT, OUT, BUILT = ("four_hosts", "weight"), ("four_hosts", "out1"), "001-three-hosts"
BEGIN, END = ["ceph balancer off", "ceph osd set norebalance"], "ceph osd unset norebalance"


def lines_in(script: str) -> list[str]:
    """The commands on exceptions in a script."""
    return [line for line in commands(script) if "pg-upmap" in line]


def has_all(record: Json, group: str, now: list[int | None], was: list[int | None]) -> bool:
    """Whether a group has what it had: place by place in an erasure pool, in another the same OSDs."""
    kinds = {str(pool["pool"]): pool["type"] for pool in record["osd_dump"]["pools"]}
    return now == was if kinds[group.split(".")[0]] == 3 else set(now) - {None} == set(was) - {None}


def moved_in(record: Json) -> int:
    """How many groups a change moved in the monitor."""
    return sum(not has_all(record, group, now, record["up"][group][0]) for group, (now, _) in record["new_up"].items())


def sets_of(answers: dict[str, str]) -> dict[str, list[int | None]]:
    """The places of sets as the program writes them."""
    return {
        group: [None if osd == "none" else int(osd) for osd in answer.split(" ")[0].strip("[]").split(",")]
        for group, answer in answers.items()
    }


class Holds(StockCase):
    """Commands of `hold`."""

    def files(self, record: Json) -> list[pathlib.Path]:
        """The dumps before and behind a change."""
        keys = ("osd_dump", "crush_dump", "new_osd_dump", "new_crush_dump")
        return [self.tools.put(key, record[key]) for key in keys]

    def maps(self, *files: pathlib.Path) -> list[Json]:
        """The maps of a cluster, with all OSDs up."""
        own = json.loads(self.output("import", *files, "--json"))["maps"]
        return [raised(part["map"]) for part in own]

    def sets_under(self, maps: list[Json], lines: list[str]) -> dict[str, list[int | None]]:
        """The sets of all groups once commands are given, each over the map that has its pool."""
        found: dict[str, list[int | None]] = {}
        for value in maps:
            pools = {str(pool["id"]) for pool in value["pools"]}
            own = [line for line in lines if line.split(" ")[3].split(".")[0] in pools]
            found.update(sets_of(super().sets(with_commands(value, own))))
        return found

    def test_rule_of_no_weight(self) -> None:
        """Groups of a pool for which all that its rule takes gets the weight 0 are told as left, as the program keeps
        no exception of theirs; the hold is put out all the same."""
        record = RECORDS["takes", "rulerack"]
        files = [self.tools.put(key, record[key]) for key in ("osd_dump", "crush_dump")]
        told = self.json("hold", *files, "--weight", "d0h0=0")
        found = {own["group"]: own["step"] for own in told["left"] if own["group"].startswith("4.")}
        self.assertTrue(found)
        self.assertEqual(set(found.values()), {"an OSD that weighs 0"})

    def test_program(self) -> None:
        """Under the exceptions that `hold` tells each group has the set of the monitor from before the change, by the
        program; or it is told as left with the set that it gets, or as getting a place that it lacked."""
        for key, record in RECORDS.items():
            with self.subTest(key=key):
                files = self.files(record)
                told = self.json("hold", *files)
                now = self.sets_under(self.maps(*files[2:]), told["commands"])
                left = {own["group"]: own for own in told["left"]}
                more = []
                for group, (was, _) in record["up"].items():
                    if group in left:
                        self.assertEqual((left[group]["was"], left[group]["now"]), (was, now[group]), group)
                        self.assertTrue(left[group]["step"] and left[group]["why"], group)
                    elif not has_all(record, group, now[group], was):
                        self.assertLess(set(was) - {None}, set(now[group]), group)
                        more.append(group)
                self.assertEqual(len(more), told["filled"]["groups"])

    def test_monitor(self) -> None:
        """The monitor took every command and kept every exception, and its sets are then what is told; what would
        have moved is what moved in it."""
        for key, record in RECORDS.items():
            with self.subTest(key=key):
                told = self.json("hold", *self.files(record))
                self.are_needed(record, told["commands"])
                self.assertEqual(record["refused"], 0)
                was = {group: entry[0] for group, entry in record["up"].items()}
                held = {**was, **{group: entry[0] for group, entry in record["held_up"].items()}}
                elsewhere = {group for group in was if not has_all(record, group, held[group], was[group])}
                left = {own["group"] for own in told["left"]}
                self.assertEqual(len(elsewhere - left), told["filled"]["groups"])
                self.assertEqual(told["groups"], moved_in(record))
                self.assertEqual(self.kept_in(record), record["kept"])

    def are_needed(self, record: Json, lines: list[str]) -> None:
        """Asks that commands are those that the monitor was given, but for such as change no set."""
        self.assertLessEqual(set(lines), set(record["given"]))
        if lines != record["given"]:
            maps = self.maps(*self.files(record)[2:])
            there = {entry[0] for value in maps for key in ("pg_upmap", "pg_upmap_items") for entry in value[key]}
            given = [line for line in record["given"] if " rm-" not in line or line.split(" ")[3] in there]
            self.assertEqual(self.sets_under(maps, lines), self.sets_under(maps, given))

    def kept_in(self, record: Json) -> Json:
        """The exceptions behind a change once the commands were given that the monitor was given."""
        before = exceptions_in(record["new_osd_dump"])
        there = {entry[0] for key in before for entry in before[key]}
        lines = [line for line in record["given"] if " rm-" not in line or line.split(" ")[3] in there]
        after = with_commands(before, lines)
        return {key: sorted(after[key], key=order_of) for key in before}

    def test_figures(self) -> None:
        """What was counted of the monitor's sets: how many groups would move, are held and cannot be, and by what."""
        for key, moving, held, left, step in (
            (WEIGHT, 191, 191, 0, ""),
            (OUT, 71, 11, 60, "an OSD that is out"),
            (("takes", "ruleclass"), 209, 193, 16, "step chooseleaf "),
            (("d_fourlevels", "weight"), 59, 1, 58, "step choose "),
            (("d_fourlevels", "ruleosd"), 128, 128, 0, ""),
            (("mask", "drain0"), 19, 6, 13, "an OSD that weighs 0"),
        ):
            with self.subTest(key=key):
                output, error = self.ran("hold", *self.files(RECORDS[key]))
                told = self.json("hold", *self.files(RECORDS[key]))
                self.assertEqual((told["groups"], told["held"], len(told["left"])), (moving, held, left))
                self.assertIn(f"{moving} groups and {told['places']} places move by the change alone; ", error)
                self.assertIn(f"; {held} of the groups {'is' if held == 1 else 'are'} held\n", error)
                for own in told["left"]:
                    self.assertStarts(own["step"], step)
                    self.assertIn(f": by {own['step']}: ", error)
                self.assertEqual(lines_in(output), told["commands"])

    def test_forms(self) -> None:
        """The three forms tell the same: by words, by both dumps, and by where the data is; by a CRUSH map too."""
        record = RECORDS[WEIGHT]
        files = self.files(record)
        wanted = self.json("hold", *files)["commands"]
        self.assertEqual(self.json("hold", *files[:2], "--crush", files[3])["commands"], wanted)
        stats = [
            {"pgid": group, "acting": [2**31 - 1 if osd is None else osd for osd in osds], "state": "active+remapped"}
            for group, (osds, _) in record["up"].items()
        ]
        for value in ({"pg_stats": stats}, {"pg_ready": True, "pg_map": {"pg_stats": stats}}):
            path = self.tools.put("pgs", value)
            self.assertEqual(self.json("hold", "--pgs", path, *files[2:])["commands"], wanted)

    def test_whatif(self) -> None:
        """`whatif` tells what moves by another CRUSH map as the monitor has it, and by --hold what a hold would
        leave."""
        record = RECORDS[OUT]
        files = self.files(record)
        told = self.json("whatif", *files[:2], "--out", "osd.1", "--hold")
        whole = self.json("hold", *files)
        self.assertEqual(told["hold"], {key: whole[key] for key in told["hold"]})
        self.assertNotIn("hold", self.json("whatif", *files[:2], "--out", "osd.1"))
        lines = self.output("whatif", *files[:2], "--out", "osd.1", "--hold").splitlines()
        self.assertTrue(any("60 groups cannot be held" in line for line in lines), lines)
        files = self.files(RECORDS[WEIGHT])
        told = self.json("whatif", *files[:2], "--crush", files[3])
        self.assertEqual(told["groups"], moved_in(RECORDS[WEIGHT]))

    def test_pools(self) -> None:
        """Words of pools: another rule, another size, more groups, which are those of the monitor's pools."""
        rule = RECORDS["takes", "ruleclass"]
        files = self.files(rule)
        names = {own["rule_id"]: own["rule_name"] for own in rule["new_crush_dump"]["rules"]}
        words: list[object] = ["--crush", files[3]]
        for pool in rule["new_osd_dump"]["pools"]:
            words += ["--pool", pool["pool_name"], f"rule={names[pool['crush_rule']]}"]
        told = self.json("whatif", *files[:2], *words)
        self.assertEqual(told["groups"], self.json("hold", *files)["groups"])
        size = RECORDS["b_shrink", "size_up"]
        files = self.files(size)
        words = []
        for pool in size["new_osd_dump"]["pools"]:
            words += ["--pool", pool["pool"], f"size={pool['size']}"]
        self.assertEqual(self.json("whatif", *files[:2], *words)["groups"], moved_in(size))
        pool = GROWN["new_osd_dump"]["pools"][-1]
        numbers = f"pg_num={pool['pg_num']},pgp_num={pool['pg_placement_num']}"
        files = self.files(GROWN)
        told = self.json("whatif", *files[:2], "--pool", "grown", numbers)
        growth = {"grow_pool": [[pool["pool"], pool["pg_num"], pool["pg_placement_num"]]]}
        self.assertEqual(told, self.json("whatif", *files[:2], json.dumps(growth)))
        told = self.json("hold", *files)
        self.assertEqual(told["held"], told["groups"])
        for own in (("--pool", "grown", numbers), ("--pool", "grown", "pgp_num=2"), (json.dumps(growth),)):
            with self.subTest(words=own):
                output, error = self.ran("hold", *files[:2], *own, status=1)
                self.assertEqual(output, "")
                self.assertStarts(error, "grown: the command for its pg_num or pgp_num only sets a target")

    def test_script(self) -> None:
        """The script turns the balancer off, keeps data where it is, waits for the change, and ends that; --undo brings
        back the exceptions that there were, whether or not all of the commands were given."""
        record = RECORDS[WEIGHT]
        files = self.files(record)
        text = self.output("hold", *files[:2], "--crush", files[3])
        come = [line for line in text.splitlines() if line.startswith("ceph ") or line == '"$@"']
        made = commands(self.output("hold", *files))
        lines = self.json("hold", *files)["commands"]
        self.assertEqual(come, [*BEGIN, '"$@"', *lines, END])
        self.assertEqual(made, [*BEGIN, *lines, END])
        text = self.output("hold", *files, "--undo")
        back = [line for line in text.splitlines() if line.startswith("ceph ") or line == '"$@"']
        self.assertEqual((back[:2], back[2], back[-1]), (BEGIN, '"$@"', END))
        value = self.maps(*files[2:])[0]
        for given in (lines, lines[: len(lines) // 2]):
            after = with_commands(value, given)
            there = {entry[0] for key in ("pg_upmap", "pg_upmap_items") for entry in after[key]}
            undo = [line for line in lines_in("\n".join(back)) if " rm-" not in line or line.split(" ")[3] in there]
            self.assertEqual(with_commands(after, undo), with_commands(value, []))

    def test_batches(self) -> None:
        """In files of so many commands, the first begins and the last ends what keeps data where it is."""
        files = self.files(RECORDS[WEIGHT])
        lines = self.json("hold", *files)["commands"]
        paths = self.output("hold", *files, "--batch", 100, "--to", "parts").splitlines()
        parts = [commands(pathlib.Path(self.tools.folder, path).read_text()) for path in paths]
        self.assertEqual(paths, [f"parts/hold-{at:03}.sh" for at in range(1, len(parts) + 1)])
        self.assertGreater(len(parts), 1)
        self.assertEqual((parts[0][:2], parts[-1][-1]), (BEGIN, END))
        self.assertEqual([line for part in parts for line in part if "pg-upmap" in line], lines)


def order_of(entry: Json) -> tuple[int, int]:
    """Where an exception stands among all."""
    pool, number = entry[0].split(".")
    return int(pool), int(number, 16)


class BadHolds(StockCase):
    """What `hold` and `release` do where they cannot do their work."""

    def built(self) -> list[pathlib.Path]:
        """The dumps of a stock cluster."""
        return list(self.dumps(BUILT))

    def test_use(self) -> None:
        """Words of which one would be passed over, or that say nothing, are errors of use."""
        files = self.built()
        for words, told in (
            (["hold", *files], "nothing is changed"),
            (["hold", files[0], "--out", "osd.1"], "hold takes the two dumps of today"),
            (["hold", *files, *files, "--out", "osd.1"], "--out does not go with four dumps"),
            (["hold", *files, *files, "--pgs", files[0]], "--pgs does not go with four dumps"),
            (["hold", "--pgs", files[0], *files, "--out", "osd.1"], "--out does not go with --pgs"),
            (["hold", *files, "--out", "osd.1", "--batch", "5"], "--batch goes with --to"),
            (["hold", *files, "--out", "osd.1", "--json", "--undo"], "--json tells the commands and their undoing"),
            (["hold", *files, "--pool", "rbd", "colour=red"], "argument --pool: colour=red: "),
            (["hold", *files, "--pool", "rbd", "size=0"], "argument --pool: size=0: "),
            (["hold", *files, "--pool", "rbd", "size=2,size=3"], "argument --pool: size=2,size=3: "),
            (["whatif", *files, "--hold"], "nothing is changed"),
            (["whatif", *files, "--out", "osd.1", "--hold", "--balance"], "--hold does not go with --balance"),
            (["release", files[0]], "release takes the two dumps of a cluster"),
            (["release", *files, "--batch", "5"], "--batch goes with --to"),
            (["release", *files, "--json", "--undo"], "--json tells the commands and their undoing"),
        ):
            with self.subTest(words=[str(word)[-12:] for word in words]):
                self.is_told(self.tools.run(*words), 2, told, words)

    def test_pools(self) -> None:
        """A pool, a rule or a number that is not there, and what Ceph refuses, are told."""
        files = self.built()
        for words, told in (
            (["nobody", "size=2"], "no pool nobody"),
            (["rbd", "rule=nobody"], "rbd: no rule nobody; there are replicated_rule"),
            (["rbd", "pg_num=1,pgp_num=1"], "rbd: 1 groups are fewer than its 128"),
            (["rbd", "pgp_num=129"], "rbd: pgp_num=129 is more than its 128 groups"),
        ):
            with self.subTest(told=told):
                self.is_told(self.tools.run("whatif", *files, "--pool", *words), 1, told, words)
        self.is_told(self.tools.run("whatif", *files, "--crush", files[0]), 2, "no CRUSH map as crushtool", files)
        self.is_told(self.tools.run("whatif", *files, "--crush", "none"), 2, "none: No such file", files)

    def test_two_sides(self) -> None:
        """Two sides of different clusters, or in the wrong order, are told."""
        record = RECORDS[WEIGHT]
        two = [self.tools.put("o", record["osd_dump"]), self.tools.put("c", record["crush_dump"])]
        other = RECORDS["takes", "ruleclass"]
        one = [self.tools.put("o1", other["osd_dump"]), self.tools.put("c1", other["crush_dump"])]
        _, error = self.ran("hold", *one, *two, status=1)
        self.assertStarts(error, "the two sides do not fit: ")
        fsids = [self.tools.put(f"f{at}", dict(record["osd_dump"], fsid=f"{at}-{at}")) for at in (1, 2)]
        found = self.tools.run("hold", fsids[0], two[1], fsids[1], two[1])
        self.is_told(found, 1, "different clusters: their fsid is 1-1, then 2-2", fsids)
        late = self.tools.put("late", dict(record["osd_dump"], epoch=record["osd_dump"]["epoch"] + 5))
        self.is_told(self.tools.run("hold", late, two[1], *two), 1, "the later side stands first: epoch ", late)

    def test_where_data_is(self) -> None:
        """A dump of groups of another form, without a pool or a group, or of another cluster, is told by its path."""
        record = RECORDS[WEIGHT]
        files = [self.tools.put("o", record["osd_dump"]), self.tools.put("c", record["crush_dump"])]
        stats = [{"pgid": group, "acting": osds} for group, (osds, _) in record["up"].items()]
        first = record["osd_dump"]["pools"][0]
        for value, told in (
            ({}, "pg_stats: missing"),
            ({"pg_stats": [{"pgid": "1.0"}]}, "pg_stats[0].acting: missing"),
            ({"pg_stats": [{"pgid": "x", "acting": []}]}, "pg_stats[0].pgid: no group"),
            ({"pg_stats": stats + stats[:1]}, "a group stands there twice"),
            (
                {"pg_stats": [own for own in stats if own["pgid"].split(".")[0] != str(first["pool"])]},
                f"no group of pool {first['pool']}",
            ),
            ({"pg_stats": [own for own in stats if own["pgid"] != "2.1"]}, "no group 2.1"),
            ({"pg_stats": [*stats, {"pgid": "99.0", "acting": [1]}]}, "the cluster has no pool 99"),
        ):
            with self.subTest(told=told):
                path = self.tools.put("pgs", value)
                self.is_told(self.tools.run("hold", "--pgs", path, *files), 1, f"{path}: {told}", told)

    def test_moving_clusters(self) -> None:
        """A cluster that is degraded, or of which 5 % of the places are still to move, is told first, and held or
        released with --anyway alone; fewer places are told alone."""
        record = RECORDS[WEIGHT]
        sets = {group: entry[0] for group, entry in record["up"].items()}
        places, few = sum(map(len, sets.values())), sum(map(len, sets.values())) // 20
        away = [
            {"pgid": group, "osds": [next(osd for osd in range(9) if osd not in own), *own[1:]]}
            for group, own in sets.items()
        ]
        moving, still = (dict(record["osd_dump"], pg_temp=away[:count]) for count in (few + 1, few))
        down = dict(record["osd_dump"], osds=[dict(osd, up=int(osd["osd"] != 3)) for osd in moving["osds"]])
        crush, new = self.tools.put("c", record["crush_dump"]), self.tools.put("n", record["new_crush_dump"])
        path, line = self.tools.put("o", still), f"the cluster moves already: {few} groups are served by temporary sets"
        for words in (["hold", path, crush, "--crush", new], ["release", path, crush]):
            output, error = self.ran(*words)
            self.assertStarts(error, f"{line} (pg_temp), and {few} of {places} places are still to move")
            self.assertTrue(lines_in(output))
        line = f"the cluster moves already: {few + 1} groups are served by temporary sets (pg_temp), and "
        for dump, told in ((moving, line), (down, "an outage: 1 OSD is")):
            path = self.tools.put("o", dump)
            for words, what in (
                (["hold", path, crush, "--crush", new], "held"),
                (["release", path, crush], "released"),
            ):
                with self.subTest(told=told, what=what):
                    output, error = self.ran(*words, status=11)
                    self.assertEqual(output, "")
                    self.assertStarts(error, told)
                    self.assertEnds(error, f"nothing is {what}: --anyway does it nonetheless\n")
                    output, error = self.ran(*words, "--anyway")
                    self.assertStarts(error, told)
                    self.assertTrue(lines_in(output))
        stats = [
            {"pgid": group, "acting": osds, "state": "active+undersized"} for group, (osds, _) in record["up"].items()
        ]
        path = self.tools.put("pgs", {"pg_stats": stats})
        _, error = self.ran("hold", "--pgs", path, self.tools.put("o", record["new_osd_dump"]), new, status=11)
        self.assertStarts(error, f"{path}: {len(stats)} groups are degraded or not active")


class Releases(StockCase):
    """Commands of `release`."""

    def setUp(self) -> None:
        super().setUp()
        record = RECORDS[WEIGHT]
        dump = {**record["new_osd_dump"], **exceptions_told(**record["kept"])}
        self.record = record
        self.files = self.tools.put("held", dump), self.tools.put("crush", record["new_crush_dump"])
        self.value = json.loads(self.output("import", *self.files))

    def held(self, value: Json) -> dict[str, list[int | None]]:
        """The sets of a map."""
        return sets_of(super().sets(value))

    def in_order(self, told: Json) -> tuple[Json, dict[str, list[int | None]]]:
        """The map and its sets once each part is given; asks that each moves what it tells, and a group never twice."""
        now, moved, first = self.value, set[str](), self.held(self.value)
        after = first
        for part in told["parts"]:
            before, now = after, with_commands(now, part["commands"])
            after, high = self.held(now), Counter(osd for places in before.values() for osd in set(places))
            come = [osd for group in before for osd in set(after[group]) - set(before[group])]
            high.update(come)
            own = {group for group in before if set(after[group]) != set(before[group])}
            self.assertFalse(own & moved)
            moved |= own
            self.assertEqual((part["moving"]["groups"], part["moving"]["places"]), (len(own), len(come)))
            if come:
                self.assertEqual(part["peak"]["groups"], max(high[osd] for osd in come))
        most = [max(Counter(osd for own in sets.values() for osd in set(own)).values()) for sets in (first, after)]
        self.assertEqual([told["fullest"]["before"], told["fullest"]["after"]], most)
        return now, after

    def test_plain(self) -> None:
        """Part by part a release ends at what the rules alone give, as the monitor had it behind the change where no
        exception was; the undoing of each part ends where it began."""
        told = self.json("release", *self.files, "--batch", 80)
        self.assertGreater(len(told["parts"]), 2)
        end, _ = self.in_order(told)
        self.assertEqual((end["pg_upmap"], end["pg_upmap_items"]), ([], []))
        undo = [line for part in reversed(told["parts"]) for line in part["undo"]]
        self.assertEqual(with_commands(end, undo), with_commands(self.value, []))

    def test_keep(self) -> None:
        """With the dump from behind the change and before the hold, the sets are in the end those of the monitor
        then."""
        dump = self.tools.put("kept", self.record["new_osd_dump"])
        told = self.json("release", *self.files, "--before", dump, "--batch", 80)
        _, found = self.in_order(told)
        was = {group: entry[0] for group, entry in {**self.record["up"], **self.record["new_up"]}.items()}
        self.assertEqual({group: set(places) for group, places in found.items()}, {g: set(was[g]) for g in was})
        self.assertEqual(told["moving"]["groups"], moved_in(self.record))

    def test_stays(self) -> None:
        """Groups for which the rule finds fewer places, as in the monitor behind the change, stay held, and are told;
        so they do on the way to a plan."""
        record = RECORDS["takes", "rulerack"]
        dump = {**record["new_osd_dump"], **exceptions_told(record["kept"]["pg_upmap"])}
        files = self.tools.put("whole", dump), self.tools.put("racks", record["new_crush_dump"])
        new = record["new_up"]
        short = [group for group, own in record["up"].items() if group in new and len(new[group][0]) < len(own[0])]
        self.assertGreater(len(short), 100)
        for more in ("", "--to-plan"):
            told = self.json("release", *files, *more.split())
            self.assertEqual((sorted(told["stay"]), told["parts"]), (sorted(short), []))
        _, error = self.ran("release", *files)
        self.assertIn(f"{len(short)} groups stay held, as they would have fewer places without: ", error)

    def test_to_plan(self) -> None:
        """Straight to a plan: the end is what `plan` makes of the cluster without the hold, and nothing is left to
        plan there."""
        plain = dict(json.loads(self.files[0].read_text()), pg_upmap=[], pg_upmap_items=[])
        files = self.tools.put("plain", plain), self.files[1]
        lines = lines_in(self.output("plan", *files))
        end = with_commands(json.loads(self.output("import", *files)), lines)
        told = self.json("release", *self.files, "--to-plan", "--batch", 100)
        self.assertEqual(self.in_order(told)[1], self.held(end))

    def test_scripts(self) -> None:
        """The scripts have the commands of the parts, what each moves and its peak; --undo those that take them
        back."""
        told = self.json("release", *self.files, "--batch", 40)
        paths = self.output("release", *self.files, "--batch", 40, "--to", "parts").splitlines()
        self.assertEqual(len(paths), len(told["parts"]))
        backs = self.output("release", *self.files, "--batch", 40, "--to", "parts", "--undo").splitlines()
        for at, (path, back, part) in enumerate(zip(paths, backs, told["parts"]), 1):
            text = (self.tools.folder / path).read_text()
            self.assertEqual((path, back), (f"parts/release-{at:03}.sh", f"parts/undo-{at:03}.sh"))
            self.assertEqual(commands(text), part["commands"])
            self.assertEqual(commands((self.tools.folder / back).read_text()), part["undo"])
            groups, places = counted(part["moving"]["groups"], "group"), counted(part["moving"]["places"], "place")
            self.assertIn(f": {groups} and {places} move, by ", text)
            self.assertIn(f"osd.{part['peak']['osd']} has most groups meanwhile, {part['peak']['groups']}, ", text)
        output, error = self.ran("release", *self.files)
        self.assertEqual(sorted(commands(output)), sorted(line for part in told["parts"] for line in part["commands"]))
        self.assertIn(" in 1 part, each group once", error)
