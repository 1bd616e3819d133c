"""The tools over clusters of Ceph 18.2 (Reef), and primaries that are named for groups (`pg_upmap_primaries`).

reef.json.gz has clusters that a real monitor (18.2.7) made and dumped, of which keys that nobody reads here were left
out; records of commands that it was given, with the exceptions that it then took away and the up sets that it then had;
and rows of single groups with a named primary, as its `osdmaptool` placed them.
"""

from __future__ import annotations

import base64
import json
import pathlib
from typing import Any

from rekhuso.cluster.affinity import with_affinity
from rekhuso.cluster.cleanup import mapped_set
from rekhuso.cluster.judge import Present
from rekhuso.cluster.primaries import idle_words, with_first
from rekhuso.cluster.view import view_of
from rekhuso.command_line import parser
from rekhuso.commands.whatif import commands_of, options_of
from rekhuso.plans.question import Balance, Question, balanced_sets, sets_of
from rekhuso.program.answers import Up
from rekhuso.program.maps import Pool

from tests.cases import Case
from tests.clusters import Json, commands, copied, kept
from tests.reef_tools import ReefMonitor, reef_tools
from tests.tool_cases import StockCase

DATA = kept("reef.json.gz")
REEF, RECORDS, ROWS = DATA["clusters"], DATA["records"], DATA["rows"]
# What is taken of a cluster that stays out otherwise.
SOME = {"erasure": "1,2,3"}
NAMED = {name: own["osd_dump"]["pg_upmap_primaries"] for name, own in REEF.items()}


def named(cluster: str) -> dict[str, int]:
    """The primaries that are named for groups of a cluster."""
    return {entry["pgid"]: entry["primary_osd"] for entry in NAMED[cluster]}


def up_of_row(row: Json) -> Up:
    """The up set of a row's group, by what its rule gives."""
    osds, explicit, number = (range(64), row["pg_upmap"], int(row["pgid"].split(".")[1], 16))
    present = Present({}, {osd: 0 if osd in row["out"] else 65536 for osd in osds}, len(osds))
    places = mapped_set(row["raw"], explicit, row["pg_upmap_items"], present)
    if idle_words(row["primary_osd"], places, explicit, present) is None:
        places = with_first(places, row["primary_osd"])
    up = [osd for osd in places if osd not in row["down"]]
    pool = Pool(id=int(row["pgid"].split(".")[0]), kind="replicated", pg_num=0, pgp_num=row["pgp_num"], rule=0, size=0)
    affinities = {int(osd): round(65536 * own) for osd, own in row["affinity"].items()}
    return with_affinity(pool, number, Up(0, up, up[0] if up else None), affinities)


class NamedPrimaries(Case):
    """Single groups with a named primary."""

    def test_rows(self) -> None:
        """Each group has Reef's up set and primary, with its exceptions, OSDs out and down, and affinities."""
        self.assertGreater(len(ROWS), 100)
        for row in ROWS:
            with self.subTest(row=row):
                up = up_of_row(row)
                self.assertEqual([up.places, up.primary], [row["up"], row["up_primary"]])


class ReefCase(StockCase):
    """Tests over clusters of Reef."""

    def files(self, name: str) -> tuple[pathlib.Path, pathlib.Path]:
        """The dumps of a cluster as files."""
        return self.dumps(name, REEF[name])

    def question(self, *words: object) -> tuple[Question, Any]:
        """What `whatif` is asked over a cluster by some words, and its options."""
        given = ["whatif", *map(str, words), "--program", str(self.tools.program)]
        options = options_of(parser().parse_args(given))
        return Question(view_of(options.source), options.source.program), options

    def is_as_in_reef(self, ups: dict[str, Up], wanted: Json, what: object) -> None:
        """Asks that up sets and primaries are those that Reef has."""
        found = {group: [up.places, -1 if up.primary is None else up.primary] for group, up in ups.items()}
        unlike = [(group, wanted[group], found.get(group)) for group in wanted if found.get(group) != wanted[group]]
        self.assertEqual((len(unlike), unlike[:3]), (0, []), what)
        self.assertEqual(found.keys(), wanted.keys(), what)


class Reef(ReefCase):
    """What the tools say of clusters of Reef."""

    def test_up_sets(self) -> None:
        """Every up set and primary is Reef's, also where primaries are named; in an erasure pool such an entry, which
        no command takes, acts too."""
        for name in REEF:
            with self.subTest(name=name):
                words = ["--pools", SOME[name]] if name in SOME else []
                question, _ = self.question(*self.files(name), "{}", *words)
                pools = SOME[name].split(",") if name in SOME else None
                wanted = {
                    group: own for group, own in REEF[name]["up"].items() if not pools or group.split(".")[0] in pools
                }
                self.is_as_in_reef(question.before, wanted, name)

    def test_commands(self) -> None:
        """The up sets and primaries after commands are Reef's, and so are the exceptions that go. The groups whose
        entry then does nothing are told."""
        for record in RECORDS:
            name = record["cluster"]
            with self.subTest(name=name, words=record["words"]):
                question, options = self.question(*self.files(name), *record["words"])
                told, now = question.result(commands_of(options, question))
                after = question.as_in_ceph(now, sets_of(now, self.tools.program))
                self.is_as_in_reef(after, {**REEF[name]["up"], **record["up"]}, record["words"])
                self.assertEqual(sorted(told["exceptions"]["gone"]), record["gone"])
                self.assertEqual(sorted(told["exceptions"]["fewer"]), record["fewer"])
                self.assertEqual(set(told["idle_primaries"]), self.idle_then(record))

    def idle_then(self, record: Json) -> set[str]:
        """The groups whose named primary stood in the up set and does not stand there after a record's commands, which
        do not have it down."""
        was, words = REEF[record["cluster"]]["up"], record["words"]
        down = {osd for word, osd in zip(words, words[1:]) if word == "--down"}
        return {
            group
            for group, osd in named(record["cluster"]).items()
            if osd in was[group][0] and osd not in record["up"].get(group, was[group])[0] and f"osd.{osd}" not in down
        }

    def test_explain(self) -> None:
        """`explain` tells what a named primary does to the set, in a line and as JSON, or why it does nothing."""
        own = copied(REEF["primaries_pairs"])
        own["osd_dump"]["pg_upmap_primaries"] += [
            {"pgid": "2.0", "primary_osd": 99},
            {"pgid": "2.3", "primary_osd": REEF["primaries_pairs"]["up"]["2.3"][0][0]},
        ]
        files = self.dumps("explained", own)
        up = REEF["primaries_pairs"]["up"]
        for group, osd, idle, line in (
            ("2.1", 21, None, "osd.21, changes places with the first: [21,16,15]"),
            ("2.5", 0, None, "osd.0, changes places with the first: [0,9,20]"),
            ("2.0", 99, "osd.99 does not stand in the set", "osd.99, does nothing: osd.99 does not stand in the set"),
            ("2.3", up["2.3"][0][0], None, f"osd.{up['2.3'][0][0]}, is the first already"),
        ):
            with self.subTest(group=group):
                self.assertIn(f"\nthe primary named for it, {line}\n", self.output("explain", *files, group))
                told = self.json("explain", *files, group)
                self.assertEqual([told["up"], told["up_primary"]], up[group])
                entry = told["pg_upmap_primaries"]
                self.assertEqual((entry["osd"], entry["idle"]), (osd, idle))
        self.assertIsNone(self.json("explain", *files, "2.4")["pg_upmap_primaries"])
        self.assertNotIn("the primary named", self.output("explain", *files, "2.4"))

    def test_idle_entries(self) -> None:
        """An entry of a pool or a group that is not there, or of an OSD that does not exist or stands elsewhere,
        changes nothing and keeps nobody out."""
        own = copied(REEF["plain"])
        own["osd_dump"]["pg_upmap_primaries"] = [
            {"pgid": group, "primary_osd": osd} for group, osd in (("9.0", 1), ("2.fff", 1), ("2.0", 99), ("2.1", -1))
        ]
        stands = next(osd for osd in range(24) if osd not in own["up"]["2.2"][0])
        own["osd_dump"]["pg_upmap_primaries"].append({"pgid": "2.2", "primary_osd": stands})
        question, _ = self.question(*self.dumps("idle", own), "{}")
        self.is_as_in_reef(question.before, own["up"], "idle")

    def test_import(self) -> None:
        """A map leaves the entries out, which is told."""
        output, error = self.ran("import", *self.files("read_primaries"))
        self.assertNotIn("primaries", output)
        self.assertIn(
            "left out: 8 primaries named by pg_upmap_primaries: `up` lines over the map tell primaries, ", error
        )

    def test_primaries_counted(self) -> None:
        """`df` counts primaries as Reef has them."""
        told, up = self.json("df", *self.files("temps")), REEF["temps"]["up"].values()
        for own in (own for own in told["nodes"] if own["id"] >= 0):
            self.assertEqual(own["primaries"], sum(primary == own["id"] for _, primary in up))

    def test_diff(self) -> None:
        """`diff` says that no change says named primaries, and of which groups they differ."""
        files, own = self.files("read_primaries"), copied(REEF["read_primaries"])
        entries = own["osd_dump"]["pg_upmap_primaries"]
        gone = entries.pop()["pgid"]
        other = self.dumps("other", own)
        line = f"1 group has another entry in pg_upmap_primaries, or none: {gone}"
        self.assertIn(f"\nno change says: {line}\n", self.output("diff", *files, *other))
        self.assertEqual(self.json("diff", *files, *other)["unsaid"], [line])
        self.assertEqual(self.json("diff", *files, *files)["unsaid"], [])

    def test_pool_that_goes(self) -> None:
        """The entries of a pool go with it, and are told as idle no more than those that stay."""
        change = json.dumps({"old_pools": [2]})
        question, options = self.question(*self.files("read_primaries"), change)
        told, now = question.result(commands_of(options, question))
        self.assertEqual(told["idle_primaries"], [])
        assert now.found is not None
        left = now.found.cluster.osd_dump.get("pg_upmap_primaries")
        self.assertEqual(left, [entry for entry in NAMED["read_primaries"] if not entry["pgid"].startswith("2.")])

    def test_plans(self) -> None:
        """A plan tells of which groups the named primary then does nothing: those that it moves off this OSD."""
        files = self.files("primaries_pairs")
        output, error = self.ran("plan", *files, "--anyway", "--deviation", "0.5")
        told = self.json("plan", *files, "--anyway", "--deviation", "0.5")
        self.assertEqual(told["commands"], commands(output))
        moved = self.json("whatif", *files, "--anyway", "--balance")
        left = {
            line.split(" ")[3]
            for line in commands(output)
            if str(named("primaries_pairs").get(line.split(" ")[3], "")) in line.split(" ")[4::2]
        }
        self.assertTrue(left)
        self.assertEqual(set(told["idle_primaries"]), left)
        self.assertIn("named by pg_upmap_primaries", error)
        self.assertLessEqual(set(moved["idle_primaries"]), left)

    def test_clients(self) -> None:
        """The head of a plan has clients know upmap where the dump says that older ones may come, and where it says
        nothing, then with a caution; not where it would lower what the dump says."""
        line, own = "ceph osd set-require-min-compat-client luminous", copied(REEF["plain"])
        for release, is_told, is_cautious in (("jewel", True, False), ("reef", False, False), (None, True, True)):
            with self.subTest(release=release):
                own["osd_dump"]["require_min_compat_client"] = release
                output = self.output("plan", *self.dumps("clients", own), "--first", "1")
                self.assertEqual(line in output, is_told)
                self.assertEqual("get-require-min-compat-client" in output, is_cautious)

    def test_own_balancer(self) -> None:
        """Where it can be worked out, `plan` tells from which number on Ceph's own balancer leaves the plan alone: not
        while OSDs are down that are in, where a reweight is above 1, nor for some pools alone."""
        output, error = self.ran("plan", *self.files("plain"))
        told = self.json("plan", *self.files("plain"))
        self.assertEqual(told["upmap_max_deviation"], 2)  # as osdmaptool 18.2.7 says of it after the plan
        self.assertIn("with upmap_max_deviation 2 or more, it leaves the whole plan alone", output)
        self.assertIn("its upmap_max_deviation is 2 or more (5 where nobody sets it)", error)
        own = copied(REEF["plain"])
        own["osd_dump"]["osds"][3]["weight"] = 1.5
        unknown: list[tuple[tuple[pathlib.Path, pathlib.Path], list[str]]] = [
            (self.files("primaries_pairs"), ["--anyway"]),
            (self.files("plain"), ["--of-pool", "2"]),
            (self.dumps("above", own), []),
        ]
        for files, words in unknown:
            told = self.json("plan", *files, *words)
            self.assertIsNone(told["upmap_max_deviation"], words)
            self.assertNotIn("upmap_max_deviation", self.output("plan", *files, *words))

    def test_what_moves_already(self) -> None:
        """Groups that are served by temporary sets are told before anything else, with the places that are still to
        move; from 5 % of all places on, as Ceph's balancer has it, a plan is made only where it is asked for."""
        own, up = copied(REEF["plain"]), REEF["plain"]["up"]
        whole = sum(len(osds) for osds, _ in up.values())
        for groups, refused in ((3, 0), (12, 0), (13, 1)):
            away = {group: [osd for osd in range(24) if osd not in up[group][0]][:1] for group in list(up)[:groups]}
            own["osd_dump"]["pg_temp"] = [
                {"pgid": group, "osds": up[group][0][1:] + osds} for group, osds in away.items()
            ]
            files = self.dumps("moving", own)
            line = (
                f"the cluster moves already: {groups} groups are served by temporary sets (pg_temp), and {groups} of "
            )
            line += f"{whole} places are still to move, {100 * groups / whole:.2f} %"
            _, error = self.ran("plan", *files, "--first", "1", status=11 * refused)
            self.assertStarts(error, line)
            self.assertEqual(error.endswith("; no plan is made: --anyway makes one\n"), bool(refused), error)
            self.assertStarts(self.output("whatif", *files, "--out", "3"), line)
            told = self.json("whatif", *files, "--out", "3")["misplaced"]
            self.assertEqual((told["groups"], told["places"]), (groups, groups))
        self.assertTrue(commands(self.output("plan", *files, "--anyway", "--first", "1")))
        self.ran("whatif", *files, "--balance", status=11)
        _, error = self.ran("plan", *self.files("temps"), "--first", "1")
        line = "3 groups are served by temporary sets (pg_temp), from which no place is still to move\n"
        self.assertStarts(error, line)
        self.assertIsNone(self.json("whatif", *self.files("plain"), "{}")["misplaced"])

    def test_what_advice_moves(self) -> None:
        """Advice that moves data says how much, as the monitor then had it."""
        _, error = self.ran("plan", *self.files("compat"), status=1)
        self.assertIn("weight-set rm-compat`, which moves data (44 of 195 places of groups, 22.56 %)", error)
        own = copied(REEF["hammer"])
        own["crush_dump"]["tunables"]["choose_local_tries"] = 2
        _, error = self.ran("import", "--check", *self.dumps("older", own), status=1)
        self.assertIn("sets all of them, and moves data once; under norebalance, `hold --pgs` behind it keeps", error)


class ByReef(ReefCase):
    """What the tools say beside what a monitor of Reef does now, which runs where REEF names its tools."""

    def monitor(self, name: str) -> ReefMonitor:
        """A monitor over a cluster."""
        tools = reef_tools()
        self.needs("Ceph 18.2 (REEF names a folder with its tools in bin)", tools is not None)
        assert tools is not None
        return ReefMonitor(tools, base64.b64decode(REEF[name]["osdmap"]))

    def test_plans_by_reef(self) -> None:
        """Reef takes each command of a plan, and then has the sets and primaries that `whatif --balance` finds; its
        own balancer wants nothing at the number that is told, and something below it."""
        for name, quiet in (("plain", 2), ("stretch", 2), ("read_primaries", None), ("primaries_pairs", None)):
            with self.subTest(name=name), self.monitor(name) as monitor:
                told = self.json("plan", *self.files(name), "--anyway")
                self.assertEqual(monitor.refused(told["commands"]), [])
                question, _ = self.question(*self.files(name), "--balance", "--anyway")
                answers = balanced_sets(question.whole, self.tools.program, Balance(True))
                self.is_as_in_reef(question.as_in_ceph(question.whole, answers), monitor.sets(), name)
                number = told["upmap_max_deviation"]
                if quiet is not None:
                    self.assertEqual(number, quiet)
                    self.assertEqual((monitor.balanced(quiet), monitor.balanced(quiet - 1) > 0), (0, True))
