"""`together.py`: which scripts it takes, and what it does where anything is refused, beside a cluster of the tests'
own; and all of it beside real monitors, where they are there.

crush_maps.json.gz has compiled CRUSH maps of real monitors (16.2.15 and 18.2.7), and what their `crushtool --dump` says
of each.
"""

from __future__ import annotations

import base64
import contextlib
import hashlib
import itertools
import json
import os
import pathlib
import shutil
import signal
import struct
import subprocess
import sys
import tempfile
from collections.abc import Callable, Iterator
from concurrent.futures import ThreadPoolExecutor
from typing import Any
from unittest import mock

from rekhuso import together
from rekhuso.together import Binary, Stop, crush_sum, given, script_in

from tests.cases import TOP, Case
from tests.ceph_monitor import WORST
from tests.clusters import Json, commands, copied, kept
from tests.fake_rados import SETTINGS, World, joined
from tests.live_sessions import Lines
from tests.reef_tools import ReefMonitor, reef_tools
from tests.tool_cases import StockCase

MAPS = kept("crush_maps.json.gz")
OLD, NEW = (
    next(own for own in MAPS if own["cluster"] == name) for name in ("four_hosts", "four_hosts, osd.0 of weight 9")
)
# The map of that cluster, by a monitor of 16.2.15.
OSDMAP = base64.b64decode(OLD["osdmap"])
PROGRAM = TOP / "tools" / "rekhuso" / "together.py"
FSID = "9a1c2f62-6f6e-4d4f-8a53-0f5d2a1f7c11"
# The system's Python, which has librados where Ceph is there.
SYSTEM = "/usr/bin/python3"
SECONDS = 120
# How long the tool may take where a monitor is gone.
LONG = 600
# For how long a monitor gathers, in seconds, so that on a busy machine, too, all that belongs together comes meanwhile.
WAIT = 60
# For how long the tool waits between two things that it does, so that what is done to it comes between them.
PAUSE = 4
# The tool, which waits as long behind the pairs and behind the CRUSH map, and tells each command that it gives.
TOLD = """
import os, sys, time
sys.path.insert(0, sys.argv[1])
import together

asked, until = together.ConnectedCluster.ask, together.Giving.until_taken
pause, sys.argv = float(sys.argv[2]), sys.argv[2:]

def told(self, words, *own, **more):
    os.write(1, f"{words['prefix']}\\n".encode())
    return asked(self, words, *own, **more)

def slow(self, *own):
    time.sleep(pause)
    return until(self, *own)

together.ConnectedCluster.ask, together.Giving.until_taken = told, slow
sys.exit(together.main())
"""


def compiled(own: Json) -> bytes:
    """The bytes of a compiled map."""
    return base64.b64decode(own["binary"])


def exceptions(dump: Json) -> list[str]:
    """The exceptions of an OSD dump, in one order."""
    return sorted(json.dumps(own) for key in ("pg_upmap", "pg_upmap_items") for own in dump[key])


def interrupting(at: int) -> type[ThreadPoolExecutor]:
    """Threads to which a command is handed in by its number as a signal comes."""
    left = itertools.count(1)

    class Interrupting(ThreadPoolExecutor):
        """These threads."""

        def submit(self, *words: Any, **more: Any) -> Any:
            """Hands something in; the signal comes before it is known that it was."""
            found = super().submit(*words, **more)
            if isinstance(words[1], dict) and next(left) == at:
                signal.raise_signal(signal.SIGTERM)
            return found

    return Interrupting


class CrushMaps(Case):
    """Compiled CRUSH maps."""

    def test_dumps(self) -> None:
        """Each is read as Ceph's own tool dumps it, whichever kinds of buckets, weight sets and steps it has."""
        kinds = {own["alg"] for entry in MAPS for own in entry["dump"]["buckets"]}
        self.assertEqual(kinds, {"uniform", "list", "tree", "straw2"})
        self.assertTrue(any(entry["dump"]["choose_args"] for entry in MAPS))
        for own in MAPS:
            with self.subTest(own=own["cluster"]):
                self.assertEqual(crush_sum(Binary(compiled(own)).dump()), crush_sum(own["dump"]))
        self.assertEqual(len({crush_sum(own["dump"]) for own in MAPS}), len(MAPS))

    def test_differences(self) -> None:
        """What decides where groups lie, or is a name, makes another sum; what only another release dumps does not."""
        changes: list[Callable[[Json], object]] = [
            lambda own: own["buckets"][0]["items"][0].update(weight=1),
            lambda own: own["buckets"][0].update(name="other"),
            lambda own: own["rules"][0]["steps"].pop(),
            lambda own: own["tunables"].update(chooseleaf_stable=0),
            lambda own: own["devices"][0].update({"class": "ssd"}),
            lambda own: own["types"].append({"type_id": 40, "name": "hall"}),
            lambda own: own["buckets"][0]["items"].reverse(),
        ]
        for at, change in enumerate(changes):
            with self.subTest(at=at):
                other = copied(OLD["dump"])
                change(other)
                self.assertNotEqual(crush_sum(other), crush_sum(OLD["dump"]))
        other = copied(OLD["dump"])
        for own in other["rules"]:
            del own["ruleset"], own["min_size"], own["max_size"]
        self.assertEqual(crush_sum(other), crush_sum(OLD["dump"]))

    def test_what_is_none(self) -> None:
        """What is cut off, longer, or no CRUSH map at all is told as that, and never taken for one."""
        whole = compiled(OLD)
        for data in (
            b"",
            b"12345678",
            whole + b"\0",
            b"\x01" + whole,
            *(whole[:at] for at in range(0, len(whole), 97)),
        ):
            with self.assertRaises((ValueError, KeyError, IndexError, struct.error)):
                Binary(data).dump()


class TogetherCase(StockCase):
    """A hold behind a reweight, as files."""

    def setUp(self) -> None:
        super().setUp()
        dump = copied(WORST["four_hosts"]["osd_dump"])
        dump.update(
            fsid=FSID,
            crush_version=5,
            flags="sortbitwise",
            require_min_compat_client="luminous",
            require_osd_release="pacific",
        )
        self.dump = dump
        self.folder = self.tools.folder
        (self.folder / "old").write_bytes(compiled(OLD))
        (self.folder / "new").write_bytes(compiled(NEW))
        self.files = [self.tools.put("osd.json", dump), self.tools.put("crush.json", OLD["dump"])]
        self.tools.put("new.json", NEW["dump"])
        self.script = self.hold()

    def hold(self, *words: object) -> pathlib.Path:
        """The script of the hold, or of the way back from it."""
        path = self.folder / "hold.sh"
        output, _ = self.ran("hold", *self.files, "--crush", self.folder / "new.json", "--to", path, *words)
        self.assertEqual(output, "")
        return path

    def resealed(self, path: pathlib.Path, change: Callable[[str], str]) -> pathlib.Path:
        """A script that was changed, with a sum of its own again."""
        head = "".join(path.read_text().splitlines(keepends=True)[:-1])
        text = change(head)
        self.assertNotEqual(text, head)
        other = self.folder / "other.sh"
        other.write_text(f"{text}# rekhuso: end, sha256 {hashlib.sha256(text.encode()).hexdigest()}\n")
        return other


class Scripts(TogetherCase):
    """Which scripts are taken."""

    def test_whole(self) -> None:
        """A whole hold tells of which cluster it is, how many commands it has, and which CRUSH maps."""
        own = script_in(self.script.read_text())
        lines = [line for line in commands(self.script.read_text()) if "pg-upmap" in line]
        self.assertGreater(len(lines), 5)
        self.assertEqual(len(own.commands), len(lines))
        self.assertEqual((own.is_hold, own.epoch, own.fsid, own.crush_version), (True, self.dump["epoch"], FSID, "5"))
        self.assertEqual((own.crush, own.then), (crush_sum(OLD["dump"]), crush_sum(NEW["dump"])))
        self.assertEqual(
            [own.words() for own in own.commands if own.osds][0]["id"], list(map(int, lines[0].split(" ")[4:]))
        )

    def test_no_whole(self) -> None:
        """An empty script, one that was cut off at any line or byte, edited, a part, or a plan is refused."""
        text = self.script.read_text()
        lines = text.splitlines(keepends=True)
        cut = ["".join(lines[:at]) for at in range(len(lines))] + [text[:at] for at in range(0, len(text), 211)]
        edited = [text.replace("pg-upmap-items", "pg-upmap-items ", 1), text.replace("ceph osd unset", "#", 1)]
        edited += ["".join(lines[:9] + lines[10:]), text + "\n", text + "ceph status\n", text.replace("\n", "\r\n")]
        plan = self.output("plan", *self.files)
        for other in (*cut, *edited, plan):
            with self.assertRaises(Stop, msg=other[-200:]):
                script_in(other)
        self.output("hold", *self.files, "--crush", self.folder / "new.json", "--batch", 9, "--to", "parts")
        for path in sorted((self.folder / "parts").iterdir()):
            with self.assertRaisesRegex(Stop, "it is part [0-9]+ of [0-9]+: a hold is given whole"):
                script_in(path.read_text())

    def test_changes_by_commands(self) -> None:
        """A hold whose change other commands make, as `ceph osd out`, is none for a CRUSH map."""
        path = self.folder / "out.sh"
        self.output("hold", *self.files, "--out", "osd.1", "--to", path)
        with self.assertRaisesRegex(Stop, "commands make its change"):
            given("conf", ["new", str(path)], 6)

    def test_written_whole(self) -> None:
        """`--to` leaves what stood there where a hold is refused."""
        before = self.script.read_text()
        groups = [f"{pool['pool']}.{at:x}" for pool in self.dump["pools"] for at in range(pool["pg_num"])]
        away = [{"pgid": group, "osds": [1, 2, 3]} for group in groups]
        moving = self.tools.put("moving", dict(self.dump, pg_temp=away))
        words = ["--crush", self.folder / "new.json", "--to", self.script]
        self.ran("hold", moving, self.files[1], *words, status=11)
        self.assertEqual(self.script.read_text(), before)
        self.assertEqual(sorted(own.name for own in self.folder.iterdir() if "hold" in own.name), ["hold.sh"])

    def test_alone(self) -> None:
        """The file runs by itself on Python 3.6, and says in one line that there is no librados."""
        pythons = [path for path in pathlib.Path("~/.pyenv/versions").expanduser().glob("3.6.*/bin/python3.6")]
        for python in [pathlib.Path(sys.executable), *pythons]:
            with self.subTest(python=python), tempfile.TemporaryDirectory() as folder:
                shutil.copy(PROGRAM, folder)
                (pathlib.Path(folder) / "rados.py").write_text("raise ImportError\n")
                words = [python, "-B", pathlib.Path(folder) / "together.py", "conf", "new", "hold.sh"]
                done = subprocess.run(
                    list(map(str, words)), cwd=self.folder, capture_output=True, text=True, timeout=60, check=False
                )
                self.assertEqual((done.returncode, done.stdout), (1, ""))
                self.assertEqual(done.stderr, "librados' Python is not there (Debian: python3-rados)\n")
                done = subprocess.run(
                    [*map(str, words), "--seconds", "nan"], capture_output=True, text=True, timeout=60, check=False
                )
                self.assertEqual(done.returncode, 2)
        self.needs("Python 3.6", bool(pythons))


class Refusals(TogetherCase):
    """What is done where anything is refused."""

    def world(self) -> World:
        """A cluster as it was dumped, in which each group is where it was under both CRUSH maps, once it has what it is
        to have."""
        sets = {group: places for group, (places, _) in WORST["four_hosts"]["up"].items()}
        held = dict[str, Any]()
        for own in script_in(self.script.read_text()).commands:
            pairs = [{"from": was, "to": now} for was, now in zip(own.osds[::2], own.osds[1::2])]
            is_items = own.word == "pg-upmap-items"
            self.assertTrue(is_items or own.word == "rm-pg-upmap-items")
            held[own.group] = [[], [{"pgid": own.group, "mappings": pairs}] if is_items else []]
        was = dict[str, Any]()
        for at, key in enumerate(("pg_upmap", "pg_upmap_items")):
            for entry in self.dump[key]:
                was.setdefault(entry["pgid"], [[], []])[at].append(entry)
        home = {
            compiled(OLD): {"sets": sets, "exceptions": was},
            compiled(NEW): {"sets": sets, "exceptions": {**was, **held}},
        }
        return World(self.dump, {compiled(OLD): OLD["dump"], compiled(NEW): NEW["dump"]}, compiled(OLD), home)

    def told(self, world: World, *files: str) -> str:
        """What is told in one line."""
        with joined(world):
            try:
                found = given("conf", [str(self.folder / own) for own in files or ("new", "hold.sh")], 6.0)
            except Stop as fault:
                found = f"refused: {fault}"
        self.assertEqual(len(found.splitlines()), 1)
        return found

    def is_as_it_was(self, world: World, what: object) -> None:
        """Asks that a cluster has the CRUSH map, the exceptions and the flags that it had, and its interval."""
        for key in ("pg_upmap", "pg_upmap_items"):
            self.assertEqual(
                sorted(world.dump[key], key=lambda own: str(own["pgid"])),
                sorted(self.dump[key], key=lambda own: str(own["pgid"])),
                what,
            )
        self.assertEqual(
            (world.crush, world.dump["flags"], world.settings), (compiled(OLD), "sortbitwise", SETTINGS), what
        )

    def test_right(self) -> None:
        """Nothing is refused: one map has the CRUSH map and all pairs, then norebalance is unset, and the interval is
        back. The CRUSH map comes after the pairs."""
        world = self.world()
        told, count = self.told(world), len(script_in(self.script.read_text()).commands)
        self.assertEqual(
            told, f"the CRUSH map and {count} commands in 1 map, none refused; all groups are where they were"
        )
        self.assertEqual((world.crush, world.dump["flags"], world.settings), (compiled(NEW), "sortbitwise", SETTINGS))
        names = [own["prefix"] for own in world.given]
        writes = [name for name in names if name.startswith(("osd pg-", "osd rm-", "osd set", "osd unset"))]
        self.assertEqual(
            (writes[0], writes[-3:], len(writes)), ("osd set", ["osd setcrushmap", "osd set", "osd unset"], count + 4)
        )
        sets = [(own["var"], *own["val"]) for own in world.given if own["prefix"] == "config set"]
        own = [(together.INTERVAL, "6.0"), (together.LEAST, "0"), (together.INTERVAL, "0"), *reversed(SETTINGS.items())]
        self.assertEqual(sets, own)
        self.assertEqual({own["target"] for own in world.given if own["prefix"].startswith("config ")}, {"b"})
        self.assertEqual(sorted(own.name for own in self.folder.iterdir() if "before" in own.name), [])

    def test_parts(self) -> None:
        """All parts of a hold in their order are given as one; parts that lack one, in another order, or of another
        hold are refused."""
        output = self.output(
            "hold", *self.files, "--crush", self.folder / "new.json", "--batch", 20, "--to", self.folder / "parts"
        )
        paths = [str(pathlib.Path(path).relative_to(self.folder)) for path in output.splitlines()]
        self.assertGreater(len(paths), 2)
        world = self.world()
        self.assertStarts(self.told(world, "new", *paths), "the CRUSH map and 63 commands in 1 map, none refused; ")
        other = self.resealed(self.folder / paths[0], lambda text: text.replace(f"fsid {FSID}", "fsid other"))
        for files in (
            *(paths[:-1], paths[1:], paths[:1], paths[::-1], [paths[0], *paths], [paths[-1]] * len(paths)),
            [other.name, *paths[1:]],
        ):
            with self.subTest(files=files):
                world = self.world()
                told = self.told(world, "new", *files)
                self.assertRegex(told, "it is part [0-9]+ of|it is not of the same hold|give the compiled CRUSH map")
                self.assertEqual(world.given, [])

    def test_made(self) -> None:
        """A hold behind a change that is made is given without a CRUSH map, and norebalance stays where it was set."""
        new = self.tools.put("new-osd.json", dict(self.dump, crush_version=6))
        path = self.folder / "hold.sh"
        self.output("hold", *self.files, new, self.folder / "new.json", "--to", path)
        world = self.world()
        world.crush, world.dump["crush_version"] = compiled(NEW), 6
        self.assertRegex(self.told(world, "hold.sh"), "^[0-9]+ commands in 1 map, none refused; all groups are where")
        self.assertNotIn("osd setcrushmap", [own["prefix"] for own in world.given])
        world = self.world()
        world.crush, world.dump["crush_version"] = compiled(NEW), 6
        self.assertIn("this script goes with no CRUSH map", self.told(world, "new", "hold.sh"))

    def test_flag_of_before(self) -> None:
        """A norebalance that was set before stays."""
        self.dump["flags"] = "norebalance,sortbitwise"
        world = self.world()
        self.assertEqual(self.told(world).split(", ")[-1], "none refused; all groups are where they were")
        self.assertIn("norebalance", world.dump["flags"])
        self.assertNotIn("osd unset", [own["prefix"] for own in world.given])

    def test_no_cluster_for_it(self) -> None:
        """Another cluster, an earlier epoch, another CRUSH map, older clients or daemons, and groups and OSDs that are
        not there are told before anything is given."""
        pools = self.dump["pools"]

        def changed(key: str, more: int) -> list[Json]:
            """The pools with another number."""
            return [{**own, key: own["pg_num"] + more} for own in pools]

        changes: list[tuple[Json, str]] = [
            ({"fsid": "other"}, "this is another cluster"),
            ({"epoch": self.dump["epoch"] - 1}, f"its epoch is {self.dump['epoch'] - 1}, before that of the hold"),
            ({"crush_version": 6}, "its CRUSH map has changed since: version 6"),
            ({"require_min_compat_client": "jewel"}, "it takes no pairs: require_min_compat_client is jewel"),
            ({"require_min_compat_client": ""}, "it takes no pairs"),
            ({"require_osd_release": "kraken"}, "it takes no pairs: require_osd_release is kraken"),
            ({"pools": self.dump["pools"][:1]}, "it has no group "),
            ({"pools": changed("pg_num", 1)}, "pool 1 has no longer 1 groups placed by 1"),
            ({"pools": changed("pg_placement_num", -1)}, "pool 1 has no longer 1 groups placed by 1"),
            ({"pools": changed("pg_num_target", 1)}, "pool 1 has no longer 1 groups placed by 1"),
            ({"osds": self.dump["osds"][:2]}, "it has no osd."),
        ]
        for change, words in changes:
            with self.subTest(words=words):
                world = self.world()
                world.dump.update(change)
                self.assertIn(f"refused: {words}", self.told(world))
                self.has_given_nothing(world)
        osds = [{**own, "weight": 0.5 if own["osd"] == 3 else own["weight"]} for own in self.dump["osds"]]
        again = "than in the dump: dump again, and make the script again"
        changes = [
            ({"osds": osds}, f"a reweight is another {again}"),
            ({"pg_upmap_items": self.dump["pg_upmap_items"][1:]}, f"an exception is another {again}"),
            ({"pools": changed("size", -510)}, "the size or the rule of a pool is another"),
            ({"pools": changed("crush_rule", 0)}, "the size or the rule of a pool is another"),
        ]
        for change, words in changes:
            with self.subTest(words=words):
                world = self.world()
                world.dump.update(change)
                self.assertIn(f"refused: {words}", self.told(world))
                self.has_given_nothing(world)
        world = self.world()
        world.crush, world.home[compiled(NEW)] = compiled(NEW), world.home[compiled(OLD)]
        self.assertIn("refused: its CRUSH map is not that which the script is for", self.told(world))
        self.has_given_nothing(world)

    def has_given_nothing(self, world: World) -> None:
        """Asks that nothing but questions was given."""
        asked = {"quorum_status", "osd dump", "osd crush dump", "pg map", "osd getcrushmap", "config get"}
        asked.add("config-key dump")
        self.assertLessEqual({own["prefix"] for own in world.given}, asked)

    def test_no_files_for_it(self) -> None:
        """Another CRUSH map, none, two, and a file that is none are told before the cluster is asked anything."""
        for files, words in (
            (("old", "hold.sh"), "not the CRUSH map that the hold was made for"),
            (("hold.sh",), "give the compiled CRUSH map before it"),
            (("old", "new", "hold.sh"), "give the compiled CRUSH map before it"),
            (("new.json", "hold.sh"), "no compiled CRUSH map"),
            (("none", "hold.sh"), "No such file"),
            (("new", "none.sh"), "No such file"),
            (("hold.sh", "new"), "no UTF-8"),
        ):
            with self.subTest(files=files):
                world = self.world()
                self.assertIn(words, self.told(world, *files))
                self.assertEqual(world.given, [])

    def test_each_call(self) -> None:
        """Whatever call is refused: one line tells it, and the cluster is as it was, or the line tells how it stands
        and that norebalance is left set."""
        calls = self.world()
        self.told(calls)
        counts: dict[str, int] = {}
        for own in calls.given:
            counts[own["prefix"]] = counts.get(own["prefix"], 0) + 1
        self.assertGreater(len(counts), 9)
        for prefix, count in counts.items():
            for at in sorted({*range(1, min(count, 4)), count}):
                with self.subTest(prefix=prefix, at=at):
                    world = self.world()
                    world.refused[prefix] = (at, at)
                    told = self.told(world)
                    if prefix in ("ops", "config-key dump"):
                        # A monitor that does not tell what it has taken is asked otherwise; and a keyring that may not
                        # ask for other givers sees none.
                        self.assertRegex(told, "in [0-9]+ maps?, none refused; all groups are where they were$")
                        continue
                    self.assertIn(prefix, told)
                    self.assertStarts(told, "refused: ")
                    self.tells(world, told)

    def tells(self, world: World, told: str) -> None:
        """Asks that a line tells how a cluster stands."""
        if "is not put back" not in told:
            self.assertEqual(world.settings, SETTINGS, told)
        if "norebalance" in world.dump["flags"]:
            self.assertRegex(told, "norebalance is (left )?set|osd unset norebalance: refused", told)
        elif world.crush == compiled(OLD):
            self.is_as_it_was(world, told)
        else:
            self.assertIn("the CRUSH map is the new one", told)

    def test_older_monitor(self) -> None:
        """A monitor that does not tell what it has taken is asked a question behind the pairs, and behind the CRUSH
        map."""
        world = self.world()
        world.tells = False
        count = len(script_in(self.script.read_text()).commands)
        # On a busy machine the question may be answered once the monitor has made a map of the pairs.
        wanted = f"^the CRUSH map and {count} commands in (1 map|2 maps), none refused; all groups"
        self.assertRegex(self.told(world), wanted)
        names = [own["prefix"] for own in world.given]
        # Threads give the pairs, in any order, and the question with them.
        first = min(at for at, name in enumerate(names) if "pg-upmap" in name)
        self.assertIn("osd dump", names[first : names.index("osd setcrushmap")])
        self.assertEqual((world.crush, world.settings), (compiled(NEW), SETTINGS))

    def test_leader_gone(self) -> None:
        """A leading monitor that is gone has its settings no more, and what it is to have is told."""
        world = self.world()
        asked = world.answer

        def answer(words: Json) -> object:
            """The answer, behind which the leader is gone once the map is to be made at once."""
            found = asked(words)
            if words["prefix"] == "config set" and words["val"] == ["0"]:
                world.quorum = ["a", "c"]
            return found

        with mock.patch.object(world, "answer", answer):
            told = self.told(world)
        own = [f"mon.b is gone: where it runs on, its {name} is to be {value}" for name, value in SETTINGS.items()]
        self.assertEqual(sorted(told.split("; ")[2:]), sorted(own))
        self.assertIn("in 1 map, none refused; all groups are where they were; ", told)

    def test_race_lost(self) -> None:
        """Where the CRUSH map stands and pairs do not, they are given once more, and that is told."""
        world = self.world()
        written, left = world.written, itertools.count(1)

        def lost(words: Json, body: bytes) -> Any:
            """What a command makes of the map: the first pairs nothing."""
            is_lost = words["prefix"] == "osd pg-upmap-items" and next(left) <= 7
            return (lambda: None) if is_lost else written(words, body)

        with mock.patch.object(world, "written", lost):
            told = self.told(world)
        self.assertIn("none refused, 7 given once more; all groups are where they were", told)
        self.assertEqual((world.crush, world.dump["flags"], world.settings), (compiled(NEW), "sortbitwise", SETTINGS))

    def test_pairs_refused(self) -> None:
        """Where a pair is refused the CRUSH map is not given, and the pairs that were taken are taken back."""
        for last in (1, 99):
            world = self.world()
            world.refused["osd pg-upmap-items"] = (1, last)
            told = self.told(world)
            self.assertRegex(
                told, r"refused: osd pg-upmap-items \S+ .*: refused: not today .*; the cluster is as it was"
            )
            self.assertNotIn("osd setcrushmap", [own["prefix"] for own in world.given])
            self.is_as_it_was(world, told)

    def test_crush_map_refused(self) -> None:
        """Where the CRUSH map is refused the pairs that were taken are taken back."""
        world = self.world()
        world.refused["osd setcrushmap"] = (1, 1)
        self.assertEqual(
            self.told(world), "refused: osd setcrushmap: refused: not today (status -22); the cluster is as it was"
        )
        self.is_as_it_was(world, "")

    def test_interrupted(self) -> None:
        """A signal that comes as commands are handed in ends the tool behind them: none is made behind what it
        tells."""
        self.addCleanup(signal.signal, signal.SIGTERM, signal.signal(signal.SIGTERM, together.end_by_signal))
        count = len(script_in(self.script.read_text()).commands)
        for at in (1, 2, count, count + 1):
            with self.subTest(at=at), mock.patch.object(together, "ThreadPoolExecutor", interrupting(at)):
                world = self.world()
                told = self.told(world)
                if at > count:
                    # All stands, so it is a hold, with a note.
                    self.assertEnds(told, "none refused; all groups are where they were; a signal came meanwhile")
                    self.assertEqual((world.crush, world.dump["flags"]), (compiled(NEW), "sortbitwise"))
                    self.assertEqual(world.settings, SETTINGS)
                    continue
                self.assertStarts(told, "refused: interrupted; the ")
                self.tells(world, told)
                self.assertEqual(world.crush, compiled(OLD))

    def test_interrupted_at_the_end(self) -> None:
        """A signal that comes as nothing more shall end the tool leaves no command that nobody waits for, and not its
        interval."""
        for at in (1, 2):
            with self.subTest(at=at):
                world, calls = self.world(), itertools.count(1)

                def held(at: int = at, calls: Iterator[int] = calls) -> None:
                    """Ends the tool at one of its calls."""
                    if next(calls) == at:
                        raise together.Ended(signal.SIGTERM)

                with joined(world), mock.patch.object(together, "hold_back_signals", held):
                    told = self.told_in(world, "new", "hold.sh")
                self.assertEnds(told, "all groups are where they were; a signal came meanwhile")
                self.assertEqual((world.crush, world.settings), (compiled(NEW), SETTINGS))

    def test_second_signal(self) -> None:
        """A signal ends the tool in order, and no other one then; one that is ignored stays so."""
        for number in together.SIGNALS:
            self.addCleanup(signal.signal, number, signal.signal(number, signal.SIG_DFL))
        signal.signal(signal.SIGHUP, signal.SIG_IGN)
        together.take_signals()
        signal.raise_signal(signal.SIGHUP)
        with self.assertRaises(together.Ended):
            signal.raise_signal(signal.SIGINT)
        for number in together.SIGNALS:
            signal.raise_signal(number)

    def test_elsewhere(self) -> None:
        """Where a group is elsewhere in the end, norebalance is left set, and the old CRUSH map is kept in a file."""
        world = self.world()
        group = next(iter(world.home[compiled(NEW)]["sets"]))
        world.home[compiled(NEW)]["exceptions"][group] = [["something else"], []]
        told = self.told(world)
        self.assertIn(f"the CRUSH map is the new one, 1 groups are elsewhere ({group}); norebalance is set; ", told)
        kept_map = next(own for own in self.folder.iterdir() if "before" in own.name)
        self.assertIn(f"with the CRUSH map {kept_map}", told)
        self.assertEqual(kept_map.read_bytes(), compiled(OLD))
        self.assertIn("norebalance", world.dump["flags"])

    def test_filtered(self) -> None:
        """By a hold of some groups the others move: how many is told before the cluster is asked anything, and that
        number is wanted; another one is none."""
        whole = script_in(self.script.read_text())
        group = next(own.group for own in whole.commands if own.osds)
        self.hold("--of-pg", group)
        count = len(script_in((self.folder / "hold.sh").read_text()).goes)
        self.assertGreater(count, 9)
        for moves in (None, 0, count - 1, count + 1):
            world = self.world()
            with joined(world), self.assertRaises(Stop) as caught:
                given("conf", [str(self.folder / own) for own in ("new", "hold.sh")], 6.0, moves)
            self.assertIn(f"{count} groups move by it, as it does not hold them (", str(caught.exception))
            self.assertEnds(str(caught.exception), f": --moves {count} gives it all the same")
            self.assertEqual(world.given, [])
        world = self.world()
        with joined(world), contextlib.suppress(Stop):
            given("conf", [str(self.folder / own) for own in ("new", "hold.sh")], 6.0, count)
        self.assertIn("osd setcrushmap", [own["prefix"] for own in world.given])
        self.hold()
        with joined(self.world()), self.assertRaisesRegex(Stop, "no group moves: leave --moves out"):
            given("conf", [str(self.folder / own) for own in ("new", "hold.sh")], 6.0, 3)

    def test_undo(self) -> None:
        """The way back is given with the CRUSH map of before, and leads to what was there."""
        world = self.world()
        with joined(world):
            self.told_in(world, "new", "hold.sh")
            self.hold("--undo")
            told = self.told_in(world, "old", "hold.sh")
        self.assertEqual(told.rpartition("; ")[2], "all groups are where they were")
        self.is_as_it_was(world, told)

    def told_in(self, world: World, *files: str) -> str:
        """What is told in a world that goes on."""
        return given("conf", [str(self.folder / own) for own in files], 6.0)


class RealMonitor(TogetherCase):
    """All of it at a real monitor: Ceph's of this machine, and that of 18.2 where REEF names its tools."""

    def setUp(self) -> None:
        super().setUp()
        self.reef = reef_tools()
        found = shutil.which("ceph-mon")
        own = [pathlib.Path(found).parent] if found is not None else []
        self.folders = own + ([self.reef] if self.reef is not None else [])

    def done(self, *words: object) -> str:
        """What a tool of Ceph's puts out."""
        return subprocess.run(list(map(str, words)), capture_output=True, text=True, timeout=SECONDS, check=True).stdout

    def dumped(self, monitor: ReefMonitor, tools: pathlib.Path) -> None:
        """Dumps the cluster of a monitor into the files of this test."""
        for name, words in (("osd.json", "osd dump -f json"), ("crush.json", "osd crush dump")):
            (self.folder / name).write_text(self.done(tools / "ceph", "-c", monitor.conf, *words.split(" ")))
        self.dump = json.loads((self.folder / "osd.json").read_text())

    def given(self, monitor: ReefMonitor, *files: str) -> tuple[int, str]:
        """The status of the file run by itself, and what it tells."""
        words = [SYSTEM, "-B", PROGRAM, monitor.conf, *(self.folder / own for own in files), "--seconds", WAIT]
        done = subprocess.run(
            list(map(str, words)), capture_output=True, text=True, timeout=SECONDS, check=False, cwd=self.folder
        )
        self.assertEqual(len((done.stdout + done.stderr).splitlines()), 1, done)
        return done.returncode, done.stdout + done.stderr

    def state(self, monitor: ReefMonitor, tools: pathlib.Path) -> Json:
        """The map of a monitor as it dumps it."""
        found: Json = json.loads(self.done(tools / "ceph", "-c", monitor.conf, "osd", "dump", "-f", "json"))
        return found

    def test_monitors(self) -> None:
        """Scripts that are no whole hold, or for another cluster, change no epoch; one that is right makes one map and
        two for its flag, and moves no group; its undoing leads back."""
        self.needs("ceph-mon", bool(self.folders))
        has_rados = (
            os.access(SYSTEM, os.X_OK) and not subprocess.run([SYSTEM, "-c", "import rados"], check=False).returncode
        )
        self.needs("rados of Python", has_rados)
        for tools in self.folders:
            with self.subTest(tools=tools), ReefMonitor(tools, OSDMAP) as monitor:
                self.dumped(monitor, tools)
                self.hold()
                self.wrong_ones(monitor, tools)
                self.right_one(monitor, tools)
                self.older_clients(monitor, tools)

    def wrong_ones(self, monitor: ReefMonitor, tools: pathlib.Path) -> None:
        """Asks that what is wrong changes nothing."""
        text, epoch = self.script.read_text(), self.dump["epoch"]
        others = {
            "empty": "",
            "cut": text[: len(text) // 2],
            "edited": text.replace("pg-upmap-items 2.", "pg-upmap-items 2.1", 1),
        }
        others["plan"] = self.output("plan", *self.files)
        for name, other in others.items():
            (self.folder / name).write_text(other)
        for name, find, put in (
            ("fsid", self.dump["fsid"], FSID),
            ("version", f"crush_version {self.dump['crush_version']}", "crush_version 900"),
            ("epoch", f"epoch {epoch},", f"epoch {epoch + 100},"),
        ):
            shutil.copy(self.resealed(self.script, lambda own: own.replace(find, put)), self.folder / name)
        for name in (*others, "fsid", "version", "epoch"):
            status, told = self.given(monitor, "new", name)
            self.assertEqual((status, self.state(monitor, tools)["epoch"]), (1, epoch), (name, told))
        status, told = self.given(monitor, "old", "hold.sh")
        self.assertEqual((status, self.state(monitor, tools)["epoch"]), (1, epoch), told)

    def right_one(self, monitor: ReefMonitor, tools: pathlib.Path) -> None:
        """Asks that what is right does what it tells, and that its undoing leads back."""
        before, sets = self.state(monitor, tools), monitor.sets()
        status, told = self.given(monitor, "new", "hold.sh")
        self.assertEqual(status, 0, told)
        count = len(script_in(self.script.read_text()).commands)
        self.assertGreater(count, 3)
        self.assertEqual(
            told, f"the CRUSH map and {count} commands in 1 map, none refused; all groups are where they were\n"
        )
        now = self.state(monitor, tools)
        self.assertEqual((now["epoch"], now["flags"]), (before["epoch"] + 3, before["flags"]))
        pairs = {
            own["pgid"]: [osd for pair in own["mappings"] for osd in (pair["from"], pair["to"])]
            for own in now["pg_upmap_items"]
        }
        for line in commands(self.script.read_text()):
            if " pg-upmap-items " in line:
                self.assertEqual(pairs[line.split(" ")[3]], list(map(int, line.split(" ")[4:])), line)
        self.same_places(monitor.sets(), sets)
        self.hold("--undo")
        status, told = self.given(monitor, "old", "hold.sh")
        self.assertEqual(status, 0, told)
        self.assertEqual(exceptions(self.state(monitor, tools)), exceptions(before))
        self.same_places(monitor.sets(), sets)

    def older_clients(self, monitor: ReefMonitor, tools: pathlib.Path) -> None:
        """Asks that nothing is given where the monitor would refuse each pair."""
        now, own = self.state(monitor, tools), [tools / "ceph", "-c", monitor.conf, "osd"]
        for entry in now["pg_upmap_items"]:
            self.done(*own, "rm-pg-upmap-items", entry["pgid"])
        self.done(*own, "set-require-min-compat-client", "jewel", "--yes-i-really-mean-it")
        self.hold()
        was, then = (f"crush_version {own['crush_version']}" for own in (self.dump, now))
        shutil.copy(self.resealed(self.script, lambda text: text.replace(was, then)), self.folder / "again")
        epoch = self.state(monitor, tools)["epoch"]
        status, told = self.given(monitor, "new", "again")
        self.assertEqual((status, self.state(monitor, tools)["epoch"]), (1, epoch), told)
        self.assertIn("it takes no pairs: require_min_compat_client is jewel", told)

    def same_places(self, now: Json, was: Json) -> None:
        """Asks that each group has the OSDs that it had."""
        self.assertGreater(len(was), 90)
        self.assertEqual({g: set(own[0]) for g, own in now.items()}, {g: set(own[0]) for g, own in was.items()})

    def interrupted(
        self, monitor: ReefMonitor, place: str, what: Callable[[subprocess.Popen[bytes]], object]
    ) -> tuple[int, str]:
        """The status of the tool, and what it tells, where something is done to it or to the cluster as it gives a
        command that begins so."""
        files = [monitor.conf, self.folder / "new", self.folder / "hold.sh"]
        words = [SYSTEM, "-B", "-c", TOLD, PROGRAM.parent, PAUSE, *files, "--seconds", LONG]
        process = subprocess.Popen(list(map(str, words)), stdout=subprocess.PIPE, stderr=subprocess.PIPE)
        assert process.stdout
        lines = Lines(process.stdout.fileno())
        while (line := lines.next(SECONDS)) is not None and not line.startswith(place):
            pass
        what(process)
        told = ""
        while (own := lines.next(LONG)) is not None:
            told = own if own.startswith("the CRUSH map") else told
        _, error = process.communicate(timeout=SECONDS)
        self.assertIsNotNone(line, error)
        return process.returncode, told or error.decode()

    def ended(self, process: subprocess.Popen[bytes]) -> None:
        """Ends the tool from outside."""
        process.send_signal(signal.SIGTERM)

    def test_signal(self) -> None:
        """Ended from outside, wherever it is, the tool leaves the cluster as it was, with the interval of before."""
        self.needs("ceph-mon", bool(self.folders))
        tools = self.folders[0]
        with ReefMonitor(tools, OSDMAP) as monitor:
            self.dumped(monitor, tools)
            self.hold()
            for place in ("pg map", "config set", "osd set", "osd pg-upmap"):
                with self.subTest(place=place):
                    what = "nothing was given" if place == "pg map" else "the cluster is as it was"
                    self.assertEqual(self.interrupted(monitor, place, self.ended), (1, f"interrupted; {what}\n"))
                    now = self.state(monitor, tools)
                    self.assertEqual((exceptions(now), now["flags"]), (exceptions(self.dump), self.dump["flags"]))
                    self.has_its_settings(monitor, tools, "a")

    def has_its_settings(self, monitor: ReefMonitor, tools: pathlib.Path, leader: str) -> None:
        """Asks that a monitor gathers for as long as before."""
        for name in (together.INTERVAL, together.LEAST):
            words = [tools / "ceph", "-c", monitor.conf, "tell", f"mon.{leader}", "config", "get", name]
            self.assertEqual(float(json.loads(self.done(*words))[name]), 0.01, name)

    def test_leader_killed(self) -> None:
        """Where the leading one of three monitors is killed on the way, the tool finishes what it gave or takes that
        back, and its line is true."""
        self.needs("ceph-mon", bool(self.folders))
        tools = self.folders[0]
        for place in ("osd pg-upmap", "ops", "osd setcrushmap"):
            with self.subTest(place=place), ReefMonitor(tools, OSDMAP, 3) as monitor:
                self.dumped(monitor, tools)
                self.hold()
                goal = together.goal_of(script_in(self.script.read_text()).commands, {})
                asked = self.done(tools / "ceph", "-c", monitor.conf, "quorum_status")
                leader: str = json.loads(asked)["quorum_leader_name"]

                def kill(_: object, monitor: ReefMonitor = monitor, leader: str = leader) -> None:
                    """Kills the leading monitor."""
                    monitor.kill(leader)

                status, told = self.interrupted(monitor, place, kill)
                now = self.state(monitor, tools)
                crush = crush_sum(json.loads(self.done(tools / "ceph", "-c", monitor.conf, "osd", "crush", "dump")))
                self.assertEqual((len(told.splitlines()), now["flags"]), (1, self.dump["flags"]), told)
                self.assertIn(f"mon.{leader} is gone: where it runs on, its ", told)
                if "; the cluster is as it was" in told:
                    self.assertEqual(status, 1, told)
                    self.assertEqual((exceptions(now), crush), (exceptions(self.dump), crush_sum(OLD["dump"])), told)
                else:
                    self.assertIn(
                        "all groups are where they were" if not status else "; the CRUSH map is the new", told
                    )
                    has = together.State(now, crush, {}).exceptions()
                    self.assertEqual({group: has.get(group, (None, None)) for group in goal}, goal, told)
                    self.assertEqual(crush, crush_sum(NEW["dump"]))
                for name in {"a", "b", "c"} - {leader}:
                    self.has_its_settings(monitor, tools, name)
