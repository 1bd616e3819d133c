"""`give` and `gather` at real monitors: parts in any order, another cluster, what has changed between, two givers at
once, signals, kills and a killed monitor. No group moves that was not foretold, and the last line is true.
"""

from __future__ import annotations

import contextlib
import json
import os
import pathlib
import select
import signal
import subprocess
import time

from tests.clusters import Json, commands
from tests.giving import MonitorCase
from tests.reef_tools import ReefMonitor
from tests.schemas import faults_of
from tests.together import NEW, OLD, OSDMAP, SYSTEM, compiled, exceptions
from tests.tool_cases import TOOLS

# How long a command may take beside other work, and how long is waited for a thing that comes.
LONG, SECONDS = 900, 240
DONE, NO, MORE, WAITS = 0, 1, 10, 11
# The command, which waits before it gives the first command that begins so until it is told to go on.
HELD = """
import os, sys
sys.path.insert(0, sys.argv[1])
from rekhuso.cluster import connections
from rekhuso.command_line import main

place, told, go = sys.argv[2], int(sys.argv[3]), int(sys.argv[4])
asked, left = connections.Connection.ask, [place]

def held(self, words, *own, **more):
    if left and words["prefix"].startswith(left[0]):
        left.clear()
        os.write(told, b"x")
        os.read(go, 1)
    return asked(self, words, *own, **more)

connections.Connection.ask = held
sys.argv = ["rekhuso", *sys.argv[5:]]
sys.exit(main())
"""


class Held:
    """A command that waits before it gives something, until it is told to go on."""

    def __init__(self, place: str, words: list[str]) -> None:
        self.told, told = os.pipe()
        go, self.go = os.pipe()
        own = [SYSTEM, "-B", "-c", HELD, str(TOOLS.parent), place, str(told), str(go), *words]
        self.process = subprocess.Popen(
            own, stdout=subprocess.PIPE, stderr=subprocess.PIPE, text=True, pass_fds=(told, go)
        )
        os.close(told)
        os.close(go)

    def has_come(self) -> bool:
        """Whether it has come to the place; waits for that, or for its end."""
        ready, _, _ = select.select([self.told], [], [], LONG)
        return bool(ready) and os.read(self.told, 1) == b"x"

    def ended(self) -> tuple[int, str, str]:
        """Lets it go on: its status, its output and its error."""
        with contextlib.suppress(OSError):
            os.write(self.go, b"x")
        output, error = self.process.communicate(timeout=LONG)
        os.close(self.told)
        os.close(self.go)
        return self.process.returncode, output, error


class GiveCase(MonitorCase):
    """Tests of `give`."""

    def there(self) -> list[pathlib.Path]:
        """Where the tools of monitors are; the test is not run where there are none, or no librados."""
        found = self.folders()
        has_rados = (
            os.access(SYSTEM, os.X_OK) and not subprocess.run([SYSTEM, "-c", "import rados"], check=False).returncode
        )
        self.needs("rados of Python", has_rados)
        return found

    def gathered(self, monitor: ReefMonitor, name: str = "now.json") -> pathlib.Path:
        """What `gather` writes of a monitor's cluster."""
        path = self.tools.folder / name
        self.output("gather", "--conf", monitor.conf, "--to", path)
        return path

    def give(self, monitor: ReefMonitor, plan: object, *words: object) -> tuple[int, str, str]:
        """The status of `give`, what it puts out, and its error."""
        done = subprocess.run(
            [SYSTEM, "-B", *self.tools.words("give", plan, "--conf", monitor.conf, "--by-temps", *words)[2:]],
            capture_output=True,
            text=True,
            timeout=LONG,
            check=False,
        )
        return done.returncode, done.stdout, done.stderr

    def drain(self, monitor: ReefMonitor, batch: int = 30) -> pathlib.Path:
        """The scripts of a drain over a monitor's cluster."""
        folder = self.tools.folder / f"drain-{len(list(self.tools.folder.iterdir()))}"
        self.output("drain", self.gathered(monitor), "osd.7", "--batch", batch, "--to", folder)
        return folder

    def hold(self, monitor: ReefMonitor, *words: object) -> pathlib.Path:
        """The script of a hold over a monitor's cluster, whose CRUSH map is the file `new`."""
        (self.tools.folder / "new").write_bytes(compiled(NEW))
        (self.tools.folder / "old").write_bytes(compiled(OLD))
        crush, path = self.tools.put("new.json", NEW["dump"]), self.tools.folder / "hold.sh"
        self.output("hold", self.gathered(monitor), "--crush", crush, "--to", path, *words)
        return path

    def refuses(self, monitor: ReefMonitor, plan: object, status: int, told: str, *words: object) -> None:
        """Asks that `give` ends with a status and one line that has a text, and that no epoch is made."""
        before = self.state(monitor)["epoch"]
        found = self.give(monitor, plan, *words)
        self.assertEqual(self.state(monitor)["epoch"], before, found)
        self.assertEqual((found[0], found[1], len(found[2].splitlines())), (status, "", 1), found)
        self.assertIn(told, found[2])
        self.has_left_nothing(monitor)

    def has_left_nothing(self, monitor: ReefMonitor) -> None:
        """Asks that no lock and no note is left in a cluster."""
        self.assertEqual(json.loads(self.asked(monitor, "config-key", "dump", "rekhuso/", "-f", "json")), {})

    def some_of(self, folder: pathlib.Path, *names: str) -> pathlib.Path:
        """A folder with some scripts of another."""
        other = self.tools.folder / f"some-{len(list(self.tools.folder.iterdir()))}"
        other.mkdir()
        for name in names:
            (other / name).write_text((folder / name).read_text())
        return other

    def groups_of(self, folder: pathlib.Path, name: str) -> set[str]:
        """The groups that the commands of a script name."""
        return {line.split(" ")[3] for line in commands((folder / name).read_text()) if "pg-upmap" in line}

    def moved(self, monitor: ReefMonitor, before: dict[str, set[int]]) -> set[str]:
        """The groups that are elsewhere than before."""
        return {group for group, own in self.places(monitor).items() if own != before[group]}


class Drains(GiveCase):
    """Drains, from their beginning to their end."""

    def test_order(self) -> None:
        """A drain goes by one folder from its beginning to its end: the first and the last script move nothing, each
        part its own groups. Out of its turn no script is given, nor a folder that lacks one."""
        for tools in self.there():
            with self.subTest(tools=tools), ReefMonitor(tools, OSDMAP) as monitor:
                folder = self.drain(monitor)
                names = sorted(path.name for path in folder.iterdir())
                parts = [name for name in names if name not in ("drain-000.sh", "drain-end.sh")]
                self.assertGreater(len(parts), 1)
                for name in names[1:]:
                    self.refuses(monitor, folder / name, NO, "CRUSH map")
                for missing in names:
                    own = self.some_of(folder, *(name for name in names if name != missing))
                    self.refuses(monitor, own, NO, " is missing")
                before = self.places(monitor)
                status, told, error = self.give(monitor, folder / names[0])
                self.assertEqual((status, self.moved(monitor, before)), (DONE, set()), error)
                for name in (*parts[1:], "drain-end.sh"):
                    self.refuses(monitor, folder / name, NO, f"{name}: pairs ")
                for number, name in enumerate(parts):
                    before = self.places(monitor)
                    status, told, error = self.give(monitor, folder)
                    self.assertEqual(status, MORE, error)
                    self.assertStarts(told, f"{name}: ")
                    self.assertEqual(self.moved(monitor, before), self.groups_of(folder, name), number)
                before = self.places(monitor)
                status, told, error = self.give(monitor, folder)
                self.assertEqual((status, self.moved(monitor, before)), (DONE, set()), error)
                self.assertEqual(told.splitlines()[-1], "all is given")
                self.assertFalse(any(7 in own for own in self.places(monitor).values()))
                self.assertNotIn("norebalance", self.state(monitor)["flags"])
                self.has_left_nothing(monitor)
                epoch = self.state(monitor)["epoch"]
                self.assertEqual(self.give(monitor, folder)[:2], (DONE, "all is given\n"))
                self.assertEqual(self.state(monitor)["epoch"], epoch)

    def test_way_back(self) -> None:
        """A drain that was begun goes back by its --undo; and what is told by --json is as its schema says."""
        for tools in self.there():
            with self.subTest(tools=tools), ReefMonitor(tools, OSDMAP) as monitor:
                before, dump = self.places(monitor), self.state(monitor)
                folder = self.drain(monitor, 60)
                own = self.output("drain", self.tools.folder / "now.json", "osd.7", "--undo")
                undo = self.tools.put("undo.sh", own)
                dry = json.loads(self.give(monitor, folder, "--dry-run", "--json")[1])
                self.assertEqual(self.state(monitor)["epoch"], dump["epoch"])
                told = json.loads(self.give(monitor, folder, "--json")[1])
                self.assertEqual([*faults_of(dry), *faults_of(told)], [])
                self.assertEqual([own["name"] for own in dry["parts"]], ["drain-000.sh"])
                self.assertEqual([own["name"] for own in told["parts"]], ["drain-000.sh", "drain-001.sh"])
                self.assertEqual([own["moves"] for own in told["parts"]], [0, len(self.moved(monitor, before))])
                status, _, error = self.give(monitor, undo)
                self.assertEqual((status, self.moved(monitor, before)), (DONE, set()), error)
                now = self.state(monitor)
                self.assertEqual((exceptions(now), now["flags"]), (exceptions(dump), dump["flags"]))
                self.assertEqual([own["weight"] for own in now["osds"]], [own["weight"] for own in dump["osds"]])

    def test_changes_between(self) -> None:
        """What decides where groups lie and has changed since the dump keeps a drain back; and so does another cluster
        with the same map, and a norebalance that another has left behind its beginning."""
        for tools in self.there():
            with self.subTest(tools=tools), ReefMonitor(tools, OSDMAP) as monitor:
                self.asked(monitor, "osd", "crush", "rule", "create-replicated", "other", "default", "osd")
                folder = self.drain(monitor, 60)

                def refused(told: str, change: str) -> None:
                    """Asks that nothing is given."""
                    words = {"a reweight": "a reweight", "an exceptio": "an exception"}
                    self.refuses(monitor, folder, NO, words.get(told[:11].strip(), "the size or the rule of a pool"))

                self.changed_between(monitor, refused)
                folder = self.drain(monitor, 60)
                with ReefMonitor(monitor.tools, OSDMAP) as other:
                    self.refuses(other, folder, NO, ": of another cluster: its fsid is ")
                self.assertEqual(self.give(monitor, folder / "drain-000.sh")[0], DONE)
                self.asked(monitor, "osd", "set", "norebalance")
                self.refuses(monitor, folder, NO, "norebalance is set, as by a script that ended before its end")
                self.asked(monitor, "osd", "unset", "norebalance")
                self.asked(monitor, "osd", "reweight", "5", "0.9")
                self.refuses(monitor, folder, NO, " is another than at its turn")


class Interruptions(GiveCase):
    """What comes between: signals, kills, another giver, a monitor that ends."""

    def held(self, monitor: ReefMonitor, place: str, plan: object, *words: object) -> Held:
        """`give`, which waits before it gives a command that begins so."""
        return Held(place, self.tools.words("give", plan, "--conf", monitor.conf, "--by-temps", *words)[3:])

    def test_two_givers(self) -> None:
        """Of two givers the second is refused, with the host and the start of the first, which ends its work. A giver
        that has ended holds the lock no longer than its claim says."""
        for tools in self.there():
            with self.subTest(tools=tools), ReefMonitor(tools, OSDMAP) as monitor:
                folder = self.drain(monitor)
                first = self.held(monitor, "osd crush reweight", folder / "drain-000.sh")
                self.assertTrue(first.has_come())
                before = self.state(monitor)["epoch"]
                status, told, error = self.give(monitor, folder, "--json")
                self.assertEqual((status, self.state(monitor)["epoch"]), (WAITS, before), error)
                self.assertEqual((json.loads(told)["refused"]["code"], faults_of_refusal(told)), ("wait", []))
                self.assertRegex(
                    error, f"process {first.process.pid} of {os.uname().nodename}, since 20[0-9-]+ [0-9:]+ UTC"
                )
                status, told, error = first.ended()
                self.assertEqual(status, DONE, error)
                self.has_left_nothing(monitor)
                over = {"host": "gone", "process": 1, "start": "once", "what": "parts", "until": 1.0, "renewals": 3}
                self.asked(monitor, "config-key", "set", "rekhuso/giver/dead", json.dumps({**over, "is_held": True}))
                self.assertEqual(self.give(monitor, folder)[0], MORE)
                self.has_left_nothing(monitor)

    def test_signals(self) -> None:
        """A signal at any moment: what is begun is finished, or with --half undo taken back, and the last line says
        so."""
        for tools in self.there():
            with self.subTest(tools=tools), ReefMonitor(tools, OSDMAP) as monitor:
                folder, before = self.drain(monitor, 60), self.places(monitor)
                dump = self.state(monitor)
                for place, number in (
                    ("osd dump", signal.SIGTERM),
                    ("config-key set", signal.SIGINT),
                    ("osd set", signal.SIGHUP),
                    ("osd crush reweight", signal.SIGTERM),
                ):
                    with self.subTest(place=place, number=number):
                        self.is_undone(monitor, place, number, folder / "drain-000.sh")
                        self.is_as_it_was(monitor, dump, before)
                # Pairs are given many at once: by then all may be given before the signal is seen.
                held = self.held(monitor, "osd pg-upmap-items", folder / "drain-000.sh")
                self.assertTrue(held.has_come())
                held.process.send_signal(signal.SIGTERM)
                time.sleep(1)
                status, told, error = held.ended()
                self.assertEqual((status, self.moved(monitor, before)), (DONE, set()), error)
                self.assertRegex(
                    told.splitlines()[0], "all groups are where it was foretold; .*a signal came meanwhile"
                )
                self.assertNotIn("norebalance", self.state(monitor)["flags"])

    def is_undone(self, monitor: ReefMonitor, place: str, number: int, plan: pathlib.Path) -> None:
        """Asks that a signal ends `give` as it gives a command that begins so, with one line, which is true."""
        held = self.held(monitor, place, plan, "--half", "undo")
        has_come = held.has_come()
        held.process.send_signal(number)
        # A process that waits for this in a thread takes the signal meanwhile in its first one.
        time.sleep(1)
        status, told, error = held.ended()
        self.assertTrue(has_come, error)
        self.assertEqual((status, told), (NO, ""), error)
        self.assertRegex(error, "^[^ ]*drain-000.sh: interrupted; the cluster is as it was(; no manager answers.*)?\n$")

    def is_as_it_was(self, monitor: ReefMonitor, dump: Json, before: dict[str, set[int]]) -> None:
        """Asks that a cluster has what it had, and that nothing is left in it."""
        now = self.state(monitor)
        self.assertEqual((exceptions(now), now["flags"]), (exceptions(dump), dump["flags"]))
        self.assertEqual(self.moved(monitor, before), set())
        self.has_left_nothing(monitor)

    def killed(self, monitor: ReefMonitor, place: str, plan: object, *words: object) -> None:
        """Kills a giver as it gives a command that begins so, and has its lock be over."""
        held = self.held(monitor, place, plan, *words)
        self.assertTrue(held.has_come(), held.process.poll())
        held.process.kill()
        held.ended()
        for key, text in json.loads(self.asked(monitor, "config-key", "dump", "rekhuso/giver/", "-f", "json")).items():
            self.asked(monitor, "config-key", "set", key, json.dumps({**json.loads(text), "until": 1.0}))

    def test_killed_giver(self) -> None:
        """What a giver leaves that was killed is finished by the same words: norebalance is unset where it had set it,
        and no group moves that was not foretold."""
        for place in ("osd crush reweight", "osd pg-upmap-items", "osd unset"):
            for tools in self.there():
                with self.subTest(tools=tools), ReefMonitor(tools, OSDMAP) as monitor:
                    folder, before = self.drain(monitor, 60), self.places(monitor)
                    self.killed(monitor, place, folder / "drain-000.sh")
                    self.assertIn("norebalance", self.state(monitor)["flags"])
                    status, told, error = self.give(monitor, folder / "drain-000.sh")
                    self.assertEqual((status, self.moved(monitor, before)), (DONE, set()), error)
                    self.assertEqual(told.splitlines()[-1], "all is given")
                    self.assertNotIn("norebalance", self.state(monitor)["flags"])
                    self.has_left_nothing(monitor)

    def test_leader_killed(self) -> None:
        """Where the leading one of three monitors is killed on the way, all is given or taken back, and no group is
        elsewhere."""
        for place in ("osd crush reweight", "osd pg-upmap-items"):
            for half in ("finish", "undo"):
                for tools in self.there():
                    with self.subTest(tools=tools), ReefMonitor(tools, OSDMAP, 3) as monitor:
                        folder, before = self.drain(monitor, 60), self.places(monitor)
                        asked = json.loads(self.asked(monitor, "quorum_status"))
                        held = self.held(monitor, place, folder / "drain-000.sh", "--half", half)
                        self.assertTrue(held.has_come())
                        monitor.kill(asked["quorum_leader_name"])
                        status, told, error = held.ended()
                        self.assertEqual(self.moved(monitor, before), set(), (told, error))
                        self.assertNotIn("norebalance", self.state(monitor)["flags"])
                        if status == DONE:
                            self.assertIn("all groups are where it was foretold", told)
                            self.assertEqual(self.give(monitor, folder / "drain-000.sh")[1], "all is given\n")
                        else:
                            self.assertIn("; the cluster is as it was", error)


class HeldMaps(GiveCase):
    """Holds with their CRUSH map."""

    def test_hold(self) -> None:
        """A hold comes with its CRUSH map in one map, and goes back so; without the map, with another, and beside a
        change since the dump nothing is given."""
        for tools in self.there():
            with self.subTest(tools=tools), ReefMonitor(tools, OSDMAP) as monitor:
                path, before, dump = self.hold(monitor), self.places(monitor), self.state(monitor)
                self.refuses(monitor, path, 2, "takes --crush FILE")
                self.refuses(
                    monitor, path, NO, "not the CRUSH map that the hold was made for", "--crush", self.file("old")
                )
                self.asked(monitor, "osd", "reweight", "5", "0.9")
                self.refuses(monitor, path, NO, "a reweight is another than in the dump", "--crush", self.file("new"))
                self.asked(monitor, "osd", "reweight", "5", "1")
                epoch = self.state(monitor)["epoch"]
                status, told, error = self.give(monitor, path, "--crush", self.file("new"))
                self.assertEqual((status, self.moved(monitor, before)), (DONE, set()), error)
                self.assertIn(" commands in 1 map, none refused; all groups are where they were", told)
                self.assertEqual(self.state(monitor)["epoch"], epoch + 3)
                self.has_left_nothing(monitor)
                self.output(
                    *("hold", self.tools.folder / "now.json", "--crush", self.file("new.json")),
                    *("--undo", "--to", self.file("back.sh")),
                )
                status, _, error = self.give(monitor, self.file("back.sh"), "--crush", self.file("old"))
                self.assertEqual((status, self.moved(monitor, before)), (DONE, set()), error)
                self.assertEqual(exceptions(self.state(monitor)), exceptions(dump))

    def file(self, name: str) -> pathlib.Path:
        """A file of the test."""
        return self.tools.folder / name

    def test_given_by_half(self) -> None:
        """Where the CRUSH map of a hold stands and pairs do not, the same words give what lacks."""
        for tools in self.there():
            with self.subTest(tools=tools), ReefMonitor(tools, OSDMAP) as monitor:
                path, before = self.hold(monitor), self.places(monitor)
                self.asked(monitor, "osd", "setcrushmap", "-i", self.file("new"))
                self.assertNotEqual(self.moved(monitor, before), set())
                status, told, error = self.give(monitor, path, "--crush", self.file("new"))
                self.assertEqual((status, self.moved(monitor, before)), (DONE, set()), error)
                self.assertEqual(told.splitlines()[-1], "all is given")


class Gathered(GiveCase):
    """What `gather` writes."""

    def test_gathered(self) -> None:
        """One file of one epoch stands for both dumps, and has the bytes of the map."""
        for tools in self.there():
            with self.subTest(tools=tools), ReefMonitor(tools, OSDMAP) as monitor:
                path = self.gathered(monitor)
                files = self.dumped(monitor)
                self.assertEqual(self.output("df", path), self.output("df", *files))
                self.assertEqual(commands(self.output("plan", path)), commands(self.output("plan", *files)))
                found = json.loads(path.read_text())
                self.assertEqual(found["osdmap"]["epoch"], self.state(monitor)["epoch"])
                self.assertIn("no manager answers", self.ran("gather", "--conf", monitor.conf)[1])

    def test_beside_dumps(self) -> None:
        """The parts that tell of groups and of what pools hold stand behind --pgs and --df."""
        for tools in self.there():
            with self.subTest(tools=tools), ReefMonitor(tools, OSDMAP) as monitor:
                files = self.dumped(monitor)
                osd, crush = (json.loads(path.read_text()) for path in files)
                epoch = osd["epoch"]
                stats = [
                    {
                        **{"pgid": group, "up": own, "acting": own, "up_primary": first, "acting_primary": first},
                        **{"state": "active+clean", "reported_epoch": epoch, "stat_sum": {"num_bytes": 1 << 20}},
                    }
                    for group, (own, first) in monitor.sets().items()
                ]
                pools = [
                    {
                        "id": own["pool"],
                        "name": own["pool_name"],
                        "stats": {"bytes_used": own["pg_num"] << 22, "stored": own["pg_num"] << 20},
                    }
                    for own in osd["pools"]
                ]
                data = {"pg_stats": stats, "df": {"stats": {"total_bytes": 10**12}, "pools": pools}}
                path = self.tools.put("one.json", {"osdmap": osd, "crushmap": crush, **data})
                pgs, df = self.tools.put("pgs.json", {"pg_stats": stats}), self.tools.put("df.json", data["df"])
                own = self.output("plan", path, "--pgs", path, "--df", path)
                self.assertEqual(commands(own), commands(self.output("plan", *files, "--pgs", pgs, "--df", df)))
                self.assertGreater(len(commands(own)), 3)


def faults_of_refusal(text: str) -> list[str]:
    """What of a refusal is not as its schema says."""
    return faults_of({**json.loads(text), "command": "refusal"})
