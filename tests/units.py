"""The units of packages: how open they leave a machine; and the commands of that of a store,
`packages/osdmapstore.service`, run as systemd runs them over folders of the tests' own."""

from __future__ import annotations

import os
import pathlib
import re
import select
import shlex
import shutil
import signal
import subprocess
import threading
import time
from collections.abc import Iterator

from rekhuso.program.stores import LOG

from tests.cases import EXAMPLE, TOP, Case
from tests.stores import StoreCase, log_of

UNIT = TOP / "packages" / "osdmapstore.service"
# The most that `systemd-analyze security` may tell of each unit, of 10: that of `carry` speaks to a network.
EXPOSED = {"osdmapstore.service": 0.5, "rekhuso-carry.service": 1.5}
SECONDS = 60
# What the commands of a unit say goes to the journal of systemd.
NULL = subprocess.DEVNULL


def lines_of(key: str) -> list[str]:
    """What the unit says by a key, in order."""
    found = re.findall(rf"(?m)^{key}=(.*)$", UNIT.read_text(encoding="utf-8"))
    assert found, f"{UNIT} says nothing by {key}"
    return found


def told_by(*words: object) -> str:
    """What a command puts out."""
    done = subprocess.run([*map(str, words)], capture_output=True, text=True, timeout=SECONDS, check=True)
    return done.stdout


def calls_in(group: str) -> set[str]:
    """The system calls of a group of systemd's, and of those within it; or the one of this name."""
    if not group.startswith("@"):
        return {group}
    lines = [line.strip() for line in told_by("systemd-analyze", "syscall-filter", group).splitlines()[1:]]
    names = [line for line in lines if line and not line.startswith("#")]
    return {call for name in names for call in calls_in(name)}


def allowed_calls() -> set[str]:
    """The system calls that the unit allows, beside those that systemd always does."""
    found = calls_in("@default")
    for line in lines_of("SystemCallFilter"):
        for group in line.lstrip("~").split(" "):
            found = found - calls_in(group) if line.startswith("~") else found | calls_in(group)
    return found | calls_in("@default")


class Units(Case):
    """The units' files."""

    is_form = True

    def test_exposed(self) -> None:
        """systemd finds no fault in them, and little that they leave open"""
        self.needs("systemd-analyze", shutil.which("systemd-analyze") is not None)
        self.assertEqual({path.name for path in UNIT.parent.glob("*.service")}, {*EXPOSED})
        for name, most in EXPOSED.items():
            words = ["systemd-analyze", "security", "--offline=yes", str(UNIT.with_name(name))]
            told = subprocess.run(words, capture_output=True, text=True, timeout=SECONDS, check=False)
            self.needs("systemd-analyze that looks at a file", "unrecognized option" not in told.stderr)
            found = re.search(rf"exposure level for {name}: ([0-9.]+)", told.stdout)
            assert found is not None, told.stdout + told.stderr
            self.assertLessEqual(float(found[1]), most)

    def test_page(self) -> None:
        """docs/LIVE.md has of it what it has itself"""
        page = (TOP / "docs" / "LIVE.md").read_text(encoding="utf-8")
        shown = re.findall(r"(?m)^    ([A-Z][A-Za-z]+=.*)$", page)
        own = UNIT.read_text(encoding="utf-8").splitlines()
        self.assertGreater(len(shown), 5)
        self.assertEqual([line for line in shown if line not in own], [])


class Service:
    """The unit's commands over the folders of a test, in place of those of a system."""

    def __init__(self, folder: pathlib.Path, program: pathlib.Path) -> None:
        """Makes the folders, none of which has anything but the map."""
        self.places = {"/usr/bin/osdmapstore": str(program)}
        for name in ("/run/osdmap", "/var/lib/osdmap", "/etc/osdmap"):
            place = folder / name.replace("/", "_")
            place.mkdir()
            self.places[name] = str(place)
        shutil.copy(EXAMPLE, self.path("/etc/osdmap/map.json"))
        self.main: subprocess.Popen[bytes] | None = None

    def path(self, place: str) -> pathlib.Path:
        """Where the test has a path of the unit."""
        for name, own in self.places.items():
            place = place.replace(name, own)
        return pathlib.Path(place)

    def words(self, line: str) -> list[str]:
        """The words of a command, without more options."""
        for name, own in self.places.items():
            line = line.replace(name, own)
        return [word for word in shlex.split(line) if word != "$OPTIONS"]

    def ran(self, key: str, seconds: float = SECONDS) -> list[int]:
        """The statuses of the commands of a key."""
        variables = os.environ | {"MAINPID": str(self.main.pid) if self.main else ""}
        commands = [self.words(line) for line in lines_of(key)]
        return [
            subprocess.run(words, env=variables, timeout=seconds, check=False, stdout=NULL, stderr=NULL).returncode
            for words in commands
        ]

    def start(self) -> list[int]:
        """Starts it, up to where systemd tells that it is started: the statuses of what it runs beside."""
        before = self.ran("ExecStartPre")
        (line,) = lines_of("ExecStart")
        self.main = subprocess.Popen(self.words(line), start_new_session=True, stdout=NULL, stderr=NULL)
        # As systemd does: what has ended is no process any more.
        threading.Thread(target=self.main.wait, daemon=True).start()
        return before + self.ran("ExecStartPost")

    def stop(self, seconds: float = SECONDS) -> int:
        """Stops it as systemd does: what stops it, within a time, and then signals. The status of the program."""
        assert self.main is not None
        process = self.main
        words, variables = self.words(lines_of("ExecStop")[0]), os.environ | {"MAINPID": str(process.pid)}
        with subprocess.Popen(words, env=variables, start_new_session=True, stdout=NULL, stderr=NULL) as stopping:
            try:
                process.wait(seconds)
            except subprocess.TimeoutExpired:
                process.terminate()
            status = process.wait(SECONDS)
            for group in (stopping.pid, process.pid):
                kill(group)
        self.main = None
        return status

    def end(self) -> None:
        """Leaves nothing running."""
        if self.main is not None:
            kill(self.main.pid)
            self.main.wait(SECONDS)


def kill(group: int) -> None:
    """Kills all that is left of a group of processes."""
    try:
        os.killpg(group, signal.SIGKILL)
    except ProcessLookupError:
        pass


class Client:
    """Whoever holds both pipes open, and asks."""

    def __init__(self, service: Service) -> None:
        """Opens them."""
        # Both ways, so that lines wait in the pipe where no run reads them.
        self.lines = os.open(service.path("/run/osdmap/lines"), os.O_RDWR)
        self.answers = os.open(service.path("/run/osdmap/answers"), os.O_RDONLY | os.O_NONBLOCK)
        self.left = b""

    def send(self, *lines: str) -> None:
        """Sends lines."""
        os.write(self.lines, "".join(f"{line}\n" for line in lines).encode())

    def read(self) -> Iterator[str]:
        """Answers as they come, up to the end of the pipe, each within a limit of time."""
        end = time.monotonic() + SECONDS
        while time.monotonic() < end:
            line, newline, rest = self.left.partition(b"\n")
            if newline:
                self.left = rest
                yield line.decode()
                continue
            select.select([self.answers], [], [], 1)
            try:
                part = os.read(self.answers, 1 << 16)
            except BlockingIOError:
                continue
            if not part:
                return
            self.left += part

    def answer(self) -> str:
        """The next answer."""
        return next(self.read())

    def close(self) -> None:
        """Closes the lines, and leaves the answers open."""
        os.close(self.lines)


class Served(StoreCase):
    """A store as the unit has it."""

    def setUp(self) -> None:
        super().setUp()
        self.service = Service(self.folder, self.command)
        self.addCleanup(self.service.end)
        self.kept = self.service.path("/var/lib/osdmap/store")

    def logged(self) -> int:
        """How many bytes the store has in its log, beside what an empty one has."""
        log = log_of(self.kept)
        return max(log.stat().st_size - LOG, 0) if log.exists() else 0

    def start(self) -> None:
        """Starts the service, whose pipes and store are there then."""
        self.assertEqual(self.service.start(), [0, 0, 0])

    def test_started(self) -> None:
        """It is told as started once the store is open, with its epoch; clients come and go, and it goes on"""
        self.start()
        epoch = self.service.path("/run/osdmap/epoch")
        self.assertEqual(epoch.read_text(), "epoch 1\n")
        for at in (1, 2):
            client = Client(self.service)
            client.send(f'change {{"base":{at},"{"down" if at == 1 else "up"}":[2]}}')
            answers = client.read()
            found = next(answers)
            self.assertEqual(next(answers) if found == "session 1" else found, f"ok {at + 1} evals 0")
            client.close()
            os.close(client.answers)
        self.assertEqual(self.service.stop(), 0)
        self.assertEqual(self.service.ran("ExecStopPost"), [0])
        self.start()
        self.assertEqual(epoch.read_text(), "epoch 3\n")

    def test_stopped(self) -> None:
        """Where no client has the pipe open, a stop answers each line that was written, and leaves one file"""
        self.start()
        client = Client(self.service)
        changes = [f'change {{"base":{at},"{"down" if at % 2 else "up"}":[2]}}' for at in range(1, 41)]
        client.send(*changes, *["epoch"] * 20)
        client.close()
        self.assertEqual(self.service.stop(), 0)
        self.assertEqual(self.logged(), 0)
        answers = [*client.read()]
        self.assertEqual((len(answers), answers[40], answers[-1]), (61, "ok 41 evals 0", "epoch 41"))

    def test_killed(self) -> None:
        """Where a client keeps the pipe open, the program is killed: what was answered is there, in one file"""
        self.start()
        client = Client(self.service)
        client.send('change {"base":1,"down":[2]}')
        self.assertEqual([client.answer(), client.answer()], ["session 1", "ok 2 evals 0"])
        self.assertEqual(self.service.stop(seconds=0.5), -signal.SIGTERM)
        self.assertGreater(self.logged(), 0)
        self.assertEqual(self.service.ran("ExecStopPost"), [0])
        self.assertEqual(self.logged(), 0)
        # What waits in the pipe is answered by the next run.
        client.send("epoch")
        self.start()
        self.assertEqual([client.answer(), client.answer()], ["session 1", "epoch 2"])

    def test_not_started(self) -> None:
        """Where the map is refused, it is told as not started"""
        self.service.path("/etc/osdmap/map.json").write_text("{}")
        self.assertEqual(self.service.start(), [0, 0, 1])

    def test_system_calls(self) -> None:
        """The program makes no system call that the unit does not allow: it begins a store, changes it by sessions at
        once, and opens it once more"""
        for name in ("strace", "systemd-analyze"):
            self.needs(name, shutil.which(name) is not None)
        script, trace = (
            self.file("script", 'change {"base":1,"down":[2]}\nup 1.0\nfollow\ndump\n'),
            self.folder / "trace",
        )
        strace = ["strace", "-f", "-qq", "-o", trace]
        own = ["--keep", "3", "--by", "x", "--end-when-full", "--open-or-begin", EXAMPLE]
        told = told_by(*strace, self.command, *own, self.store, script, script)
        told += told_by(*strace, "-A", self.command, self.store)
        self.assertIn("ok 2 evals 0", told)
        self.assertEnds(told, "epoch 2\n")
        used = set(re.findall(r"(?m)^[0-9]* *([a-z_0-9]+)\(", trace.read_text()))
        self.assertGreater(len(used), 10)
        self.assertEqual(used - allowed_calls(), set())
