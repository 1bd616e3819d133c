"""`Monitor` over a store, the shell over one, and `history` over what `osdmapstore` has written.

The program is the one that OSDMAPSTORE names, else the one that is built here; without one nothing is run.
"""

from __future__ import annotations

import contextlib
import json
import os
import pathlib
import re
import shutil
import signal
import subprocess
import sys
from collections.abc import Callable
from concurrent.futures import ThreadPoolExecutor
from typing import Any
from unittest import mock

from rekhuso import Fault, Monitor, Refused, Session, Unopened

from tests import model
from tests.cases import EXAMPLE, example
from tests.histories import CHANGES, TABLES, fill, held, rows, store_at
from tests.stores import but_for_claims, files_of, log_of, store_program
from tests.terminals import Terminal
from tests.tool_cases import AS_STORE, TOOLS, ToolCase

SECONDS = 300
# So many changes has a store that is only looked at.
MANY = 3_000
STOCK_BUCKET = dict(example()["buckets"][0], kind="straw2")


def undated(lines: list[str]) -> list[str]:
    """The lines of `history` without the times at which changes were made."""
    return [re.sub(r"^(epoch \d+) at \d{4}-\d\d-\d\dT\d\d:\d\d:\d\dZ:", r"\1:", line) for line in lines]


def last_change(session: Session) -> int:
    """The epoch of the last of eight changes that a session makes, each as often as it takes to be the next."""
    epoch, line = session.epoch(), 'change {"base":%d,"up":[1]}'
    for _ in range(8):
        answer = session.raw([line % epoch])[0]
        while answer.startswith("err 20 "):
            answer = session.raw([line % int(answer.split(" ")[-1])])[0]
        epoch = int(answer.split(" ")[1])
    return epoch


class PythonStores(ToolCase):
    """Sessions over stores."""

    PROGRAMS = ("OSDMAPD", "OSDMAPSTORE")

    def setUp(self) -> None:
        self.needs(f"program {store_program()} (OSDMAPSTORE names another)", os.access(store_program(), os.X_OK))
        super().setUp()

    def path(self, name: str = "store") -> pathlib.Path:
        """A file of the test's folder."""
        return self.tools.folder / name

    def monitor(self, value: object = None, name: str = "store", **options: Any) -> Monitor:
        """A monitor over a store of the test's folder."""
        own = None if value is None else json.dumps(value)
        return Monitor(own, store_program(), timeout=SECONDS, store=self.path(name), **options)

    def is_unopened(self, reason: str, ask: Callable[[], object], name: str = "store") -> None:
        """Asks that a store is not opened for a reason, in an exception of its own that tells the path and the
        reason."""
        with self.assertRaises(Unopened) as fault:
            ask()
        self.assertEqual((fault.exception.path, fault.exception.reason), (str(self.path(name)), reason))
        self.assertEqual(str(fault.exception), f"{self.path(name)}: {reason}")
        self.assertTrue(isinstance(fault.exception, Fault))

    def test_changes_are_there_again(self) -> None:
        """Changes are there at the next start, whose epoch is told, by the map that the independent program has after
        them; a monitor without a store tells no such epoch."""
        wanted = model.answers(example(), ['change {"base":1,"down":[2]}', "dump", "up 1.0"])
        with self.monitor(example()) as monitor:
            self.assertEqual((monitor.found_epoch, monitor.epoch()), (1, 1))
            self.assertEqual(monitor.raw(['change {"base":1,"down":[2]}', "dump", "up 1.0"]), wanted)
        for epoch in (2, 3):
            with self.monitor() as monitor:
                self.assertEqual((monitor.found_epoch, monitor.epoch()), (epoch, epoch))
                if epoch == 2:
                    self.assertEqual(monitor.raw(["dump", "up 1.0"]), wanted[1:])
                    self.assertEqual(monitor.change(up=[2]).epoch, 3)
        with Monitor(example(), self.program, timeout=SECONDS) as monitor:
            self.assertIsNone(monitor.found_epoch)

    def test_ways_to_name_a_map_and_a_store(self) -> None:
        """The map may be a value, its text or a path, and the store the path of a file from here; nothing at all is an
        error of use."""
        text = json.dumps(example())
        values: dict[str, Any] = {"value": example(), "text": text, "path": EXAMPLE, "word": str(EXAMPLE)}
        self.addCleanup(os.chdir, os.getcwd())
        os.chdir(self.tools.folder)
        for name, value in values.items():
            with self.subTest(name=name):
                with Monitor(value, store_program(), timeout=SECONDS, store=name) as monitor:
                    self.assertEqual((monitor.found_epoch, monitor.change(down=[1]).epoch), (1, 2))
                with Monitor(program=store_program(), timeout=SECONDS, store=name) as monitor:
                    self.assertEqual(monitor.found_epoch, 2)
        self.assertLessEqual({*values}, {path.name for path in self.tools.folder.iterdir()})
        with self.assertRaises(ValueError):
            Monitor()

    def test_sessions(self) -> None:
        """Four sessions at one store: all changes are of one history, and are there at the next start."""
        with self.monitor(example(), sessions=4) as monitor, ThreadPoolExecutor(4) as threads:
            self.assertEqual(max(threads.map(last_change, monitor.sessions)), 33)
            self.assertEqual((monitor.found_epoch, monitor.epoch()), (1, 33))
        with self.monitor(sessions=2) as monitor:
            self.assertEqual((monitor.found_epoch, monitor.sessions[1].epoch()), (33, 33))

    def test_what_is_answered_is_kept(self) -> None:
        """A change that was answered is there though the program is killed then, by a signal or by an exception."""
        with self.monitor(example()) as monitor:
            monitor.change(down=[1])
            os.kill(monitor._process.pid, signal.SIGKILL)
            with self.assertRaises(Fault):
                monitor.epoch()
        with self.assertRaises(KeyError), self.monitor() as monitor:
            self.assertEqual(monitor.found_epoch, 2)
            monitor.change(down=[2])
            raise KeyError
        with self.monitor() as monitor:
            self.assertEqual((monitor.found_epoch, monitor.count(0)), (3, 1))

    def test_stores_that_are_not_opened(self) -> None:
        """A store that is not there, is there already, is open, or is no store: an exception with the reason. A map
        that is refused is told by its name, and begins no store."""
        self.is_unopened("there is no store at this path", self.monitor)
        with self.assertRaises(Refused) as refused:
            self.monitor({})
        self.assertEqual(refused.exception.name, "BadField")
        self.assertFalse(self.path().exists())
        with self.monitor(example()) as monitor:
            self.is_unopened("the store is in use", self.monitor)
            self.is_unopened("the store is in use", lambda: self.monitor(sessions=3))
            self.assertEqual(monitor.change(down=[1]).epoch, 2)
        self.is_unopened("the store has a first map already", lambda: self.monitor(example()))
        self.tools.put("text", "no store, but a text that is longer than the header of a database" * 9)
        self.is_unopened("the file is not a store", lambda: self.monitor(name="text"), "text")
        with store_at(self.path("other"), *TABLES) as database:
            fill(database, example(), [(2, 'plain {"base":1,"up":[9]}')])
        self.is_unopened("row 2: UnknownOsd", lambda: self.monitor(name="other"), "other")
        with self.monitor() as monitor:
            self.assertEqual(monitor.found_epoch, 2)

    def test_profile_of_a_store(self) -> None:
        """A store that is opened takes straw2 buckets, unless that is said otherwise; one that begins takes them where
        its map has some, or it is said."""
        crush = {"buckets": [STOCK_BUCKET], "rules": example()["rules"]}
        stock = dict(example(), buckets=[STOCK_BUCKET])
        cases: list[tuple[str, object, bool | None, bool]] = [
            ("plain", example(), None, False),
            ("plain", None, False, False),
            ("plain", None, None, True),
            ("stock", stock, None, True),
            ("stock", None, None, True),
            ("said", example(), True, True),
        ]
        for name, value, said, is_taken in cases:
            with self.subTest(name=name, said=said):
                with self.monitor(value, name, stock=said) as monitor:
                    self.assertEqual(monitor.is_stock, is_taken)
                    answer = monitor.raw([f"change {json.dumps({'base': monitor.epoch(), 'new_crush': crush})}"])[0]
                    self.assertEqual(answer.split(" ")[0], "ok" if is_taken else "err", answer)

    def test_store_of_other_sqlite(self) -> None:
        """A store that Python's SQLite has made, with all kinds of changes, is opened with the map after them."""
        with store_at(self.path(), *TABLES) as database:
            fill(database, example(), rows())
        lines = [f"change {json.dumps(dict(change, base=base))}" for base, (change, _) in enumerate(CHANGES, 1)]
        with self.monitor() as monitor:
            self.assertEqual(monitor.found_epoch, 1 + len(CHANGES))
            self.assertEqual(monitor.raw(["dump"]), model.answers(example(), [*lines, "dump"])[-1:])

    def test_history_of_a_program(self) -> None:
        """`history` tells what `osdmapstore` has kept, and the map of each epoch, also while the program runs; it
        leaves the files as they are, and goes on after the next start."""
        maps = []
        folder = self.path("folder")
        folder.mkdir()
        with self.monitor(example(), "folder/store", stock=True) as monitor:
            maps.append(monitor.text())
            for base, (change, _) in enumerate(CHANGES, 1):
                self.assertStarts(monitor.raw([f"change {json.dumps(dict(change, base=base))}"])[0], "ok ")
                maps.append(monitor.text())
            beside = self.output("history", folder / "store").splitlines()
        before = held(folder)
        first = "epoch 1: the first map, with 4 OSDs, 1 pool, 1 group and 0 exceptions"
        wanted = [f"epoch {epoch}: {line}" for epoch, (_, line) in enumerate(CHANGES, 2)]
        head, *lines = self.output("history", folder / "store").splitlines()
        self.assertRegex(head, r"^store \d+: a start leaves the last 1024 changes$")
        self.assertEqual(undated(lines), [first, *wanted])
        self.assertEqual(beside, [head, *lines])
        for epoch in (1, 2, 14, len(maps)):
            self.assertEqual(self.output("history", folder / "store", "--at", epoch), maps[epoch - 1] + "\n")
        self.assertEqual(held(folder), before)
        with self.monitor(name="folder/store") as monitor:
            self.assertEqual(monitor.found_epoch, len(maps))
            monitor.change(down=[3])
        lines = self.output("history", folder / "store").splitlines()
        self.assertEqual(undated(lines), [head, first, *wanted, f"epoch {len(maps) + 1}: osd.3 down"])

    def test_plan_in_a_history(self) -> None:
        """The moves of a plan that was committed are told as pairs, as many as the plan has moves."""
        value = self.tools.map("001-built")
        with self.monitor(value) as monitor:
            moved = monitor.balance(1, 3)
        self.assertEqual((moved.moves, moved.epoch), (3, value["epoch"] + 1))
        told = self.json("history", self.path())
        pairs = told["changes"][0]["pg_upmap_items"]
        self.assertEqual(sum(len(own) for _, own in pairs["added"]), 3)
        self.assertEqual((told["first_epoch"], told["epoch"]), (value["epoch"], moved.epoch))
        lines = undated(self.output("history", self.path()).splitlines())
        self.assertStarts(lines[-1], f"epoch {moved.epoch}: pg_upmap_items added: 1.")

    def test_changed_store(self) -> None:
        """A store of the program that another SQLite has written is refused by both: its sums are wrong."""
        with self.monitor(example()) as monitor:
            monitor.change(down=[2])
        self.assertEqual(len(self.output("history", self.path()).splitlines()), 3)
        with store_at(self.path(), "UPDATE journal SET change = replace(change, '[2]', '[3]')"):
            pass
        told = f"{self.path()}: the store is damaged, or another program has written it"
        self.is_told(self.tools.run("history", self.path()), 2, told, "changed")
        self.is_unopened("the store is damaged, or another program has written it", self.monitor)

    def test_backup(self) -> None:
        """`backup` makes a store of one file, also while a program has the store open, and tells its epoch; what keeps
        it from that is told in a line."""
        words = ["--store-program", store_program()]
        with self.monitor(example()) as monitor:
            monitor.change(down=[2])
            told = self.tools.run("backup", self.path(), self.path("copy"), *words)
            self.assertEqual(told, (0, "epoch 2\n", ""))
        self.assertEqual(len(self.output("history", self.path("copy")).splitlines()), 3)
        with self.monitor(name="copy") as monitor:
            self.assertEqual(monitor.found_epoch, 2)
        for store, to, reason in (
            ("store", "copy", "there is a file at the path of the copy"),
            ("none", "other", "there is no store at this path"),
        ):
            with self.subTest(store=store):
                told = self.tools.run("backup", self.path(store), self.path(to), *words)
                self.is_told(told, 2, f"{self.path(store)}: {reason}", store)
        other = self.tools.run("backup", self.path(), self.path("other"), "--store-program", self.tools.program)
        self.is_told(other, 2, f"{self.tools.program}: ", "another program")
        self.assertFalse(self.path("other").exists())

    def with_lost_log(self) -> bytes:
        """Makes a store whose program is killed behind a change, and takes its log away: the log."""
        with self.monitor(example()) as monitor:
            monitor.change(down=[2])
            os.kill(monitor._process.pid, signal.SIGKILL)
            with self.assertRaises(Fault):
                monitor.epoch()
        log = log_of(self.path()).read_bytes()
        log_of(self.path()).unlink()
        return log

    def test_lost_log(self) -> None:
        """Where the log of a store is missing behind a kill, each tool tells so in the same words, and changes nothing;
        with the epoch that is told each goes on from what the file has. Behind an orderly end no log is missed."""
        log, program = self.with_lost_log(), ["--store-program", store_program()]
        told = "its log is missing: bring it back, or by --without-log 1 lose what it has behind that epoch"
        for left in (None, log[:40]):
            if left is not None:
                log_of(self.path()).write_bytes(left)
            before = files_of(self.path())
            forms: list[list[object]] = [[], ["--without-log", 2]]
            for words in forms:
                for own in (["history", self.path()], ["backup", self.path(), self.path("copy"), *program]):
                    self.is_told(self.tools.run(*own, *words), 2, f"{self.path()}: {told}\n", (left, own, words))
                self.is_told(self.shell("--store", self.path(), *words, typed="epoch\n"), 2, f": {told}\n", words)
            self.is_unopened(told, self.monitor)
            self.is_unopened(told, lambda: self.monitor(without_log=2))
            self.assertEqual((files_of(self.path()), self.path("copy").exists()), (before, False))
        words = ["--without-log", 1]
        self.assertEqual(self.output("history", self.path(), *words).splitlines()[-1][:8], "epoch 1:")
        self.assertEqual(
            self.tools.run("backup", self.path(), self.path("copy"), *program, *words), (0, "epoch 1\n", "")
        )
        self.assertEqual(self.shell("--store", self.path("copy"), *words, typed="epoch\n"), (0, "epoch 1\n", ""))
        with self.monitor(without_log=1) as monitor:
            self.assertEqual((monitor.found_epoch, monitor.change(down=[1]).epoch), (1, 2))
        log_of(self.path()).unlink()
        self.assertIn("\nepoch 2", self.output("history", self.path()))

    def test_words_of_a_lost_log(self) -> None:
        """`without_log` opens a store that is there, and is an error of use elsewhere."""
        told = "--without-log goes with --store alone, and with no map"
        self.is_told(self.shell(EXAMPLE, "--store", "s", "--without-log", 1, typed=""), 2, told, "map")
        self.is_told(self.tools.run("shell", EXAMPLE, "--without-log", 1, stdin=""), 2, told, "no store")
        for value, store in ((example(), "s"), (example(), None)):
            with self.assertRaises(ValueError):
                Monitor(value, store_program(), store=store, without_log=1)

    def test_looking(self) -> None:
        """Who only looks at a store leaves the bytes of its file as they are, however many changes it has; a session
        that changes nothing leaves all but the number of the schema."""
        with store_at(self.path(), *TABLES) as database:
            fill(database, example(), [(1 + base, f'plain {{"base":{base},"up":[1]}}') for base in range(1, 1 + MANY)])
        with self.monitor(name="store"):
            pass
        before = self.path().read_bytes()
        words = ["--store-program", store_program()]
        looks: dict[str, Callable[[], object]] = {
            "history": lambda: self.output("history", self.path()),
            "history --at": lambda: self.output("history", self.path(), "--at", 7),
            "backup": lambda: self.output("backup", self.path(), self.path("copy"), *words),
            "shell": lambda: self.assertEqual(
                self.shell("--store", self.path(), typed="epoch\n"), (0, f"epoch {1 + MANY}\n", "")
            ),
        }
        for name, look in looks.items():
            with self.subTest(name=name):
                look()
                left = self.path().read_bytes()
                self.assertEqual(but_for_claims(left), but_for_claims(before))
                self.assertTrue(left == before or name == "shell")
        with self.monitor() as monitor:
            self.assertEqual(monitor.epoch(), 1 + MANY)
        self.assertEqual(but_for_claims(self.path().read_bytes()), but_for_claims(before))

    def shell(self, *words: object, typed: str) -> tuple[int, str, str]:
        """What a shell tells over lines that are typed."""
        return self.tools.run("shell", *words, "--store-program", store_program(), stdin=typed)

    def test_shell(self) -> None:
        """The shell begins a store with a map or with dumps, and opens one that is there; what goes wrong is told in a
        line."""
        path = self.path()
        self.assertEqual(self.shell("--store", path, EXAMPLE, typed=""), (0, "", ""))
        typed = 'change {"base":1,"down":[2]}\nup 1.0\nquit\n'
        self.assertEqual(self.shell("--store", path, typed=typed), (0, "ok 2 evals 0\nup 2 1.0 [3,0] 3\n", ""))
        self.assertEqual(self.shell("--store", path, typed="epoch"), (0, "epoch 2\n", ""))
        self.is_told(self.shell("--store", path, EXAMPLE, typed=""), 2, f"{path}: the store has a first map", "begun")
        self.is_told(self.shell("--store", self.path("no"), typed=""), 2, ": there is no store at this path", "missing")
        osd, crush = self.tools.dumps("002-built")
        status, output, error = self.shell(osd, crush, "--store", "dumps", typed="epoch\n")
        self.assertEqual((status, output), (0, f"epoch {self.tools.map('002-built')['epoch']}\n"), error)
        told = f"{osd}: this is an OSD dump, and no map"
        self.is_told(self.shell(osd, "--store", "dump", typed=""), 2, told, "dump")
        self.is_told(self.shell("--store", path, "--pools", "1", typed=""), 2, "go with two dumps alone", "pools")

    def test_shell_at_a_terminal(self) -> None:
        """At a terminal the shell first tells the epoch that it has found."""
        with store_at(self.path(), *TABLES) as database:
            fill(database, example(), rows()[:4])
        words = self.tools.words("shell", "--store", self.path(), "--store-program", store_program())
        with mock.patch.dict(os.environ, {"HOME": str(self.tools.folder)}):
            shell = Terminal(words, self.tools.folder)
        self.assertIn("epoch 5; help tells the commands\r\n", shell.type("", "osdmap> "))
        self.assertIn("\r\nok 6 evals 0\r\n", shell.type('change {"base":5,"down":[0]}\n', "osdmap> "))
        self.assertEqual(shell.close(), 0)

    def test_words_of_a_shell(self) -> None:
        """A shell over nothing, or with a program of stores and no store, is used wrongly."""
        self.is_told(self.tools.run("shell", stdin=""), 2, "one map, or two dumps, or --store STORE", "nothing")
        told = "--store-program goes with --store alone"
        self.is_told(self.shell(EXAMPLE, typed=""), 2, told, "program")
        told = "shell takes one map, or two dumps"
        self.is_told(self.tools.run("shell", EXAMPLE, EXAMPLE, EXAMPLE, "--store", "s", stdin=""), 2, told, "three")

    def test_places_of_the_program(self) -> None:
        """`osdmapstore` is found beside the `osdmapd` that --program names, and on the path; where it is nowhere, the
        places where it was looked for are told."""
        beside, path = self.path("beside"), self.path("path")
        for folder, program in ((beside, store_program()), (path, store_program())):
            folder.mkdir()
            (folder / "osdmapstore").symlink_to(program)
        tools = shutil.copytree(TOOLS, self.path("tools") / "rekhuso", ignore=shutil.ignore_patterns("__pycache__"))
        words = [sys.executable, "-B", str(tools), "shell", "--store", str(self.path()), str(EXAMPLE), "--program"]
        cases = [(beside / "osdmapd", "/nowhere", 0), (self.path("osdmapd"), path, 0), (self.path("osdmapd"), "/no", 2)]
        for program, where, status in cases:
            with self.subTest(program=program, where=where), mock.patch.dict(os.environ, {"PATH": str(where)}):
                with contextlib.suppress(FileNotFoundError):
                    self.path().unlink()
                own = [*words, str(program)]
                done = subprocess.run(
                    own, input="epoch\n", capture_output=True, text=True, timeout=SECONDS, check=False
                )
                self.assertEqual((done.returncode, done.stdout), (status, "" if status else "epoch 1\n"), done.stderr)
        told = f"no program: {self.path('osdmapstore')} is not there, and no folder of PATH has osdmapstore (/no); "
        self.assertStarts(done.stderr, told)
        self.assertIn("--store-program FILE names it", done.stderr)

    def test_program_that_is_none(self) -> None:
        """A program that does not tell the epoch first is another, and one that tells nothing in time is ended."""
        other = f"{AS_STORE}echo session 1\nexec cat\n", ": another program: its output begins with b'session 1"
        gone = f"{AS_STORE}echo 'store: gone' >&2\nexit 7\n", "the program ended with status 7: store: gone"
        silent = f"{AS_STORE}exec sleep 60\n", "no answer within 0.2 seconds"
        for name, (text, told), limit in (("other", other, SECONDS), ("gone", gone, SECONDS), ("silent", silent, 0.2)):
            self.tools.put(name, text).chmod(0o755)
            for sessions in (1, 2):
                with self.subTest(name=name, sessions=sessions), self.assertRaises(Fault) as fault:
                    Monitor(program=self.path(name), sessions=sessions, timeout=limit, store=self.path())
                self.assertIn(told, str(fault.exception))
