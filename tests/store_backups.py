"""Copies of a store by `--backup`, and a store's file by itself.

Copies are made while a live session changes the store as quickly as it can, over many times that SQLite's log is copied
into the file. Each is one file, whole by sqlite3, and is opened by the program; it has each change that was told before
the copy was begun, and none that was not put before it was done, each as a row in order. Files that are there stay as
they are, whatever their names.
"""

from __future__ import annotations

import os
import pathlib
import random
import shutil
import signal
import subprocess
import threading
import time
from typing import Any

from tests.cases import EXAMPLE
from tests.store_failures import Talk, calls_in, change_at, refuser, with_rows
from tests.stores import SECONDS, Done, StoreCase, files_of, held, log_of

# So many copies are made beside one session, which makes at most so many changes.
COPIES, CHANGES = 60, 60_000
# So many copies of a store with so many rows are killed; and so often two are made at once.
KILLS, ROWS, PAIRS = 20, 60, 25
TAKEN = "there is a file at the path of the copy"
NOBODY, LONGEST = 65534, 255


class Writing:
    """A live session that makes one change after the other in a thread, and counts those that were answered."""

    def __init__(self, talk: Talk) -> None:
        self.talk, self.told, self.put, self.is_over = talk, talk.epoch, talk.epoch, False
        self.thread = threading.Thread(target=self.work)
        self.thread.start()

    def work(self) -> None:
        """Makes changes until it is told to end."""
        while not self.is_over and self.told < CHANGES:
            self.put = self.told + 1
            if not (self.talk.ask(change_at(self.told)) or "").startswith("ok "):
                return
            self.told = self.put

    def end(self) -> None:
        """Ends the session."""
        self.is_over = True
        self.thread.join()
        self.talk.end()


class StoreBackups(StoreCase):
    """Copies of stores, and stores of one file."""

    is_alone = True

    def judge(
        self, copy: pathlib.Path, done: Done, least: int, most: int, beside: dict[str, bytes] | None = None
    ) -> None:
        """Asks that a copy is one whole file with the rows of a store of an epoch between two others, and that what was
        there beside it stays as it is."""
        self.assertEqual((done.status, done.error), (0, ""), done)
        epoch = int(done.output.removeprefix("epoch "))
        self.assertTrue(least <= epoch <= most, (least, epoch, most))
        self.assertEqual(files_of(copy), {**(beside or {}), copy.name: copy.read_bytes()})
        found = held(copy)
        self.assertEqual([row for row, _ in found.rows], [*range(found.first[0] + 1, epoch + 1)])
        self.assertEqual(found.last, epoch)

    def test_under_load(self) -> None:
        """Copies that are made while the store is changed are whole, and are opened with all that was told."""
        words: list[object] = [self.command, "--journal", "65536", "--begin", EXAMPLE, self.store, "-"]
        writing = Writing(Talk(words, {}))
        for number in range(COPIES):
            copy, least = self.folder / f"copy-{number}", writing.told
            done = self.ran("--backup", copy, self.store)
            with self.subTest(copy=number):
                self.judge(copy, done, least, writing.put)
                opened = self.ran(copy, "-", text="epoch\n")
                self.assertEqual(opened, Done(0, f"{done.output}session 1\n{done.output}", ""))
                copy.unlink()
        self.assertGreater(writing.told, 1)
        writing.end()

    def test_at_rest(self) -> None:
        """A store that no program has open, with its log or without, is copied too, and stays as it is."""
        with_rows(self, 5)
        for name in ("with its log", "settled"):
            with self.subTest(name):
                copy, before = self.folder / name, self.store.read_bytes()
                self.judge(copy, self.ran("--backup", copy, self.store), 6, 6)
                self.assertEqual(self.store.read_bytes(), before)
                self.ran(self.store)

    def test_killed_copies(self) -> None:
        """A copy whose making is killed is whole or not there, and the store stays as it is; what is left of it keeps
        no other from being made in its place."""
        with_rows(self, ROWS)
        rng, before, begin = random.Random(4), self.store.read_bytes(), time.monotonic()
        done = self.ran("--backup", self.folder / "one", self.store)
        taken, made = time.monotonic() - begin, 0
        self.judge(self.folder / "one", done, ROWS + 1, ROWS + 1)
        for number in range(KILLS):
            copy = self.folder / f"killed-{number}"
            with self.subTest(copy=number):
                words = [str(self.command), f"--backup={copy}", str(self.store)]
                with subprocess.Popen(words, stdout=subprocess.DEVNULL) as process:
                    time.sleep(rng.uniform(0, taken))
                    process.kill()
                self.assertEqual(self.store.read_bytes(), before)
                if copy.exists():
                    # The first copy may have been made on a busier machine than the others are.
                    made, taken = made + 1, 0.8 * taken
                    self.assertEqual(held(copy).last, ROWS + 1)
                    continue
                left = files_of(copy)
                self.judge(copy, self.ran("--backup", copy, self.store), ROWS + 1, ROWS + 1, left)
        self.assertLess(made, KILLS)

    def test_parts(self) -> None:
        """Files whose names are those of parts stay as they are."""
        with_rows(self, 2)
        copy = self.folder / "copy"
        for name in ("copy.part", "copy.part-wal", "copy.1.part", "copy.2.part-wal", "copy.3.part"):
            self.file(name, f"This is {name}.\n")
        self.judge(copy, self.ran("--backup", copy, self.store), 3, 3, files_of(copy))

    def test_two_at_once(self) -> None:
        """Of two copies that are made at once under one name one is made, and tells its epoch; the other one is told
        that there is a file."""
        with_rows(self, ROWS)
        for number in range(PAIRS):
            copy = self.folder / f"both-{number}"
            words = [str(self.command), f"--backup={copy}", str(self.store)]
            with self.subTest(copy=number):
                both = [
                    subprocess.Popen(words, stdout=subprocess.PIPE, stderr=subprocess.PIPE, text=True) for _ in "12"
                ]
                ends = [(*process.communicate(timeout=SECONDS), process.returncode) for process in both]
                one, other = sorted(
                    (Done(status, out, error) for out, error, status in ends), key=lambda done: done.status
                )
                self.judge(copy, one, ROWS + 1, ROWS + 1)
                self.assertEqual(other, Done(5, "", f"store: {TAKEN}\n"))

    def test_rights(self) -> None:
        """A copy has the rights of its store, from the first byte on."""
        with_rows(self, 2)
        for rights in (0o600, 0o640, 0o644):
            with self.subTest(oct(rights)):
                self.store.chmod(rights)
                copy = self.folder / oct(rights)
                self.judge(copy, self.ran("--backup", copy, self.store), 3, 3)
                self.assertEqual(copy.stat().st_mode & 0o777, rights)

    def test_target(self) -> None:
        """Where a copy cannot be made, what is told is of the copy, and nothing is left there."""
        with_rows(self, 2)
        self.file("text", "")
        shutil.copy(self.command, self.folder / "program")
        self.folder.chmod(0o755)
        closed = self.folder / "closed"
        closed.mkdir(mode=0o555)
        reasons = {
            "none/copy": "the folder of the copy is missing",
            "text/copy": "the folder of the copy is missing",
            "closed/copy": "there is no right to make the copy in its folder",
            "c" * LONGEST: "the file cannot be opened",
        }
        given: dict[str, Any] = {"user": NOBODY, "group": NOBODY, "extra_groups": []} if os.getuid() == 0 else {}
        for path in (self.store, log_of(self.store)):
            path.chmod(0o644)
        self.folder.chmod(0o777)
        before = sorted(self.folder.rglob("*"))
        for name, reason in reasons.items():
            with self.subTest(name[:20]):
                words = [str(self.folder / "program"), f"--backup={self.folder / name}", str(self.store)]
                done = subprocess.run(words, capture_output=True, text=True, timeout=SECONDS, **given)
                self.assertEqual((done.returncode, done.stdout, done.stderr), (5, "", f"store: {reason}\n"))
                self.assertEqual(sorted(self.folder.rglob("*")), before)
        self.folder.chmod(0o755)

    def test_synced(self) -> None:
        """A copy is on the disk before it has its name, and its folder behind that; nothing else comes behind."""
        with_rows(self, 2)
        noted, place = self.folder / "noted", self.folder / "place"
        place.mkdir()
        given = {"LD_PRELOAD": str(refuser(self.folder)), "REFUSE_PATH": str(place), "NOTED": str(noted)}
        words = [str(self.command), f"--backup={place / 'copy'}", str(self.store)]
        done = subprocess.run(words, capture_output=True, timeout=SECONDS, env={**os.environ, **given})
        self.assertEqual((done.returncode, done.stdout), (0, b"epoch 3\n"))
        self.assertEqual(
            [(call.kind, call.name) for call in calls_in(noted.read_bytes())][-2:],
            [("s", "copy.1.part"), ("s", "place")],
        )

    def test_refused(self) -> None:
        """No copy is made over a file or beside a log, of what is no store, or where there is none."""
        with_rows(self, 2)
        text = self.file("text", "no database\n" * 100)
        self.file("beside-wal", bytes(4096))
        cases: dict[str, tuple[object, object]] = {
            TAKEN: (text, self.store),
            "there is a log at this path, and no store with it": (self.folder / "beside", self.store),
            "the file is not a store": (self.folder / "one", text),
            "there is no store at this path": (self.folder / "two", self.folder / "none"),
        }
        for reason, (copy, store) in cases.items():
            with self.subTest(reason):
                before = sorted(path.name for path in self.folder.iterdir())
                self.assertEqual(self.ran("--backup", copy, store), Done(5, "", f"store: {reason}\n"))
                self.assertEqual(sorted(path.name for path in self.folder.iterdir()), before)

    def test_one_file(self) -> None:
        """After a run that ended, and where a store was just begun, the file alone is the store."""
        talk = Talk([self.command, "--begin", EXAMPLE, self.store, "-"], {})
        self.assertEqual(held(self.file_alone("begun")).last, 1)
        for _ in range(3):
            talk.turn()
        self.assertEqual(talk.end().done, Done(0, "", ""))
        self.assertEqual(held(self.file_alone("ended")).last, 4)
        self.assertEqual(self.ran(self.file_alone("again")).output, "epoch 4\n")

    def file_alone(self, name: str) -> pathlib.Path:
        """A copy of the store's file without its log."""
        return self.file(name, self.store.read_bytes())

    def test_killed(self) -> None:
        """After a kill or a signal, a start without scripts makes the file the store by itself."""
        for number in (signal.SIGKILL, signal.SIGTERM):
            with self.subTest(number.name):
                for path in self.folder.glob("store*"):
                    path.unlink()
                talk = Talk([self.command, "--begin", EXAMPLE, self.store, "-"], {})
                for _ in range(3):
                    talk.turn()
                talk.process.send_signal(number)
                talk.end()
                self.assertEqual(self.ran(self.store), Done(0, "epoch 4\n", ""))
                self.assertEqual(held(self.file_alone("alone")).last, 4)
                self.assertLess(log_of(self.store).stat().st_size, 56)
