#!/usr/bin/env python3
"""A store in service for long: many changes by four writers under a supervisor, with a copy each minute, and kills.

    service.py STORE [CHANGES [KILLS [JOURNAL]]]

STORE is `osdmapstore`. Four writers change the map at once, each over two named pipes, and send a change again that a
kill has left without an answer. A supervisor starts the program again wherever it ends; a run takes so many changes as
JOURNAL says (65,536) and then ends by `--end-when-full`. Before each start the rows of the store are held against the
answers: each change that was answered stands at its epoch, and behind a kill each writer has one more at most. A copy
must have each change that was answered before it was begun. At each 20th part of the changes a row of the table tells
the memory of the program, the files of the store, and how long the last start took. `tests/service_runs.py` runs it
over few changes, and over 2,000,000 with 100 kills where LONG is set. It is no part of the gate.
"""

from __future__ import annotations

import contextlib
import os
import pathlib
import queue
import re
import shutil
import sqlite3
import subprocess
import sys
import tempfile
import threading
import time
from collections.abc import Callable, Iterator
from typing import Any

from running import heading, table

TOP = pathlib.Path(__file__).resolve().parent.parent
MAP = TOP / "examples" / "map.json"
WRITERS, PARTS, MINUTE = 4, 20, 60.0
MOST, FULL = 65_536, 8
# So many seconds may an answer take, and the end of a run; and so many a start.
PATIENCE = 300
# And so many the next 20th part of a run.
LIMIT = 3_600
WEIGHT = re.compile(r'"weight":\[\[(\d+),(\d+)\]\]')
COLUMNS = ["changes", "seconds", "memory, MB", "its peak, MB", "file, MB", "log, MB", "rows", "last start, ms"]
COLUMNS += ["starts", "kills", "copies"]


class Lost(Exception):
    """What a store or a copy has not that was answered, or has and was never asked for."""


class Rows:
    """What the writers were told, and what the store has of it."""

    def __init__(self) -> None:
        """Knows of nothing."""
        self.lock, self.answered = threading.Lock(), dict[int, tuple[int, int]]()
        # What was judged in the store, and is not answered, or its answer waits in a pipe yet.
        self.unanswered = dict[int, tuple[int, int]]()
        self.last, self.judged = 1, 1

    def tell(self, epoch: int, change: tuple[int, int]) -> None:
        """Takes in that a change was answered."""
        with self.lock:
            if epoch <= self.judged:
                if self.unanswered.pop(epoch, None) != change:
                    raise Lost(f"epoch {epoch} was answered twice, or by another change than the store has")
            elif self.answered.setdefault(epoch, change) != change:
                raise Lost(f"epoch {epoch} was answered twice")
            self.last = max(self.last, epoch)

    def judge(self, rows: dict[int, tuple[int, int]], most: int) -> None:
        """Asks that rows of a store have each change that was answered, and at most so many that were not."""
        with self.lock:
            found = {epoch: change for epoch, change in rows.items() if epoch > self.judged}
            missing = {epoch for epoch, change in self.answered.items() if found.get(epoch) != change}
            if missing:
                raise Lost(f"epochs that were answered are not in the store: {sorted(missing)[:5]}")
            self.unanswered.update((epoch, found[epoch]) for epoch in found.keys() - self.answered.keys())
            self.judged = max(found, default=self.judged)
            self.answered.clear()
            self.check(most)

    def check(self, most: int) -> None:
        """Asks that at most so many changes of the store were never answered."""
        if len(self.unanswered) > most:
            raise Lost(f"{len(self.unanswered)} changes were never answered, and at most {most} may be")


def rows_of(store: pathlib.Path) -> dict[int, tuple[int, int]]:
    """The rows of a store that nobody has open, or of a copy: the reweight of each change, by its epoch."""
    with tempfile.TemporaryDirectory(dir=store.parent) as folder:
        own = pathlib.Path(folder, "store")
        for end in ("", "-wal"):
            if os.path.exists(f"{store}{end}"):
                shutil.copyfile(f"{store}{end}", f"{own}{end}")
        with contextlib.closing(sqlite3.connect(own)) as database:
            rows = database.execute("SELECT epoch, change FROM journal").fetchall()
    found = {epoch: WEIGHT.search(change) for epoch, change in rows}
    return {epoch: (int(own[1]), int(own[2])) for epoch, own in found.items() if own}


class Supervisor:
    """Starts the program again wherever it ends, until it is to end."""

    def __init__(self, command: Any, folder: pathlib.Path, journal: int) -> None:
        """Makes the pipes."""
        self.folder, self.store, self.rows = folder, folder / "store", Rows()
        names = [(folder / f"lines-{own}", folder / f"answers-{own}") for own in range(WRITERS)]
        for pair in names:
            for path in pair:
                os.mkfifo(path)
        # Both ways, so that what is in a pipe stays there from one run to the next.
        self.pipes = [(os.open(lines, os.O_RDWR), os.open(answers, os.O_RDWR)) for lines, answers in names]
        to = [word for _, answers in names for word in ("--to", str(answers))]
        own = ["--stock", "--end-when-full", "--journal", str(journal), "--keep", str(journal)]
        self.command = str(command)
        self.words = [self.command, *own, "--open-or-begin", str(MAP), *to, str(self.store)]
        self.words += [str(lines) for lines, _ in names]
        self.process: subprocess.Popen[str] | None = None
        self.starts, self.kills, self.start_ms, self.held = 0, 0, 0.0, 0
        self.is_ending, self.failed = threading.Event(), queue.Queue[BaseException]()
        self.thread = threading.Thread(target=self.run)

    def run(self) -> None:
        """Starts it again and again."""
        try:
            while not self.is_ending.is_set():
                self.run_once()
        except BaseException as fault:
            self.failed.put(fault)

    def run_once(self) -> None:
        """One run, from its start to the rows that it leaves."""
        begin = time.perf_counter()
        with subprocess.Popen(self.words, stdout=subprocess.PIPE, stderr=subprocess.PIPE, text=True) as process:
            assert process.stdout is not None
            epoch = process.stdout.readline()
            self.start_ms = (time.perf_counter() - begin) * 1e3
            self.process, self.starts = process, self.starts + 1
            _, error = process.communicate()
            self.process = None
        if process.returncode not in (0, FULL, -9):
            raise Lost(f"a run that told {epoch.strip()!r} has ended with status {process.returncode}: {error}")
        rows = rows_of(self.store)
        self.held = len(rows)
        # Behind a kill each writer has one at most; and the answer of its last one may wait in its pipe yet.
        self.rows.judge(rows, WRITERS * (self.kills + 1))

    def kill(self) -> None:
        """Kills the run that is there, if one is."""
        process = self.process
        if process is not None:
            self.kills += 1
            process.kill()

    def check(self) -> None:
        """Tells what has gone wrong."""
        with contextlib.suppress(queue.Empty):
            raise self.failed.get_nowait()


class Writer:
    """One who changes the map: each change is a reweight of an OSD of its own, by the number of the change."""

    def __init__(self, service: Supervisor, number: int) -> None:
        """Has both pipes, and has asked nothing."""
        self.service, self.number, self.left = service, number, b""
        self.lines, self.answers = service.pipes[number]

    def send(self, line: str) -> None:
        """Sends a line."""
        os.write(self.lines, f"{line}\n".encode())

    def next(self) -> str:
        """The next line that comes."""
        timer = threading.Timer(PATIENCE, lambda: os.write(self.service.pipes[self.number][1], b"late\n"))
        while b"\n" not in self.left:
            if not timer.is_alive():
                timer.start()
            self.left += os.read(self.answers, 1 << 16)
        timer.cancel()
        line, self.left = self.left.split(b"\n", 1)
        if line == b"late":
            raise Lost(f"no answer within {PATIENCE} seconds")
        return line.decode()

    def change(self, number: int) -> None:
        """Makes a change, however often a kill leaves it without an answer, or a run is full."""
        own = (self.number, number % 65_536)
        line = f'apply {{"weight":[[{own[0]},{own[1]}]]}}'
        self.send(line)
        is_marked = False
        while True:
            answer = self.next()
            if answer.startswith("ok "):
                self.service.rows.tell(int(answer.split(" ")[1]), own)
                break
            if answer.startswith("err 28 "):
                self.send(line)
            elif answer.startswith("session "):
                # A new run: the line may wait in the pipe yet, or have gone with the one before.
                if not is_marked:
                    self.send("epoch")
                is_marked = True
            elif answer.startswith("epoch "):
                is_marked = False
                self.send(line)
            else:
                raise Lost(f"a change was answered by {answer}")
        while is_marked:
            is_marked = not self.next().startswith("epoch ")


def memory_of(service: Supervisor) -> list[Any]:
    """The megabytes of the program now, and at most in this run; nothing between two runs."""
    process = service.process
    try:
        text = pathlib.Path(f"/proc/{process.pid}/status").read_text() if process else ""
    except OSError:
        text = ""
    found = [re.search(rf"{name}:\s+(\d+) kB", text) for name in ("VmRSS", "VmHWM")]
    return [round(int(own[1]) / 1024, 1) if own else "" for own in found]


def size_of(path: str) -> float:
    """The megabytes of a file."""
    return os.path.getsize(path) / 1e6 if os.path.exists(path) else 0.0


class Run:
    """All that is done at once: writers, kills, copies, and the rows of the table."""

    def __init__(self, service: Supervisor, changes: int, kills: int) -> None:
        """Has done nothing."""
        self.service, self.changes, self.kills = service, changes, kills
        self.made, self.copies, self.lock = 0, 0, threading.Lock()
        self.ended, self.failed = threading.Event(), queue.Queue[BaseException]()

    def guarded(self, work: Any, *given: Any) -> threading.Thread:
        """A thread whose fault is told, and ends all."""

        def run() -> None:
            try:
                work(*given)
            except BaseException as fault:
                self.failed.put(fault)
                self.ended.set()

        thread = threading.Thread(target=run, daemon=True)
        thread.start()
        return thread

    def write(self, number: int) -> None:
        """One writer's share of the changes."""
        writer = Writer(self.service, number)
        for count in range(1, self.changes // WRITERS + 1):
            if self.ended.is_set():
                return
            writer.change(count)
            with self.lock:
                self.made += 1

    def copy(self) -> None:
        """A copy at once and each minute, the last of which stays; each has what was answered before it was begun."""
        while not self.ended.wait(MINUTE if self.copies else 0.05):
            self.copy_once()

    def copy_once(self) -> None:
        """One copy; none where no store is there yet, or it was written faster than it was copied."""
        path, before = self.service.folder / "copy", self.service.rows.last
        path.unlink(missing_ok=True)
        words = [self.service.command, "--backup", str(path), str(self.service.store)]
        done = subprocess.run(words, capture_output=True, text=True, timeout=PATIENCE, check=False)
        if done.returncode == 0:
            if int(done.stdout.split(" ")[1]) < before:
                raise Lost(f"a copy has {done.stdout.strip()}, and epoch {before} was answered before")
            self.copies += 1

    def kill(self) -> None:
        """So many kills, evenly over the changes."""
        for number in range(1, self.kills + 1):
            while self.made < self.changes * number // (self.kills + 1) or self.service.process is None:
                if self.ended.wait(0.005):
                    return
            self.service.kill()

    def comes(self, is_there: Callable[[], bool], seconds: int) -> bool:
        """Waits until it is so: no where all has ended before. `Lost` where it is not so within so many seconds."""
        late = time.monotonic() + seconds
        while not is_there():
            if self.ended.wait(0.02):
                return False
            self.service.check()
            if time.monotonic() > late:
                raise Lost(
                    f"{self.made} changes and {self.copies} copies were made, and no more within {seconds} seconds"
                )
        return True

    def rows(self) -> Iterator[list[Any]]:
        """A row at each part of the changes, and one at the end, which has a copy."""
        begin, service = time.perf_counter(), self.service
        for part in range(1, PARTS + 1):
            least = self.changes // WRITERS * WRITERS * part // PARTS
            if not self.comes(lambda: self.made >= least, LIMIT):
                return
            if part == PARTS and not self.comes(lambda: self.copies > 0, PATIENCE):
                return
            files = [round(size_of(f"{service.store}{end}"), 1) for end in ("", "-wal")]
            cells = [self.made, round(time.perf_counter() - begin, 1), *memory_of(service), *files, service.held]
            yield [*cells, round(service.start_ms, 1), service.starts, service.kills, self.copies]


def served(command: Any, changes: int, kills: int, journal: int) -> Iterator[list[Any]]:
    """The rows of a service of so many changes. `Lost` where something is not as it was answered."""
    with tempfile.TemporaryDirectory() as name:
        service = Supervisor(command, pathlib.Path(name), journal)
        run = Run(service, changes, kills)
        service.thread.start()
        threads = [run.guarded(run.write, own) for own in range(WRITERS)]
        threads += [run.guarded(run.kill), run.guarded(run.copy)]
        try:
            yield from run.rows()
        finally:
            run.ended.set()
            service.is_ending.set()
            for thread in threads:
                thread.join(PATIENCE if run.failed.empty() else 1)
            end(service)
        for failed in (run.failed, service.failed):
            with contextlib.suppress(queue.Empty):
                raise failed.get_nowait()
        service.rows.check(WRITERS * service.kills)


def end(service: Supervisor) -> None:
    """Ends the run in order, as its input ends; past a time it is killed."""
    for lines, _ in service.pipes:
        os.close(lines)
    service.thread.join(PATIENCE)
    if service.thread.is_alive():
        service.kill()
        service.thread.join(PATIENCE)
    for _, answers in service.pipes:
        os.close(answers)


def main() -> None:
    """Runs it, and prints the table."""
    if len(sys.argv) < 2 or sys.argv[1].startswith("-"):
        sys.exit((__doc__ or "").strip())
    given = [int(word) for word in sys.argv[2:]]
    changes, kills, journal = [*given, *(2_000_000, 100, MOST)[len(given) :]]
    heading(f"{changes:,} changes by four writers, with {kills} kills")
    table(COLUMNS, served(sys.argv[1], changes, kills, journal))


if __name__ == "__main__":
    main()
