#!/usr/bin/env python3
"""What a store costs: changes with and without one, beside a sync of the disk; look-ups beside changes; opening; and
the size of the programs.

    store.py PROGRAM [STORE]

PROGRAM is `osdmapd`; STORE is `osdmapstore`, or else it is the program that OSDMAPSTORE names or the one that is built
here. All is over one pool of 4,096 groups on 64 OSDs in 8 hosts, and a change puts an OSD down or up. *A sync* is that
of a file of zeros on the same disk, of which a page was written anew. *A change* is the time of many, less that of a
run without any, one by one. *Look-ups* are the questions of a live session, one by one, with nothing beside and beside
a script that changes the map all the time: the median, and what one in a hundred takes at least. *Opening* is the time
of a run without scripts over a store with so many rows, which were written to memory and then copied to the disk. It is
no part of the gate.
"""

from __future__ import annotations

import os
import pathlib
import shutil
import statistics
import subprocess
import sys
import tempfile
import threading
import time
from collections.abc import Iterator
from typing import Any

from changes import STATES, changes
from live import answered
from maps import few_hosts
from running import (
    LIMIT,
    Absent,
    Folder,
    found,
    heading,
    in_folder,
    judged,
    median,
    once,
    piped,
    program,
    ratio,
    row,
    table,
)

FIRST, GROUPS = 100_000, 4096
CHANGES, MOST, SYNCS, ASKED = 5_000, 65_536, 2_000, 2_000
PAGE = 4096
BUILT = pathlib.Path(__file__).resolve().parent.parent / "crates" / "osdmapstore" / "out" / "osdmapstore"
# A folder whose files are in memory.
MEMORY = "/dev/shm"


def sync(folder: Any) -> Any:
    """The median of the microseconds that writing a page of a file and syncing it takes."""
    times, file = [], os.open(os.path.join(folder, "synced"), os.O_RDWR | os.O_CREAT)
    os.write(file, bytes(64 * PAGE))
    os.fsync(file)
    for number in range(SYNCS):
        begin = time.perf_counter()
        os.pwrite(file, os.urandom(PAGE), number % 64 * PAGE)
        os.fdatasync(file)
        times.append(time.perf_counter() - begin)
    os.close(file)
    return statistics.median(times) * 1e6


class Stores:
    """Runs of both programs over a map and its store."""

    def __init__(self, runs: Folder, command: Any) -> None:
        self.runs, self.command, self.count = runs, command, 0
        self.map = runs.map(few_hosts("uniform", GROUPS))

    def plain(self, *words: Any) -> Any:
        """The words of a run of the program without a store."""
        return [self.runs.program, "--journal", str(MOST), self.map, *words]

    def new(self, *words: Any, folder: Any = None) -> Any:
        """The words of a run over a new store."""
        if not os.access(self.command, os.X_OK):
            raise Absent("no osdmapstore")
        self.count += 1
        self.path = os.path.join(folder or self.runs.folder, f"store-{self.count}")
        return [self.command, "--journal", str(MOST), "--begin", self.map, self.path, *words]

    def a_change(self, words: Any) -> Any:
        """The microseconds of a change, in runs with some words."""
        many, none = (self.runs.file(changes(STATES, count, FIRST)) for count in (CHANGES, 0))
        return (median(lambda: once(words(many)), 3) - median(lambda: once(words(none)), 3)) / CHANGES * 1e6

    def looks(self, words: Any, is_beside: Any, heads: Any) -> Any:
        """The microseconds of a question to a live session: the median, and what one in a hundred takes."""
        script, times = self.runs.file(changes(STATES, MOST if is_beside else 0, FIRST)), []
        with piped(words("-", script, "--to", "-", "--to", "/dev/null")) as process:
            late = threading.Timer(LIMIT, process.kill)
            late.start()
            for _ in range(heads):
                process.stdout.readline()
            for _ in range(ASKED):
                begin = time.perf_counter()
                os.write(process.stdin.fileno(), b"up 1.0\n")
                answered(process.stdout.fileno())
                times.append(time.perf_counter() - begin)
            is_whole = process.poll() is None
            late.cancel()
            process.kill()
        if not is_whole:
            raise subprocess.TimeoutExpired(self.command, LIMIT)
        return [statistics.median(times) * 1e6, sorted(times)[-ASKED // 100] * 1e6]

    def opened(self, count: Any) -> Any:
        """The milliseconds of opening a store with so many rows."""
        if not os.path.isdir(MEMORY):
            raise Absent(f"no {MEMORY}")
        with tempfile.TemporaryDirectory(dir=MEMORY) as folder:
            once(self.new(self.runs.file(changes(STATES, count, FIRST)), folder=folder))
            own = os.path.join(self.runs.folder, "opened")

            def open_copy() -> Any:
                for end in ("", "-wal"):
                    if os.path.exists(self.path + end):
                        shutil.copy(self.path + end, own + end)
                os.sync()
                return once([self.command, own])

            return median(open_copy, 3) * 1e3


def of_changes(stores: Stores) -> Iterator[Any]:
    """What a change takes."""
    synced = found(lambda: sync(stores.runs.folder))
    plain, stored = (found(lambda: stores.a_change(words)) for words in (stores.plain, stores.new))
    for name, value in (("a sync of a page", synced), ("a change without a store", plain), ("a change", stored)):
        yield [name, value, value if isinstance(value, str) else 1e6 / value]
    share = ratio(stored, synced)
    yield ["a change to a sync", share, "", *judged(share, 2)]


def of_looks(stores: Stores) -> Iterator[Any]:
    """What a look-up takes."""
    for name, words, heads in (("without a store", stores.plain, 1), ("over a store", stores.new, 2)):
        for beside in (False, True):
            about = "beside changes" if beside else "with nothing beside"
            yield row(f"{name}, {about}", lambda: stores.looks(words, beside, heads))


def of_opening(stores: Stores) -> Iterator[Any]:
    """What opening takes, and how large the programs are."""
    for count in (0, 1_024, MOST):
        yield row(f"opening a store with {count:,} rows, ms", lambda: stores.opened(count))
    script = stores.runs.file(changes(STATES, MOST, FIRST))
    yield row(f"`osdmapd` over a script of {MOST:,} changes, ms", lambda: once(stores.plain(script)) * 1e3)
    for name, path in (("osdmapd", stores.runs.program), ("osdmapstore", stores.command)):
        yield row(f"the file `{name}`, MB", lambda: os.path.getsize(path) / 1e6)


def measure(runs: Folder) -> None:
    given = sys.argv[2] if len(sys.argv) > 2 else os.environ.get("OSDMAPSTORE", str(BUILT))
    stores = Stores(runs, os.path.abspath(given))
    heading("Changes, with and without a store")
    table(["what", "µs", "a second", "goal", ""], of_changes(stores))
    heading("Look-ups of a live session, in microseconds")
    table(["what", "the median", "one in a hundred"], of_looks(stores))
    heading("Opening a store, and the programs")
    table(["what", "it takes"], of_opening(stores))


def main() -> None:
    in_folder(program(__doc__), measure)


if __name__ == "__main__":
    main()
