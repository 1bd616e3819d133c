"""The program `osdmapstore` and its store, as tests see them: runs of the program, what a store's file holds by
Python's own sqlite3, and what a row of it is by its definition."""

from __future__ import annotations

import contextlib
import dataclasses
import os
import pathlib
import re
import shutil
import sqlite3
import struct
import subprocess
import tempfile
from collections.abc import Iterator, Sequence
from typing import Any

from rekhuso.program.map_forms import GROUPS, OSDS, POOLS, key_of, parts_of

from tests.cases import EXAMPLE, TOP, Case
from tests.clusters import Json
from tests.rows import written

BUILT = TOP / "crates" / "osdmapstore" / "out" / "osdmapstore"
SECONDS = 300
# What a run tells once it has made all the changes that its journal has room for.
FULL = "journal: full, so this run takes no more changes\n"
# What stands beside a change: the number of the store's life, when it was made, and by whom.
NOTE = re.compile(r"^life=([0-9]+),made=([0-9]+)(?:,by=([^ ]+))? ")
# The bytes at the end of each page that have its sum, and where the first page says how many there are.
SUM_BYTES, RESERVED_AT = 8, 20
# Where the first page has the number of the schema, in four bytes.
COOKIE_AT = 40


def store_program() -> pathlib.Path:
    """Where the program that is tested is, if it is there: at the path that OSDMAPSTORE names, or else where it is
    built."""
    return pathlib.Path(os.environ.get("OSDMAPSTORE", BUILT)).resolve()


def nearly(journal: int) -> str:
    """What a run tells once nine tenths of its journal are full."""
    return f"journal: {journal * 9 // 10} of {journal} changes\n"


@dataclasses.dataclass(frozen=True)
class Done:
    """What a run ended with."""

    status: int
    output: str
    error: str


@dataclasses.dataclass(frozen=True)
class Stored:
    """What a store holds: its first map, each change since with the epoch that it made, and what stands beside each:
    the number of the store's life, when it was made, and by whom."""

    first: tuple[int, str]
    rows: list[tuple[int, str]]
    notes: list[tuple[int, int, str | None] | None]

    @property
    def last(self) -> int:
        """The epoch of the map that it stands for."""
        return max([self.first[0], *(epoch for epoch, _ in self.rows)])


# The files of a store


def log_of(store: pathlib.Path) -> pathlib.Path:
    """The file that SQLite's log of a store is in."""
    return store.with_name(f"{store.name}-wal")


def copied(store: pathlib.Path, to: pathlib.Path) -> pathlib.Path:
    """A copy of a store's file and of its log."""
    for one, other in ((store, to), (log_of(store), log_of(to))):
        other.unlink(missing_ok=True)
        if one.exists():
            shutil.copyfile(one, other)
    return to


def files_of(store: pathlib.Path) -> dict[str, bytes]:
    """The bytes of a store's file and of what else has its name."""
    return {path.name: path.read_bytes() for path in sorted(store.parent.glob(f"{store.name}*")) if path.is_file()}


@contextlib.contextmanager
def opened(store: pathlib.Path) -> Iterator[sqlite3.Connection]:
    """A store's file, opened by sqlite3 of Python."""
    with contextlib.closing(sqlite3.connect(store, isolation_level=None)) as database:
        yield database


def note_of(text: str) -> tuple[int, int, str | None] | None:
    """What stands in front of a row's change, if anything does."""
    found = NOTE.match(text)
    return (int(found[1]), int(found[2]), found[3]) if found else None


def held(store: pathlib.Path) -> Stored:
    """What a store holds, by sqlite3, which is given a copy of its files and finds them sound."""
    with tempfile.TemporaryDirectory() as folder, opened(copied(store, pathlib.Path(folder) / "copy")) as database:
        assert database.execute("pragma integrity_check").fetchall() == [("ok",)], "the database is not sound"
        (first,) = database.execute("select epoch, text from map").fetchall()
        rows = database.execute("select epoch, change from journal order by epoch").fetchall()
        return Stored(
            first, [(epoch, NOTE.sub("", text, 1)) for epoch, text in rows], [note_of(text) for _, text in rows]
        )


def settled(store: pathlib.Path) -> pathlib.Path:
    """A store with all its log copied into its file, by sqlite3, and without a log."""
    with opened(store) as database:
        database.execute("pragma wal_checkpoint(truncate)")
    log_of(store).unlink(missing_ok=True)
    return store


def page_size(data: bytes) -> int:
    """The size of a database's pages, by its first one."""
    (size,) = struct.unpack(">H", data[16:18])
    return 65536 if size == 1 else int(size)


def but_for_claims(data: bytes) -> bytes:
    """The bytes of a store, but for the number of its schema, which a claim and its end raise, and for the sum of the
    first page."""
    return data[:COOKIE_AT] + data[COOKIE_AT + 4 : page_size(data) - SUM_BYTES] + data[page_size(data) :]


def sum_of(page: bytes) -> bytes:
    """The sum of a page: of its words but for its last two, as SQLite's extension cksumvfs adds them."""
    words = struct.unpack(f"<{(len(page) - SUM_BYTES) // 4}I", page[:-SUM_BYTES])
    one = two = 0
    for even, odd in zip(words[::2], words[1::2]):
        one = (one + even + two) & 0xFFFFFFFF
        two = (two + odd + one) & 0xFFFFFFFF
    return struct.pack("<2I", one, two)


def pages_of(store: pathlib.Path) -> list[bytes]:
    """The pages of a store's file."""
    data = store.read_bytes()
    size = page_size(data)
    return [data[at : at + size] for at in range(0, len(data), size)]


def sum_anew(store: pathlib.Path) -> None:
    """Puts the right sum at the end of each page of a store's file, which another writer has left wrong."""
    store.write_bytes(b"".join(page[:-SUM_BYTES] + sum_of(page) for page in pages_of(store)))


# Texts


def group_key(group: str) -> tuple[int, int]:
    """What groups are put in order by: their pools, then their numbers."""
    pool, number = group.split(".")
    return int(pool), int(number, 16)


def place_of(entry: Any) -> Any:
    """What an entry of a list of a change is put in order by: its pool, its OSD or its group."""
    key = key_of(entry)
    return group_key(key) if isinstance(key, str) else key


def written_change(change: Json) -> str:
    """The written form of a change: all keys but `new_crush` where there is none, and each list in its order."""
    parts: dict[str, Any] = {"base": change["base"]}
    for name in parts_of(POOLS, OSDS, GROUPS):
        parts[name] = sorted(change.get(name, []), key=place_of)
    if "new_crush" in change:
        brought = change["new_crush"]
        parts["new_crush"] = {
            "buckets": sorted(brought["buckets"], key=lambda bucket: -int(bucket["id"])),
            "rules": sorted(brought["rules"], key=lambda rule: int(rule["id"])),
        }
    return written(parts)


# Tests


class StoreCase(Case):
    """Tests of the program over a store, each with a folder of its own. Where the program is not there, none is
    run."""

    PROGRAMS = (*Case.PROGRAMS, "OSDMAPSTORE")

    def setUp(self) -> None:
        self.command = store_program()
        is_there = os.access(self.command, os.X_OK) and not self.command.is_dir()
        self.needs(f"program {self.command} (OSDMAPSTORE names another)", is_there)
        folder = tempfile.TemporaryDirectory()
        self.addCleanup(folder.cleanup)
        self.folder = pathlib.Path(folder.name)
        self.store = self.folder / "store"

    def file(self, name: str, text: str | bytes) -> pathlib.Path:
        """A file of this test's folder with a text."""
        path = self.folder / name
        path.write_bytes(text if isinstance(text, bytes) else text.encode())
        return path

    def ran(self, *words: object, text: str = "", seconds: float = SECONDS) -> Done:
        """A run of the program with these words, over a text that is typed."""
        done = subprocess.run(
            [str(word) for word in (self.command, *words)],
            cwd=self.folder,
            input=text.encode(),
            capture_output=True,
            timeout=seconds,
            check=False,
        )
        return Done(done.returncode, done.stdout.decode(), done.stderr.decode())

    def begun(self, lines: str = "", first: pathlib.Path = EXAMPLE, *options: str) -> Done:
        """The run that begins the store of this test with a map and answers these lines."""
        done = self.ran(*options, "--begin", first, self.store, "-", text=lines)
        self.assertEqual((done.status, done.error), (0, ""))
        return done

    def played(self, first: pathlib.Path, lines: Sequence[str], *options: str) -> list[str]:
        """What plain `osdmapd` answers these lines over a map, and behind that the map that they make, as it dumps
        it."""
        words = [str(word) for word in (self.program, *options, "--journal", "65536", first, "-")]
        text = "".join(f"{line}\n" for line in [*lines, "dump"])
        done = subprocess.run(words, input=text.encode(), stdout=subprocess.PIPE, timeout=SECONDS, check=True)
        _, *answers, dump = done.stdout.decode().splitlines()
        return [*answers, dump.removeprefix("dump ")]
