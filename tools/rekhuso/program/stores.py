"""The file of a store, which `osdmapstore` keeps: the text of a first map, and a row for each change since, which may
tell when it was made and by whom; and what the store notes of itself, in a form that has a table for it.

It is a SQLite database, whose newest rows may stand in the log beside it (`-wal`). Both are copied and read there, so
that nothing is written into them or beside them, and a program may have them open and start meanwhile: a file and a
later copy of its log have all that was committed, unless the log was begun anew between them, and then its header is
another.
"""

from __future__ import annotations

import contextlib
import errno
import fcntl
import os
import re
import shutil
import sqlite3
import tempfile
from collections.abc import Iterator
from dataclasses import dataclass
from typing import IO

from ..faults import Refused, Trouble, Unopened
from ..running import doing
from ..values import SLOTS
from ..words import counted
from .maps import Program
from .monitor import Monitor, RUN_MOST
from .page_sums import wrong_page
from .process import temporary

# The bytes of a log's header, in which each log has salts of its own; and how often files are copied until none was
# begun anew meanwhile.
HEADER, TRIES = 32, 100
# Where a database has SQLite's user version, by which a store claims its log; how many bytes its first page has at
# most, and what it has of a store there; and how many bytes a log has at least, one that holds nothing.
CLAIM, PAGE, LOG = slice(60, 64), 65536, 41
CLAIMING = b"CREATE TABLE journal (epoch INTEGER PRIMARY KEY, change TEXT NOT NULL) STRICT"
# Where a database says that it has a log, and how.
MODES, LOGGED = slice(18, 20), b"\x02\x02"
# The bytes of a database that its readers lock together, and whoever has it for himself alone.
SHARED, SHARED_BYTES = (1 << 30) + 2, 510
# The first SQLite that reads the tables of a store.
LEAST = (3, 37)
# The tables of a store, each with its key, a whole number, and the name and the type of its other column; and which of
# them a store has, in the older form and in that which notes something of itself.
TABLES = {
    "journal": ("epoch", "change", "TEXT"),
    "map": ("epoch", "text", "TEXT"),
    "store": ("life", "keep", "INTEGER"),
}
BARE, NOTED = ("journal", "map"), ("journal", "map", "store")
PROFILES = ("plain", "stock")
# What may stand in front of a change: the number of the life in which it was made, when, and by whom; and how it
# begins.
NOTE, NOTED_BY = re.compile("life=([+-]?[0-9]+),made=([0-9]+)(?:,by=([^ ]*))?"), "l"
# What only the disk of the copy says, as nothing else is written.
FULL = (errno.ENOSPC, errno.EDQUOT)

# What is told of a file that is not read, as the program tells it.
MISSING = "there is no store at this path"
FOREIGN = "the file is not a store"
DAMAGED = "the store is damaged"
MIXED = "the store has a change of another store: its log is not its own"
LOST = "its log is missing: bring it back, or by --without-log {} lose what it has behind that epoch"
IN_USE = "the store is in use; it is read once the program that has it open has ended"
MOVING = "the store was written faster than it was copied"


@dataclass(frozen=True, **SLOTS)
class StoreNote:
    """What stands beside a change: the number of the life of the store in which it was made, when, in milliseconds
    since 1970 by the clock of the machine (0 where that told none), and the word of whoever made it, if one was given.
    """

    life: int
    made: int
    by: str | None


@dataclass(frozen=True, **SLOTS)
class StoredChange:
    """A row of the journal: the epoch of the map after it, the profile of the change, the change as JSON, and what
    stands beside it, if anything does.
    """

    epoch: int
    profile: str
    text: str
    note: StoreNote | None


@dataclass(frozen=True, **SLOTS)
class StoreFacts:
    """What a store notes of itself: the number of its life, which is another in each store that was begun or restored,
    and how many changes a start leaves.
    """

    life: int
    keep: int


@dataclass(frozen=True, **SLOTS)
class StoredJournal:
    """What a store holds: the epoch and the text of its first map, the changes since, each of the next epoch, and what
    it notes of itself, if its form has a place for that.
    """

    path: str
    epoch: int
    text: str
    changes: list[StoredChange]
    facts: StoreFacts | None

    @property
    def last(self) -> int:
        """The epoch of the map after all changes."""
        return self.epoch + len(self.changes)


# The files of a store


def share(file: IO[bytes], path: str) -> None:
    """Locks a database as a reader does, until the file is closed. `Unopened` where a program has it open."""
    try:
        fcntl.lockf(file, fcntl.LOCK_SH | fcntl.LOCK_NB, SHARED_BYTES, SHARED)
    except OSError as fault:
        if fault.errno in (errno.EACCES, errno.EAGAIN):
            raise Unopened(path, IN_USE) from None
        raise


def header_of(log: str) -> bytes:
    """The header of a log; nothing where there is none."""
    try:
        with open(log, "rb") as file:
            return file.read(HEADER)
    except FileNotFoundError:
        return b""


def is_logged(path: str) -> bool:
    """Whether a database says that it has a log."""
    with open(path, "rb") as file:
        return file.read(MODES.stop)[MODES] == LOGGED


def copied_once(real: str, place: str) -> bool:
    """Copies a store's file and then its log: whether the two copies belong together."""
    log, copy = f"{real}-wal", f"{place}-wal"
    before = header_of(log)
    with contextlib.suppress(FileNotFoundError):
        os.remove(copy)
    shutil.copyfile(real, place)
    with contextlib.suppress(FileNotFoundError):
        shutil.copyfile(log, copy)
    return header_of(copy) == before == header_of(log)


def copy_files(path: str, place: str) -> None:
    """Copies a store, and what SQLite has beside it, also while a program has it open. `Unopened` where it is written
    too fast for that.
    """
    real = os.path.realpath(path)
    if not is_logged(real):
        copy_unlogged(path, real, place)
    elif not any(copied_once(real, place) for _ in range(TRIES)):
        raise Unopened(path, MOVING)


def copy_unlogged(path: str, real: str, place: str) -> None:
    """Copies a database without a log, and what SQLite has beside it, while no program has it open."""
    with open(real, "rb") as file, open(place, "wb") as copy:
        share(file, path)
        # The lock would go if the file were opened and closed once more.
        shutil.copyfileobj(file, copy)
        for end in ("-wal", "-journal"):
            with contextlib.suppress(FileNotFoundError):
                shutil.copyfile(real + end, place + end)


@contextlib.contextmanager
def copied(path: str) -> Iterator[str]:
    """The path of a copy of a store, in a folder of its own. `Unopened` where there is no store or it cannot be copied
    now, and a fault where it cannot be read.
    """
    if not os.path.exists(path) or (os.path.isfile(path) and os.path.getsize(path) == 0):
        raise Unopened(path, MISSING)
    if not os.path.isfile(path):
        raise Unopened(path, FOREIGN)
    with temporary():
        made = tempfile.TemporaryDirectory()
    with made as folder:
        place = os.path.join(folder, "store")
        try:
            copy_files(path, place)
        except OSError as fault:
            where = f"temporary files in {os.path.dirname(folder)}" if fault.errno in FULL else path
            raise Trouble(f"{where}: {fault.strerror}") from None
        yield place


def check_log(path: str, place: str, without_log: int | None) -> None:
    """`Unopened` where the copy of a store claims a log that is missing, but for the claim of the epoch behind which
    changes may be lost.
    """
    log = f"{place}-wal"
    if os.path.exists(log) and os.path.getsize(log) >= LOG:
        return
    with open(place, "rb") as file:
        page = file.read(PAGE)
    claim = int.from_bytes(page[CLAIM], "big") if CLAIMING in page else 0
    if claim not in (0, without_log):
        raise Unopened(path, LOST.format(claim))


# The tables of a store


def has_tables(database: sqlite3.Connection, names: tuple[str, ...]) -> bool:
    """Whether a database has these tables of a store, and nothing else."""
    if database.execute("SELECT type, name FROM sqlite_master ORDER BY name").fetchall() != [
        ("table", name) for name in names
    ]:
        return False
    forms = database.execute("SELECT name, wr, strict FROM pragma_table_list WHERE schema = 'main' ORDER BY name")
    if [form for form in forms if form[0] in names] != [(name, 0, 1) for name in names]:
        return False
    columns = 'SELECT name, type, "notnull", dflt_value, pk, hidden FROM pragma_table_xinfo(?)'
    return all(
        database.execute(columns, (name,)).fetchall() == [(key, "INTEGER", 0, None, 1, 0), (other, kind, 1, None, 0, 0)]
        for name, (key, other, kind) in TABLES.items()
        if name in names
    )


def facts_of(database: sqlite3.Connection, path: str) -> StoreFacts | None:
    """What a store notes of itself. `Unopened` where it is no store, or does not note it once."""
    if has_tables(database, BARE):
        return None
    if not has_tables(database, NOTED):
        raise Unopened(path, FOREIGN)
    rows = database.execute("SELECT life, keep FROM store").fetchall()
    if len(rows) != 1:
        raise Unopened(path, DAMAGED)
    return StoreFacts(*rows[0])


def note_of(path: str, text: str) -> StoreNote:
    """What a note says. `Unopened` where it is none."""
    found = NOTE.fullmatch(text)
    if found is None:
        raise Unopened(path, DAMAGED)
    life, made, by = found.groups()
    return StoreNote(int(life), int(made), by)


def change_of_row(path: str, epoch: int, text: str, facts: StoreFacts | None) -> StoredChange:
    """The change of a row. `Unopened` where it has no profile, or was made in another store."""
    note = None
    if text.startswith(NOTED_BY):
        first, _, text = text.partition(" ")
        note = note_of(path, first)
        if facts is not None and note.life != facts.life:
            raise Unopened(path, MIXED)
    profile, _, change = text.partition(" ")
    if profile not in PROFILES:
        raise Unopened(path, f"row {epoch}: no profile")
    return StoredChange(epoch, profile, change, note)


def journal_of(database: sqlite3.Connection, path: str, facts: StoreFacts | None) -> StoredJournal:
    """What the tables hold of texts. `Unopened` where there is not one first map, or a row is not the next."""
    maps = database.execute("SELECT epoch, text FROM map").fetchall()
    if len(maps) != 1:
        raise Unopened(path, DAMAGED)
    epoch, text = maps[0]
    changes: list[StoredChange] = []
    for number, (own, change) in enumerate(database.execute("SELECT epoch, change FROM journal ORDER BY epoch"), 1):
        if own != epoch + number:
            raise Unopened(path, f"row {own}: the epoch before it is {epoch + number - 1}")
        changes.append(change_of_row(path, own, change, facts))
    return StoredJournal(path, epoch, text, changes, facts)


def journal_in(path: str, without_log: int | None = None) -> StoredJournal:
    """What a store holds. `Unopened` where there is no store, it cannot be copied now, its log is missing behind an
    epoch that is not named here, or its file is another or was changed by another program.
    """
    if sqlite3.sqlite_version_info < LEAST:
        raise Trouble(
            f"{path}: the SQLite of this Python is {sqlite3.sqlite_version}, and 3.37 the first that reads it"
        )
    doing("reading the store")
    with copied(path) as place:
        check_log(path, place, without_log)
        return journal_at(path, place)


def journal_at(path: str, place: str) -> StoredJournal:
    """What the copy of a store holds. `Unopened` where its file is another or was changed by another program."""
    with contextlib.closing(sqlite3.connect(place, isolation_level=None)) as database:
        try:
            facts = facts_of(database, path)
            database.execute("PRAGMA wal_checkpoint(TRUNCATE)").fetchall()
            with open(place, "rb") as file:
                page = wrong_page(file)
            if page is not None:
                raise Unopened(path, f"{DAMAGED}, or another program has written it: the sum of page {page} is wrong")
            if database.execute("PRAGMA quick_check(1)").fetchall() != [("ok",)]:
                raise Unopened(path, DAMAGED)
            return journal_of(database, path, facts)
        except sqlite3.Error as fault:
            raise Unopened(path, FOREIGN if "not a database" in str(fault) else DAMAGED) from None


# The maps of a store


def first_monitor(journal: StoredJournal, program: Program) -> Monitor:
    """A session over the first map of a store. `Unopened` where the program refuses it, or it has another epoch."""
    if not journal.text.lstrip().startswith("{"):
        raise Unopened(journal.path, "map: BadJson")
    try:
        monitor = Monitor(journal.text, program, stock=True)
    except Refused as refused:
        raise Unopened(journal.path, f"map: {refused.name}") from None
    if (own := monitor.epoch()) != journal.epoch:
        monitor.close()
        raise Unopened(journal.path, f"map: its epoch is {own}, and that of its row {journal.epoch}")
    return monitor


def make_changes(path: str, monitor: Monitor, rows: list[StoredChange]) -> None:
    """Has a session make the changes of rows. `Unopened` where it refuses one."""
    doing(f"making {counted(len(rows), 'change')}")
    answers = monitor.raw(["change " + row.text.replace("\n", " ") for row in rows])
    for row, answer in zip(rows, answers):
        if answer.startswith("err "):
            raise Unopened(path, f"row {row.epoch}: {answer.split(' ')[2]}")


@contextlib.contextmanager
def map_at(journal: StoredJournal, epoch: int, program: Program) -> Iterator[Monitor]:
    """A session over the map of an epoch: the program makes the changes up to it of the first map, in as many runs as
    they take. `Unopened` where it refuses the map or one of them.
    """
    rows, monitor = journal.changes[: epoch - journal.epoch], first_monitor(journal, program)
    while True:
        with monitor:
            make_changes(journal.path, monitor, rows[:RUN_MOST])
            rows = rows[RUN_MOST:]
            if not rows:
                yield monitor
                return
            text = monitor.text()
        monitor = Monitor(text, program, stock=True)
