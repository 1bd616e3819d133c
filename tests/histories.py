"""`history` over stores, the files in which `osdmapstore` keeps a map and its changes.

Stores are made here by Python's SQLite, by the two tables that docs/FORMATS.md describes; what is told of a change
stands beside it, by hand.
"""

from __future__ import annotations

import contextlib
import json
import os
import pathlib
import select
import shutil
import sqlite3
import struct
import subprocess
import sys
from collections.abc import Callable, Iterable, Iterator
from unittest import mock

from rekhuso import Unopened
from rekhuso.program import stores

from tests import model
from tests.cases import example
from tests.clusters import Json
from tests.monitoring import samples_in
from tests.tool_cases import AS_MONITOR, ToolCase
from tests.whole_maps import crush_of, pool_of

SECONDS = 300
# The tables of a store.
TABLES = [
    "CREATE TABLE journal (epoch INTEGER PRIMARY KEY, change TEXT NOT NULL) STRICT",
    "CREATE TABLE map (epoch INTEGER PRIMARY KEY, text TEXT NOT NULL) STRICT",
]
FIRST = TABLES + ["INSERT INTO map VALUES (1, '{}')"]
# What a store of the newer form has beside them.
NOTED = ["CREATE TABLE store (life INTEGER PRIMARY KEY, keep INTEGER NOT NULL) STRICT"]
NOTED.append("INSERT INTO store VALUES (7, 5)")
# So many changes has the file of a store whose log has the others.
IN_FILE = 3

# A CRUSH map with another rule, and a pool.
CRUSH = crush_of(example(), rules=[*example()["rules"], dict(example()["rules"][0], id=7)])
POOL = pool_of(2, 8, 2)
MANY: list[list[object]] = [[f"2.{number:x}", [[0, 1]]] for number in range(2, 16)]

# Changes to the example's map, one after the other, and what is told of each.
CHANGES: list[tuple[Json, str]] = [
    ({"down": [2]}, "osd.2 down"),
    ({"down": [1, 2]}, "osd.1 down"),
    ({"up": [0, 1, 2]}, "osd.1 and osd.2 up"),
    ({"weight": [[1, 0], [3, 32768]]}, "osd.1 out; reweighted: osd.3 from 1.00000 to 0.50000"),
    ({"down": [0], "weight": [[1, 65536], [2, 65536], [3, 0]]}, "osd.0 down; osd.3 out; osd.1 in"),
    ({"up": [0], "weight": [[3, 16384]]}, "osd.0 up; in: osd.3 at 0.25000"),
    ({"new_pools": [POOL]}, "pool 2 created (replicated, 8 groups of size 2)"),
    ({"grow_pool": [[2, 16, 8]]}, "pool 2 grown (pg_num 8 to 16)"),
    ({"grow_pool": [[1, 1, 1], [2, 16, 16]]}, "pool 2 grown (pgp_num 8 to 16)"),
    (
        {"new_items": [["1.0", [[3, 1]]], ["2.1", [[0, 1], [2, 3]]]]},
        "pg_upmap_items added: 1.0 (3 to 1) and 2.1 (0 to 1, 2 to 3)",
    ),
    (
        {"new_items": [["1.0", [[3, 0]]]], "new_upmap": [["2.a", [0, 3]]]},
        "pg_upmap added: 2.a [0,3]; pg_upmap_items changed: 1.0 (3 to 0)",
    ),
    ({"new_items": [["1.0", [[3, 0]]]], "old_items": ["2.0"]}, "nothing changed"),
    ({"new_crush": CRUSH}, "CRUSH map replaced (1 bucket and 2 rules)"),
    ({"old_items": ["1.0"]}, "pg_upmap_items removed: 1.0"),
    ({"new_items": MANY}, "pg_upmap_items added: 2.2 (0 to 1), 2.3 (0 to 1), 2.4 (0 to 1), 2.5 (0 to 1) and 10 more"),
    ({"old_items": [group for group, _ in MANY]}, "pg_upmap_items removed: 2.2, 2.3, 2.4, 2.5 and 10 more"),
    ({"old_pools": [2]}, "pool 2 removed; pg_upmap removed: 2.a; pg_upmap_items removed: 2.1"),
    ({}, "nothing changed"),
]


def changes() -> list[Json]:
    """The changes, each with its base."""
    return [dict(change, base=base) for base, (change, _) in enumerate(CHANGES, 1)]


def rows() -> list[tuple[int, str]]:
    """The changes as rows of a journal."""
    return [
        (change["base"] + 1, f"{'stock' if change['base'] % 2 else 'plain'} {json.dumps(change)}")
        for change in changes()
    ]


@contextlib.contextmanager
def store_at(path: pathlib.Path, *lines: str, is_logged: bool = False) -> Iterator[sqlite3.Connection]:
    """A database at a path that some lines of SQL made, open; of one that is logged all stands in the log alone."""
    with contextlib.closing(sqlite3.connect(path, isolation_level=None)) as database:
        if is_logged:
            database.execute("PRAGMA journal_mode = WAL")
            database.execute("PRAGMA wal_autocheckpoint = 0")
        for line in lines:
            database.execute(line)
        yield database


def fill(database: sqlite3.Connection, first: object, found: Iterable[tuple[int, str]], epoch: int = 1) -> None:
    """Puts a first map and rows of changes into the tables of a store."""
    database.execute("INSERT INTO map VALUES (?, ?)", (epoch, first if isinstance(first, str) else json.dumps(first)))
    database.executemany("INSERT INTO journal VALUES (?, ?)", found)


def held(folder: pathlib.Path) -> dict[str, tuple[bytes, int]]:
    """All files of a folder, each with what it holds and when it was written last."""
    return {path.name: (path.read_bytes(), path.stat().st_mtime_ns) for path in folder.iterdir()}


def sealed(page: bytes) -> bytes:
    """A page of a database with its sum at its end, as SQLite's cksumvfs makes it: two running sums of the words, which
    add each other in turn."""
    one = other = 0
    for first, second in struct.iter_unpack("<II", page[:-8]):
        one = (one + first + other) % 2**32
        other = (other + second + one) % 2**32
    return page[:-8] + struct.pack("<II", one, other)


class Histories(ToolCase):
    """`history` over stores of the example's map."""

    def path(self, name: str = "store") -> pathlib.Path:
        """A file of the test's folder."""
        return self.tools.folder / name

    def store(self, name: str = "store", first: object = None, found: Iterable[tuple[int, str]] = ()) -> pathlib.Path:
        """A store of the example's map with all changes, or with what is given."""
        with store_at(self.path(name), *TABLES) as database:
            fill(database, example() if first is None else first, found or rows())
        return self.path(name)

    def sealed_store(self, name: str) -> pathlib.Path:
        """A store whose pages end in sums."""
        with store_at(self.path(name), "PRAGMA page_size = 4096", "PRAGMA application_id = 1"):
            pass
        page = bytearray(self.path(name).read_bytes())
        # Eight bytes are kept at the end of each page, so that the room for rows ends before them.
        page[20:21], page[105:107] = b"\x08", struct.pack(">H", 4096 - 8)
        self.path(name).write_bytes(page)
        self.store(name)
        text = self.path(name).read_bytes()
        pages = [sealed(text[begin : begin + 4096]) for begin in range(0, len(text), 4096)]
        self.path(name).write_bytes(b"".join(pages))
        self.assertGreater(len(pages), 2)
        return self.path(name)

    def test_lines(self) -> None:
        """Each epoch has a line, which says what became other; the first map stands above them."""
        first = "epoch 1: the first map, with 4 OSDs, 1 pool, 1 group and 0 exceptions"
        wanted = [f"epoch {epoch}: {line}" for epoch, (_, line) in enumerate(CHANGES, 2)]
        self.assertEqual(self.output("history", self.store()).splitlines(), [first, *wanted])

    def test_names(self) -> None:
        """OSDs and pools are told by the names that a file has."""
        names = self.tools.put("names", {"osds": {"2": "disk-2"}, "pools": {"1": "rbd", "2": "a;b"}})
        lines = self.output("history", self.store(), "--names", names).splitlines()
        for line in (
            "epoch 2: disk-2 down",
            "epoch 4: osd.1 and disk-2 up",
            "epoch 9: pool 2 (a;b) grown (pg_num 8 to 16)",
        ):
            self.assertIn(line, lines)

    def test_json(self) -> None:
        """As JSON each epoch has what became other, by its kinds."""
        told = self.json("history", self.store())
        self.assertEqual(list(told.items())[:2], [("command", "history"), ("epoch", 1 + len(CHANGES))])
        self.assertEqual(told["first_epoch"], 1)
        found = {own["epoch"]: own for own in told["changes"]}
        self.assertEqual(list(found), list(range(2, 2 + len(CHANGES))))
        nothing: Json = {
            "went_down": [],
            "came_up": [],
            "went_out": [],
            "came_in": [],
            "reweighted": [],
            "pools_removed": [],
            "pools_created": [],
            "pools_grown": [],
            "new_crush": None,
            "pg_upmap": {"added": [], "changed": [], "removed": []},
            "pg_upmap_items": {"added": [], "changed": [], "removed": []},
        }
        grown = {"id": 2, "pg_num": 16, "pgp_num": 8, "pg_num_before": 8, "pgp_num_before": 8}
        cases: list[tuple[int, Json]] = [
            (2, {"went_down": [2]}),
            (5, {"went_out": [1], "reweighted": [[3, 1.0, 0.5]]}),
            (6, {"went_down": [0], "went_out": [3], "came_in": [[1, 1.0]]}),
            (7, {"came_up": [0], "came_in": [[3, 0.25]]}),
            (8, {"pools_created": [POOL]}),
            (9, {"pools_grown": [grown]}),
            (
                12,
                {
                    "pg_upmap": {"added": [["2.a", [0, 3]]], "changed": [], "removed": []},
                    "pg_upmap_items": {"added": [], "changed": [["1.0", [[3, 0]]]], "removed": []},
                },
            ),
            (14, {"new_crush": {key: len(own) for key, own in CRUSH.items()}}),
            (
                18,
                {
                    "pools_removed": [2],
                    "pg_upmap": {"added": [], "changed": [], "removed": ["2.a"]},
                    "pg_upmap_items": {"added": [], "changed": [], "removed": ["2.1"]},
                },
            ),
            (19, {}),
        ]
        for epoch, parts in cases:
            with self.subTest(epoch=epoch):
                profile = "plain" if epoch % 2 else "stock"
                origin = {"made": None, "by": None}
                self.assertEqual(found[epoch], {"epoch": epoch, **origin, "profile": profile, **nothing, **parts})

    def test_notes(self) -> None:
        """Where a store tells when a change was made and by whom, so does its line; a time that has no date is left
        out, and a change of another life, or what is no note, is no store's."""
        told = [
            ("", ""),
            ("life=7,made=1764417600999 ", " at 2025-11-29T12:00:00Z"),
            ("life=7,made=1764417600000,by=alice@host,2 ", " at 2025-11-29T12:00:00Z by alice@host,2"),
            ("life=7,made=0,by=bob ", " by bob"),
            ("life=7,made=18446744073709551615 ", ""),
        ]
        every = [(epoch, f"{note}{text}") for (note, _), (epoch, text) in zip(told, rows())]
        with store_at(self.path(), *TABLES, *NOTED) as database:
            fill(database, example(), every)
        _, _, *lines = self.output("history", self.path()).splitlines()
        self.assertEqual(
            lines, [f"epoch {n}{words}: {line}" for n, ((_, words), (_, line)) in enumerate(zip(told, CHANGES), 2)]
        )
        found = [(own["made"], own["by"]) for own in self.json("history", self.path())["changes"]]
        times = (None, 1764417600999, 1764417600000, None, (1 << 64) - 1)
        self.assertEqual(found, list(zip(times, (None, None, "alice@host,2", "bob", None))))
        cases = [
            ("life=8,made=1 ", "the store has a change of another store: its log is not its own"),
            ("life=7 ", "the store is damaged"),
            ("later ", "the store is damaged"),
        ]
        for number, (note, reason) in enumerate(cases):
            path = self.path(f"wrong-{number}")
            with store_at(path, *TABLES, *NOTED) as database:
                fill(database, example(), [(2, f"{note}{rows()[0][1]}")])
            self.is_told(self.tools.run("history", path), 2, f"{path}: {reason}", note)

    def test_maps(self) -> None:
        """The map of each epoch is the one that the independent program has after the changes up to it."""
        path = self.store()
        for epoch in range(1, 2 + len(CHANGES)):
            with self.subTest(epoch=epoch):
                lines = [f"change {json.dumps(change)}" for change in changes()[: epoch - 1]]
                wanted = model.answers(example(), [*lines, "dump"])[-1].removeprefix("dump ")
                self.assertEqual(self.output("history", path, "--at", epoch), wanted + "\n")

    def test_more_changes_than_a_run_takes(self) -> None:
        """A run of the program takes only so many changes, here three; the map of an epoch behind more of them is made
        in several runs, and is the one that the independent program has after them."""
        own = f'{AS_MONITOR}shift 3\nexec "{self.tools.program}" --stock --journal 3 "$@"\n'
        program = self.tools.put("few", own)
        program.chmod(0o755)
        journal = stores.journal_in(str(self.store()))
        with self.assertRaises(Unopened) as fault, stores.map_at(journal, 5, program):
            pass
        self.assertEqual(fault.exception.reason, "row 5: JournalFull")
        for epoch in (1, 3, 4, 5, 7, 8, journal.last):
            lines = [f"change {json.dumps(change)}" for change in changes()[: epoch - 1]]
            wanted = model.answers(example(), [*lines, "dump"])[-1].removeprefix("dump ")
            with self.subTest(epoch=epoch), mock.patch.object(stores, "RUN_MOST", 3):
                with stores.map_at(journal, epoch, program) as monitor:
                    self.assertEqual(monitor.text(), wanted)

    def test_epochs_outside(self) -> None:
        """An epoch that the store does not tell of is refused with those that it tells of, and a word that is none is
        an error of use, as is what would be passed over beside it."""
        path = self.store()
        for word in ("0", "20", "18446744073709551616"):
            told = f"{path}: epoch {word}: the store tells of 1 to 19"
            self.is_told(self.tools.run("history", path, "--at", word), 1, told, word)
        for words in (["--at", "x"], ["--at=-1"], ["--at", "²"], ["--at", "2", "--json"]):
            with self.subTest(words=words):
                self.is_told(self.tools.run("history", path, *words), 2, "error: ", words)
        self.is_told(self.tools.run("history"), 2, "error: ", "no store")

    def test_store_without_changes(self) -> None:
        """Of a store without changes there is the first map, in its written form."""
        with store_at(self.path(), *TABLES) as database:
            fill(database, json.dumps(example(), indent=1), [])
        line = "epoch 1: the first map, with 4 OSDs, 1 pool, 1 group and 0 exceptions\n"
        self.assertEqual(self.output("history", self.path()), line)
        wanted = model.answers(example(), ["dump"])[0].removeprefix("dump ")
        self.assertEqual(self.output("history", self.path(), "--at", 1), wanted + "\n")

    def test_rows_in_the_log(self) -> None:
        """Rows that stand in the log alone are read, and neither file is written, nor another made beside them; a link
        leads to both."""
        with store_at(self.path("open"), *TABLES, is_logged=True) as database:
            fill(database, example(), rows())
            folder = self.path("folder")
            folder.mkdir()
            for end in ("", "-wal"):
                shutil.copyfile(f"{self.path('open')}{end}", folder / f"store{end}")
        before = held(folder)
        self.assertEqual(sorted(before), ["store", "store-wal"])
        self.assertNotIn(b"osds", before["store"][0])
        self.path("link").symlink_to(folder / "store")
        for path in (folder / "store", self.path("link")):
            with self.subTest(path=path.name):
                lines = self.output("history", path).splitlines()
                self.assertEqual((len(lines), lines[1]), (1 + len(CHANGES), "epoch 2: osd.2 down"))
                self.output("history", path, "--at", 3)
        self.assertEqual(held(folder), before)

    def claiming(self, name: str, claim: int, *about: str) -> tuple[pathlib.Path, bytes]:
        """A store in a folder of its own, whose file has the first changes and claims a log that has the others; and
        that log."""
        folder, path = self.path(name), self.path(f"{name}-open")
        folder.mkdir()
        with store_at(path, *TABLES, *about, f"PRAGMA user_version = {claim}") as database:
            fill(database, example(), rows()[:IN_FILE])
        with store_at(path, is_logged=True) as database:
            database.executemany("INSERT INTO journal VALUES (?, ?)", rows()[IN_FILE:])
            for end in ("", "-wal"):
                shutil.copyfile(f"{path}{end}", folder / f"store{end}")
        return folder / "store", (folder / "store-wal").read_bytes()

    def test_metrics(self) -> None:
        """Beside what it tells, a file has what a store and a copy tell of themselves, in Prometheus' text format"""
        path, log = self.claiming("open", 2, *NOTED)
        last, copy = 1 + len(CHANGES), self.path("copy")
        with store_at(copy, *TABLES, *NOTED) as database:
            fill(database, example(), [(2, f"life=7,made=1764417600500 {rows()[0][1]}")])
        os.utime(copy, (1764417700, 1764417700))
        told = self.output("history", path)
        words = ["--prometheus", "out.prom"]
        self.assertEqual(self.output("history", path, *words, "--copy", copy), told)
        found = samples_in(self.path("out.prom").read_text())
        wanted = {
            "epoch": last,
            "first_epoch": 1,
            "changes": last - 1,
            "keep": 5,
            "file_bytes": path.stat().st_size,
            "log_bytes": len(log),
            "run_is_open": 1,
            "run_changes": last - 2,
            "run_changes_left": 65536 - (last - 2),
            "copy_epoch": 2,
            "copy_seconds": 1764417700,
        }
        self.assertEqual(found, {(f"rekhuso_store_{name}", ()): value for name, value in wanted.items()})
        # By itself, and of the older form.
        self.output("history", copy, *words)
        found = samples_in(self.path("out.prom").read_text())
        own = {name: found["rekhuso_store_" + name, ()] for name in ("changed_seconds", "run_is_open", "log_bytes")}
        self.assertEqual(own, {"changed_seconds": 1764417600.5, "run_is_open": 0, "log_bytes": 0})
        older = self.store("older")
        self.output("history", older, *words)
        self.assertNotIn("rekhuso_store_keep", self.path("out.prom").read_text())
        cases: list[tuple[list[object], str]] = [
            ([*words, "--copy", older], f"{older}: no copy of {path}, but of another store"),
            ([*words, "--at", "2"], "--at puts out a map as it is"),
            (["--copy", copy], "--copy is told by --prometheus"),
            (["--prometheus", "no/where"], "no/where: No such file"),
        ]
        for options, why in cases:
            self.is_told(self.tools.run("history", path, *options), 2, why, options)

    def is_lost(self, path: pathlib.Path, epoch: int, *words: object) -> None:
        """Asks that `history` tells that the log of a store is missing, and by which word it goes on, and nothing
        else; and that it leaves all as it is."""
        before = held(path.parent)
        told = (
            f"{path}: its log is missing: bring it back, or by --without-log {epoch} lose what it has behind that epoch"
        )
        status, output, error = self.tools.run("history", path, *words)
        self.assertEqual((status, error), (2, f"{told}\n"))
        found = json.loads(output)["refused"] if "--json" in words else output
        self.assertEqual(found, {"code": "trouble", "status": 2, "why": [told]} if "--json" in words else "")
        self.assertEqual(held(path.parent), before)

    def test_log_that_is_missing(self) -> None:
        """Where the file of a store claims a log that is missing, or shorter than an empty one, that is told before
        anything else, but for the epoch that is told; with its log it is whole, whatever epoch is given."""
        for name, about in (("older", NOTED[:0]), ("newer", NOTED)):
            path, log = self.claiming(name, 7, *about)
            left = path.with_name("store-wal")
            lines = self.output("history", path).splitlines()
            self.assertEqual(lines[-1], f"epoch {1 + len(CHANGES)}: {CHANGES[-1][1]}")
            for own in (None, b"", log[:40]):
                left.unlink()
                if own is not None:
                    left.write_bytes(own)
                every: list[list[object]] = [[], ["--json"], ["--at", 2], ["--at", 99], ["--names", "none"]]
                for words in [*every, ["--without-log", 1], ["--without-log", 8]]:
                    with self.subTest(name=name, left=own and len(own), words=words):
                        self.is_lost(path, 7, *words)
                found = self.output("history", path, "--without-log", 7).splitlines()
                self.assertEqual(found, lines[: len(lines) - len(CHANGES) + IN_FILE])
                told = self.json("history", path, "--without-log", 7)
                self.assertEqual((told["epoch"], len(told["changes"])), (1 + IN_FILE, IN_FILE))
                self.output("history", path, "--without-log", 7, "--at", 1 + IN_FILE)
                left.write_bytes(log[:41])
                self.assertEqual(self.output("history", path).splitlines(), found)
                left.write_bytes(log)
                self.assertEqual(self.output("history", path, "--without-log", 9).splitlines(), lines)

    def test_claims(self) -> None:
        """A claim is told as SQLite has it, up to the greatest, also over a link; a store that claims nothing is read
        without a log, and another database that has a user version is no store."""
        path, _ = self.claiming("most", -1)
        path.with_name("store-wal").unlink()
        self.path("most/link").symlink_to(path)
        for own in (path, self.path("most/link")):
            self.is_lost(own, (1 << 32) - 1)
            self.assertIn("epoch 2: ", self.output("history", own, "--without-log", (1 << 32) - 1))
        path, _ = self.claiming("none", 0)
        path.with_name("store-wal").unlink()
        self.assertEqual(self.output("history", path), self.output("history", path, "--without-log", 7))
        self.path("unlogged").mkdir()
        with store_at(self.path("unlogged/store"), *TABLES, "PRAGMA user_version = 7") as database:
            fill(database, example(), rows())
        self.is_lost(self.path("unlogged/store"), 7)
        with store_at(self.path("other"), "CREATE TABLE t (a)", "PRAGMA user_version = 7"):
            pass
        forms: list[list[object]] = [[], ["--without-log", 7]]
        for words in forms:
            told = self.tools.run("history", self.path("other"), *words)
            self.is_told(told, 2, f"{self.path('other')}: the file is not a store", words)
        for word in ("0", "4294967296", "x", "-1", "", "\u0661"):
            with self.subTest(word=word):
                told = self.tools.run("history", path, f"--without-log={word}")
                self.is_told(told, 2, "error: argument --without-log: ", word)

    def test_files_stay_as_they_are(self) -> None:
        """A store without a log is not written, and nothing is made beside it."""
        folder = self.path("folder")
        folder.mkdir()
        path = self.store("folder/store")
        before = held(folder)
        self.output("history", path)
        self.output("history", path, "--at", 7)
        self.assertEqual(held(folder), before)

    def test_store_in_use(self) -> None:
        """A store that a program has open for itself alone is read, and once that has ended."""
        path = self.store()
        holder = (
            "import sqlite3, sys; d = sqlite3.connect(sys.argv[1], isolation_level=None); "
            "d.execute('PRAGMA journal_mode = WAL'); d.execute('PRAGMA locking_mode = EXCLUSIVE'); "
            "d.execute('BEGIN IMMEDIATE'); print('open', flush=True); sys.stdin.read()"
        )
        words = [sys.executable, "-c", holder, str(path)]
        with subprocess.Popen(words, stdin=subprocess.PIPE, stdout=subprocess.PIPE, text=True) as other:
            assert other.stdin and other.stdout
            self.assertTrue(select.select([other.stdout], [], [], SECONDS)[0])
            self.assertEqual(other.stdout.readline(), "open\n")
            self.assertEqual(len(self.output("history", path).splitlines()), 1 + len(CHANGES))
            self.output("history", path, "--at", 2)
            other.stdin.close()
            other.wait(SECONDS)
        self.assertEqual(len(self.output("history", path).splitlines()), 1 + len(CHANGES))

    def test_files_that_are_no_stores(self) -> None:
        """What is no store is told as that."""
        missing, foreign = "there is no store at this path", "the file is not a store"
        self.path("empty").touch()
        self.path("folder").mkdir()
        os.mkfifo(self.path("pipe"))
        self.tools.put("text", example())
        cases = [("nowhere", missing), ("empty", missing), ("folder", foreign), ("pipe", foreign), ("text", foreign)]
        for name, lines in (
            ("others", ["CREATE TABLE t (a)"]),
            ("more", [*FIRST, "CREATE TABLE t (a)"]),
            ("index", [*FIRST, "CREATE INDEX i ON map (text)"]),
            ("view", [*FIRST, "CREATE VIEW v AS SELECT * FROM map"]),
            ("fewer", TABLES[:1]),
            ("loose", [line.removesuffix(" STRICT") for line in TABLES]),
            ("nulls", [line.replace(" NOT NULL", "") for line in TABLES]),
            ("columns", [TABLES[0].replace("change TEXT", "change TEXT NOT NULL, more TEXT"), TABLES[1]]),
            ("keys", [TABLES[0].replace(" PRIMARY KEY", ""), TABLES[1]]),
        ):
            with store_at(self.path(name), *lines):
                cases.append((name, foreign))
        for name, told in cases:
            with self.subTest(name=name):
                self.is_told(self.tools.run("history", self.path(name)), 2, f"{self.path(name)}: {told}", name)

    def test_stores_that_do_not_hold_together(self) -> None:
        """A first map or a row that is refused, or out of its order, is told; so is one that the program refuses where
        a map is asked for."""
        down = '{"base":1,"down":[2]}'
        late, gap = "map: its epoch is 3, and that of its row 1", "row 4: the epoch before it is 2"
        word, early = "row 2: no profile", "row 1: the epoch before it is 1"
        cases: list[tuple[str, object, list[tuple[int, str]], str, str]] = [
            ("map", "x.json", [], "map: no JSON", "map: BadJson"),
            ("form", "{}", [], "map: version: missing (11 BadField)", "map: BadField"),
            ("epoch", dict(example(), epoch=3), [], late, late),
            ("word", example(), [(2, f"other {down}")], word, word),
            ("text", example(), [(2, "plain {")], "row 2: no JSON", "row 2: BadJson"),
            ("key", example(), [(2, 'stock {"base":1,"x":1}')], "row 2: x: an unknown key (11", "row 2: BadField"),
            ("base", example(), [(2, 'plain {"base":2}')], "row 2: its base is 2", "row 2: StaleEpoch"),
            ("osd", example(), [(2, 'plain {"base":1,"up":[9]}')], "row 2: no osd.9", "row 2: UnknownOsd"),
            ("weight", example(), [(2, 'plain {"base":1,"weight":[[9,0]]}')], "row 2: no osd.9", "row 2: UnknownOsd"),
            ("old", example(), [(2, 'plain {"base":1,"old_pools":[7]}')], "row 2: no pool 7", "row 2: UnknownPool"),
            ("grow", example(), [(2, 'plain {"base":1,"grow_pool":[[7,8,8]]}')], "row 2: no pool 7", "row 2: Unknown"),
            ("gap", example(), [(2, f"plain {down}"), (4, "plain {}")], gap, gap),
            ("early", example(), [(1, 'plain {"base":0}')], early, early),
        ]
        for name, first, found, told, refused in cases:
            with self.subTest(name=name):
                path = self.path(name)
                with store_at(path, *TABLES) as database:
                    fill(database, first, found)
                self.is_told(self.tools.run("history", path), 2, f"{path}: {told}", name)
                at = 2 if found else 1
                self.is_told(self.tools.run("history", path, "--at", at), 2, f"{path}: {refused}", name)
        for name, count in (("none", 0), ("two", 2)):
            with self.subTest(name=name):
                with store_at(self.path(name), *TABLES) as database:
                    maps = [(epoch, json.dumps(example())) for epoch in range(1, 1 + count)]
                    database.executemany("INSERT INTO map VALUES (?, ?)", maps)
                told = f"{self.path(name)}: the store is damaged"
                self.is_told(self.tools.run("history", self.path(name)), 2, told, name)

    def test_damaged_files(self) -> None:
        """A store whose tables are broken, or that ends early, is told as damaged."""
        whole = self.store().read_bytes()
        for name, text in (
            ("short", whole[: 4096 + 100]),
            ("zeros", whole[:4096] + bytes(len(whole) - 4096)),
            ("noise", whole[:4096] + bytes(range(256)) * ((len(whole) - 4096) // 256)),
        ):
            with self.subTest(name=name):
                self.path(name).write_bytes(text)
                told = f"{self.path(name)}: the store is damaged"
                self.is_told(self.tools.run("history", self.path(name)), 2, told, name)

    def test_sums_of_pages(self) -> None:
        """Where pages end in sums they are tested: a store that another SQLite has written, or of which a byte has
        changed, is refused."""
        path = self.sealed_store("sealed")
        whole = path.read_bytes()
        self.assertEqual(len(self.output("history", path).splitlines()), 1 + len(CHANGES))

        def flip(text: bytes) -> bytes:
            place = text.index(b"replicated")
            return text[:place] + b"R" + text[place + 1 :]

        def write(text: bytes) -> bytes:
            self.path("other").write_bytes(text)
            with store_at(self.path("other"), "UPDATE journal SET change = 'plain {\"base\":1}' WHERE epoch = 2"):
                pass
            return self.path("other").read_bytes()

        cases: list[tuple[str, Callable[[bytes], bytes]]] = [
            ("byte", flip),
            ("written", write),
            ("sum", lambda text: text[:-1] + bytes([text[-1] ^ 1])),
        ]
        for name, change in cases:
            with self.subTest(name=name):
                self.path(name).write_bytes(change(whole))
                told = f"{self.path(name)}: the store is damaged, or another program has written it: the sum of page "
                self.is_told(self.tools.run("history", self.path(name)), 2, told, name)
