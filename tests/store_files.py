"""Files that the program is given as a store: what is none, what is damaged, what another program has written, and what
sqlite3 reads of one."""

from __future__ import annotations

import json
import os
import pathlib
import random
import re
import shutil
import sqlite3
import subprocess
import time
from collections.abc import Callable, Iterator
from typing import Any, ClassVar

from tests import model
from tests.cases import EXAMPLE, example
from tests.live_sessions import Live
from tests.rows import written
from tests.stores import (
    RESERVED_AT,
    SECONDS,
    SUM_BYTES,
    Done,
    FULL,
    StoreCase,
    copied,
    files_of,
    held,
    log_of,
    nearly,
    opened,
    page_size,
    pages_of,
    settled,
    sum_anew,
    sum_of,
    written_change,
)

# Changes of the example, each with what it says.
CHANGES: list[dict[str, Any]] = [
    {"down": [2]},
    {"up": [2], "weight": [[3, 1], [0, 65536]]},
    {"new_items": [["1.0", [[3, 1]]]]},
    {"weight": [[1, 0]]},
    {"old_items": ["1.0"], "down": [3, 0]},
]
LAST = 1 + len(CHANGES)
LINES = "".join(f"change {json.dumps({'base': base, **change})}\n" for base, change in enumerate(CHANGES, 1))
# The two tables of the older form, and that of what a store notes of itself, as the page of the format has them.
TABLES = [
    ("journal", "CREATE TABLE journal (epoch INTEGER PRIMARY KEY, change TEXT NOT NULL) STRICT"),
    ("map", "CREATE TABLE map (epoch INTEGER PRIMARY KEY, text TEXT NOT NULL) STRICT"),
]
ABOUT = ("store", "CREATE TABLE store (life INTEGER PRIMARY KEY, keep INTEGER NOT NULL) STRICT")
MISSING, FOREIGN = "there is no store at this path", "the file is not a store"
UNOPENED, DAMAGED = "the file cannot be opened", "the store is damaged, or another program has written it"
MIXED = "the store has a change of another store: its log is not its own"
BAD_WORD = "the word of --by is not 1 to 64 characters of visible ASCII\n"
NOBODY = 65534
# The bytes of a log that holds nothing.
EMPTY_LOG = 41
# So many places of a store, and so many of its log, are damaged, and so many lengths cut, beside those at edges.
PLACES, LOG_PLACES, LENGTHS = (2000, 2000, 200) if os.environ.get("LONG") else (200, 80, 20)


def row(epoch: int) -> str:
    """The row of an epoch of the example, by its definition."""
    return f"plain {written_change({'base': epoch - 1, **CHANGES[epoch - 2]})}"


class StoreFiles(StoreCase):
    """What the program does with files."""

    # The files of the store with five changes, once the program has made them.
    kept: ClassVar[dict[str, bytes]] = {}

    def five(self) -> None:
        """Makes the store of the example with five changes; the program makes it once."""
        for path in self.folder.glob("store*"):
            path.unlink()
        if not self.kept:
            answers = self.begun(LINES).output.splitlines()
            self.assertEqual(answers[:2], ["epoch 1", "session 1"])
            numbers = [answer.split(" ")[:2] for answer in answers[2:]]
            self.assertEqual(numbers, [["ok", str(epoch)] for epoch in range(2, LAST + 1)])
            self.kept.update(files_of(self.store))
        for name, data in self.kept.items():
            self.file(name, data)

    def whole(self) -> str:
        """The map after the changes, as plain `osdmapd` dumps it."""
        return self.played(EXAMPLE, LINES.splitlines())[-1]

    def refused(self, reason: str, *words: object) -> None:
        """Asks that a run is refused for a reason, answers nothing, and leaves the file as it is."""
        before = files_of(self.store)
        self.assertEqual(self.ran(*(words or [self.store, "-"]), text="epoch\n"), Done(5, "", f"store: {reason}\n"))
        kept = {name: before.get(name) for name in before if name == self.store.name}
        self.assertEqual({name: files_of(self.store).get(name) for name in kept}, kept)

    def answered(self, epoch: int, dump: str) -> None:
        """Asks that the store is opened with a map."""
        self.assertEqual(
            self.ran(self.store, "-", text="dump\n"), Done(0, f"epoch {epoch}\nsession 1\ndump {dump}\n", "")
        )

    # What is no store

    def test_missing(self) -> None:
        """A file that is not there, one that is empty and a named pipe are no stores, and none is made of them."""
        for text in (None, b""):
            with self.subTest(text=text):
                if text is not None:
                    self.file("store", text)
                self.refused(MISSING)
                self.assertEqual(files_of(self.store), {} if text is None else {"store": b""})
        os.mkfifo(self.folder / "pipe")
        self.refused(MISSING, self.folder / "no" / "store")
        self.refused(MISSING, self.folder / "pipe")
        self.begun()
        self.answered(1, model.Cluster(example()).written())

    def test_not_opened(self) -> None:
        """A folder, and a file with two names, cannot be opened; nor is a store begun there, in a named pipe or in a
        folder that is not there, or at the end of a link that leads nowhere."""
        (self.folder / "folder").mkdir()
        os.mkfifo(self.folder / "pipe")
        self.five()
        os.link(self.store, self.folder / "other")
        (self.folder / "link").symlink_to(self.folder / "nowhere")
        for name in ("folder", "other", "store"):
            with self.subTest(name=name):
                self.refused(UNOPENED, self.folder / name, "-")
        for name in ("folder", "pipe", "no/store", "link"):
            with self.subTest(begin=name):
                self.refused(UNOPENED, "--begin", EXAMPLE, self.folder / name, "-")
        os.unlink(self.folder / "other")
        self.answered(LAST, self.whole())

    def test_link(self) -> None:
        """A link leads to the store: its log lies beside the file."""
        self.five()
        (self.folder / "far").mkdir()
        for path in (self.store, log_of(self.store)):
            path.rename(self.folder / "far" / path.name)
        self.store.symlink_to(self.folder / "far" / "store")
        self.answered(LAST, self.whole())
        self.assertTrue(self.store.is_symlink())
        self.assertFalse(log_of(self.store).exists())
        self.store = self.folder / "far" / "store"
        self.answered(LAST, self.whole())

    def test_read_only(self) -> None:
        """A file that may not be written, or whose folder takes no log, cannot be opened."""
        self.five()
        shutil.copy(self.command, self.folder / "program")
        log_of(self.store).unlink(missing_ok=True)
        given: dict[str, Any] = {"user": NOBODY, "group": NOBODY, "extra_groups": []} if os.getuid() == 0 else {}
        for file, folder in ((0o444, 0o777), (0o666, 0o555)):
            with self.subTest(file=oct(file), folder=oct(folder)):
                self.store.chmod(file)
                self.folder.chmod(folder)
                done = subprocess.run(
                    [self.folder / "program", self.store, "-"],
                    input=b"epoch\n",
                    capture_output=True,
                    timeout=SECONDS,
                    **given,
                )
                self.folder.chmod(0o755)
                self.assertEqual((done.returncode, done.stdout, done.stderr), (5, b"", f"store: {UNOPENED}\n".encode()))

    def test_foreign(self) -> None:
        """A text, and databases with other tables, are no stores, and no store is begun over them."""
        kinds: dict[str, Callable[[], object]] = {
            "a text": lambda: self.store.write_text("This is no database.\n" * 500),
            "a short text": lambda: self.store.write_text("S\n"),
            "zeros": lambda: self.store.write_bytes(bytes(8192)),
        }
        for name, make in {**kinds, **dict(self.foreign_databases())}.items():
            with self.subTest(name=name):
                for path in self.folder.glob("store*"):
                    path.unlink()
                make()
                self.refused(FOREIGN)
                self.refused(FOREIGN, "--begin", EXAMPLE, self.store, "-")

    def test_foreign_log(self) -> None:
        """Another program's database whose rows are still in its log is no store, and keeps them."""
        other = self.folder / "other"
        with opened(other) as database:
            database.execute("pragma journal_mode=wal")
            database.execute("create table numbers (number)")
            database.executemany("insert into numbers values (?)", [(number,) for number in range(50)])
            copied(other, self.store)
        for words in ([self.store, "-"], ["--begin", EXAMPLE, self.store, "-"]):
            self.refused(FOREIGN, *words)
        with opened(self.store) as database:
            found = database.execute("select count(*), min(number), max(number) from numbers").fetchall()
            self.assertEqual(found, [(50, 0, 49)])

    def test_one_byte(self) -> None:
        """A file of one byte, as SQLite's port leaves one that it had begun to make, is no store and stays as it is; a
        store is begun there."""
        for text in ("S", "x"):
            with self.subTest(text=text):
                for path in self.folder.glob("store*"):
                    path.unlink()
                self.file("store", text)
                done = self.ran(self.store, "-", text="epoch\n")
                self.assertTrue(self.is_refusal(done), done)
                self.assertEqual(self.store.read_bytes(), text.encode())
                self.begun(LINES)
                self.answered(LAST, self.whole())

    def foreign_databases(self) -> Iterator[tuple[str, Callable[[], object]]]:
        """Databases that are no stores, by sqlite3."""
        journal, map_ = (text for _, text in TABLES)
        for name, texts in {
            "another table": ["create table other (x)"],
            "one table": [journal],
            "tables that are not strict": [journal.removesuffix(" STRICT"), map_.removesuffix(" STRICT")],
            "a third table": [journal, map_, "create table other (x)"],
            "a third table that may say nothing": [journal, map_, ABOUT[1].replace(" NOT NULL", "")],
            "a third table alone": [ABOUT[1]],
            "a fourth table": [journal, map_, ABOUT[1], "create table other (x)"],
            "an index": [journal, map_, "create index of on journal (change)"],
            "a view": [journal, map_, "create view of as select * from map"],
            "a trigger": [journal, map_, "create trigger of after insert on map begin delete from journal; end"],
            "another column": [journal.replace("change", "text"), map_],
            "a text that may be null": [journal.replace(" NOT NULL", ""), map_],
        }.items():
            yield name, lambda texts=texts: self.made(*texts)  # type: ignore[misc]

    def made(self, *texts: str) -> None:
        """A database that sqlite3 makes by these texts."""
        with opened(self.store) as database:
            for text in texts:
                database.execute(text)

    def test_by_sqlite(self) -> None:
        """A database that sqlite3 has made with the two tables is a store once it has a first map, whatever the size of
        its pages; without one it is damaged."""
        text = model.Cluster(example()).written()
        for size in (512, 4096, 65536):
            with self.subTest(size=size):
                for path in self.folder.glob("store*"):
                    path.unlink()
                self.made(f"pragma page_size={size}", *(text for _, text in TABLES))
                self.refused(DAMAGED)
                with opened(self.store) as database:
                    database.execute("insert into map values (1, ?)", (text,))
                    database.executemany("insert into journal values (?, ?)", [(n, row(n)) for n in range(2, LAST + 1)])
                self.answered(LAST, self.whole())

    def test_begin_over(self) -> None:
        """A store is not begun over one that is there."""
        self.five()
        self.refused("the store has a first map already", "--begin", EXAMPLE, self.store, "-")
        self.answered(LAST, self.whole())

    def test_begin_refused(self) -> None:
        """Where the map of `--begin` is refused or not there, or the command line is wrong, no store is made."""
        bad = self.file("bad", '{"version":1')
        late = self.file("late", json.dumps({**example(), "epoch": 1 << 31 | 1}))
        script = self.file("script", "epoch\n")
        for words, wanted in (
            (["--begin", bad, self.store, "-"], Done(2, "", "map: BadJson\n")),
            (["--begin", late, self.store, "-"], Done(2, "", "map: BadLimit\n")),
            (["--begin", "none", self.store, "-"], Done(3, "", "file: none\n")),
            (["--begin", EXAMPLE, self.store, "none"], Done(3, "", "file: none\n")),
            (["--begin", EXAMPLE, self.store, *[script] * 65], Done(1, "", "too many scripts\n")),
            (["--begin", EXAMPLE, self.store, "-", "-"], Done(1, "", "standard input is given twice\n")),
            (["--begin", EXAMPLE, self.store, "-", "--to=x", "--to=y"], Done(1, "", "not as many --to as scripts\n")),
        ):
            with self.subTest(words=[str(word) for word in words[2:6]]):
                self.assertEqual(self.ran(*words), wanted)
                self.assertEqual(files_of(self.store), {})
        lines: list[list[object]] = [
            [],
            ["--begin", EXAMPLE],
            ["--journal", 0, self.store],
            ["--journal=65537", self.store],
            ["--keep=-1", self.store],
            ["--keep=1000001", self.store],
        ]
        for line in lines:
            with self.subTest(line=[str(word) for word in line]):
                done = self.ran(*line)
                self.assertEqual((done.status, done.output, bool(done.error)), (1, "", True))

    def test_no_script(self) -> None:
        """Without a script the epoch alone is told."""
        self.assertEqual(self.ran("--begin", EXAMPLE, self.store), Done(0, "epoch 1\n", ""))
        self.ran(self.store, "-", text=LINES)
        self.assertEqual(self.ran(self.store), Done(0, f"epoch {LAST}\n", ""))
        self.assertEqual(self.ran("--keep", 0, self.store), Done(0, f"epoch {LAST}\n", ""))
        self.assertEqual(held(self.store).rows, [])
        self.answered(LAST, self.whole())

    def test_keep(self) -> None:
        """An open leaves the rows as they are, unless there are more than twice those that are to be kept: then so many
        are left, and the first map is the one before them. Asked for the same again it leaves the file as it is."""
        lines = LINES.splitlines()
        for keep in (len(lines), 3, 2, 1, 0):
            with self.subTest(keep=keep):
                self.five()
                settled(self.store)
                self.assertEqual(self.ran("--keep", keep, self.store), Done(0, f"epoch {LAST}\n", ""))
                found, gone = held(self.store), len(lines) - keep if len(lines) > 2 * keep else 0
                self.assertEqual(found.first, (1 + gone, self.played(EXAMPLE, lines[:gone])[-1]))
                self.assertEqual(found.rows, [(epoch, row(epoch)) for epoch in range(2 + gone, LAST + 1)])
                self.assertEqual(self.noted()[1], keep)
                before = self.store.read_bytes()
                self.assertEqual(self.ran("--keep", keep, self.store), Done(0, f"epoch {LAST}\n", ""))
                self.assertEqual(self.store.read_bytes(), before)
                self.answered(LAST, self.whole())

    def noted(self, store: pathlib.Path | None = None) -> tuple[int, int]:
        """What a store notes of itself, by sqlite3, which is given a copy: the number of its life, and how many changes
        a start leaves."""
        with opened(copied(store or self.store, self.folder / "copy")) as database:
            ((life, keep),) = database.execute("select life, keep from store").fetchall()
            return life, keep

    def test_keep_is_the_stores(self) -> None:
        """How many changes a start leaves belongs to the store: it is noted as it is told, also of a store that is
        begun, and holds for each later start with a script; one that only looks changes no byte of the file."""
        lines = LINES.splitlines()
        self.assertEqual(self.ran("--keep", 2, "--begin", EXAMPLE, self.store, "-", text=LINES).error, "")
        self.assertEqual((self.noted()[1], len(held(self.store).rows)), (2, 5))
        starts: list[tuple[list[object], int, int]] = [
            ([], 2, 5),
            (["-"], 2, 2),
            (["--keep", 1], 1, 2),
            (["-"], 1, 2),
            (["--keep", 0], 0, 0),
            (["--keep", 7], 7, 0),
        ]
        for options, kept, left in starts:
            with self.subTest(options=options):
                before = self.store.read_bytes()
                done = self.ran(*options, self.store) if options[:1] != ["-"] else self.ran(self.store, "-")
                self.assertEqual((done.status, done.output.splitlines()[0], done.error), (0, f"epoch {LAST}", ""))
                self.assertEqual((self.noted()[1], len(held(self.store).rows)), (kept, left))
                if not options:
                    self.assertEqual(self.store.read_bytes(), before)
        self.assertEqual(held(self.store).first, (LAST, self.played(EXAMPLE, lines)[-1]))

    def test_keep_of_the_older_form(self) -> None:
        """A store of the older form has no place for that number: it holds for the one start."""
        self.made(*(text for _, text in TABLES))
        with opened(self.store) as database:
            database.execute("insert into map values (1, ?)", (model.Cluster(example()).written(),))
            database.executemany("insert into journal values (?, ?)", [(n, row(n)) for n in range(2, LAST + 1)])
        starts: list[tuple[list[object], int]] = [
            (["--keep", 2, self.store], 2),
            ([self.store, "-"], 2),
            (["--keep=0", self.store], 0),
        ]
        for words, left in starts:
            done = self.ran("--life", *words)
            self.assertEqual((done.status, done.output.splitlines()[0], done.error), (0, f"epoch {LAST}", ""))
            self.assertNotIn("life", done.output)
            self.assertEqual(len(held(self.store).rows), left)
        with opened(copied(self.store, self.folder / "copy")) as database:
            names = database.execute("select name, sql from sqlite_schema order by name").fetchall()
            self.assertEqual(names, TABLES)

    def test_life(self) -> None:
        """Each store that is begun has a number, which `--life` tells behind the epoch and which no change and no start
        makes another; a copy has the same one, and a copy that is to go on by itself another."""
        lives = set()
        for name in ("store", "copy-1", "copy-2"):
            store = self.folder / name
            self.assertEqual(self.ran("--begin", EXAMPLE, store, "-", text=LINES).error, "")
            lives.add(self.noted(store)[0])
            told = f"epoch {LAST}\nlife {self.noted(store)[0]}\n"
            starts: list[list[object]] = [[], ["--keep", 1], ["--keep", 3]]
            for words in starts:
                self.assertEqual(self.ran("--life", *words, store), Done(0, told, ""))
            answers = self.ran("--life", store, "-", text="epoch\n").output
            self.assertEqual(answers, f"{told}session 1\nepoch {LAST}\n")
        self.assertEqual(len(lives), 3)
        self.assertTrue(all(0 <= life < 1 << 53 for life in lives))
        copies: list[tuple[list[object], int]] = [([], 3), (["--restore"], 4)]
        for options, count in copies:
            to = self.folder / f"made-{count}"
            self.assertEqual(self.ran("--backup", to, *options, self.store), Done(0, f"epoch {LAST}\n", ""))
            lives.add(self.noted(to)[0])
            self.assertEqual((len(lives), self.noted(to)[1]), (count, 3))
            copy, own = held(to), held(self.store)
            self.assertEqual((copy.first, copy.rows), (own.first, own.rows))
            self.assertEqual(self.ran("--life", to).output, f"epoch {LAST}\nlife {self.noted(to)[0]}\n")

    def test_notes(self) -> None:
        """Beside each change stands the number of the store's life, and when the change was made, by the clock; a copy
        has the same, and one that goes on by itself its own number."""
        begin = time.time_ns() // 1_000_000
        lines = LINES.splitlines(keepends=True)
        every: list[list[object]] = [["--begin", EXAMPLE], [], []]
        for at, words in enumerate(every):
            self.assertEqual(self.ran(*words, self.store, "-", text=lines[at]).error, "")
        notes, life = held(self.store).notes, self.noted()[0]
        self.assertEqual([(note[0], note[2]) for note in notes if note], [(life, None)] * 3)
        times = [begin, *(note[1] for note in notes if note), time.time_ns() // 1_000_000]
        self.assertEqual(times, sorted(times))
        copies: list[list[object]] = [[], ["--restore"]]
        for options in copies:
            to = self.folder / f"copy-{len(options)}"
            self.assertEqual(self.ran("--backup", to, *options, self.store).error, "")
            own = self.noted(to)[0]
            self.assertEqual(own == life, not options)
            self.assertEqual(held(to).notes, [(own, *note[1:]) for note in notes if note])
            self.assertEqual(self.ran(to, "-", text=lines[3]).error, "")

    def test_word(self) -> None:
        """The word of `--by` stands beside each change of the run; a copy has it, and a word that no note can have is a
        fault of the command line, told before the store is touched."""
        lines = LINES.splitlines(keepends=True)
        words = ["alice", "!", "~" * 64, "a,b=c;made=1", "--"]
        self.assertEqual(self.ran("--by", words[0], "--begin", EXAMPLE, self.store, "-", text=lines[0]).error, "")
        for word, line in zip(words[1:], lines[1:]):
            self.assertEqual(self.ran(f"--by={word}", self.store, "-", text=line).error, "")
        self.assertEqual([note and note[2] for note in held(self.store).notes], words)
        self.answered(LAST, self.whole())
        copy = self.folder / "copy"
        self.assertEqual(self.ran("--by=x", "--backup", copy, "--restore", self.store).error, "")
        self.assertEqual([note and note[2] for note in held(copy).notes], words)
        for word in ("", "~" * 65, "two words", "tab\t", "\n", "\x7f", "\xe4", "\xe4" * 32, " "):
            with self.subTest(word=word):
                before = files_of(self.store)
                self.assertEqual(self.ran(f"--by={word}", self.store, "-"), Done(1, "", BAD_WORD))
                self.assertEqual(self.ran(f"--by={word}", "--begin", "none", "none"), Done(1, "", BAD_WORD))
                self.assertEqual(files_of(self.store), before)
        twice = Done(1, "", "standard input is given twice\n")
        self.assertEqual(self.ran("--by=", self.store, "-", "-"), twice)

    def test_no_notes_in_the_older_form(self) -> None:
        """A store without a number has no notes; one whose changes have none is read, and has them from then on where
        it has a number."""
        for tables, is_noted in ((TABLES, False), ([*TABLES, ABOUT], True)):
            with self.subTest(is_noted=is_noted):
                self.store = self.folder / f"store-{is_noted}"
                self.made(*(text for _, text in tables))
                with opened(self.store) as database:
                    database.execute("insert into map values (1, ?)", (model.Cluster(example()).written(),))
                    database.executemany("insert into journal values (?, ?)", [(n, row(n)) for n in (2, 3)])
                    if is_noted:
                        database.execute("insert into store values (7, 9)")
                done = self.ran(self.store, "-", text=LINES.splitlines(keepends=True)[2])
                self.assertEqual((done.status, done.error), (0, ""))
                found = held(self.store)
                self.assertEqual(found.rows, [(n, row(n)) for n in (2, 3, 4)])
                notes = [note and (note[0], note[2]) for note in found.notes]
                self.assertEqual(notes, [None, None, (7, None) if is_noted else None])

    def test_damaged_notes(self) -> None:
        """What stands in front of a change and is no note is damage, and a change of another life is refused."""
        self.five()
        life, kept = self.noted()[0], files_of(self.store)
        wrong = [
            "life=",
            "life=1",
            "life=1,",
            "life=x,made=1",
            f"life={life},made=",
            f"life={life},made=1,to=x",
            "later",
        ]
        for text in [*wrong, f"life={1 << 63},made=1", f"life={life},made={1 << 64}"]:
            with self.subTest(text=text):
                self.with_text(kept, f"{text} {row(3)}")
                self.refused(DAMAGED)
        self.with_text(kept, "life=1")
        self.refused(DAMAGED)
        for text in (f"life={life + 1},made=1", f"life={life + 1},made=1,by=x"):
            self.with_text(kept, f"{text} {row(3)}")
            self.refused(MIXED)
            self.refused(MIXED, "--backup", self.folder / "none", self.store)
        for text in (f"life={life},made=0,by=x,y", f"life={life},made={(1 << 64) - 1}"):
            self.with_text(kept, f"{text} {row(3)}")
            self.answered(LAST, self.whole())

    def with_text(self, kept: dict[str, bytes], text: str) -> None:
        """The store with five changes, and this text as its second row."""
        for name, data in kept.items():
            self.file(name, data)
        with opened(settled(self.store)) as database:
            database.execute("update journal set change = ? where epoch = 3", (text,))
        settled(self.store)
        sum_anew(self.store)

    def test_log_of_another_store(self) -> None:
        """A log that was left beside a file which took the place of its own is told, also where that file is a copy
        that goes on by itself, with the same epochs."""
        self.begun(LINES)
        copy = self.folder / "copy"
        self.assertEqual(self.ran("--backup", copy, "--restore", self.store).error, "")
        for path in (self.store, copy):
            live = Live(self.command, path, "-")
            live.put(f'change {{"base":{LAST},"weight":[[0,7]]}}\n'.encode())
            for _ in range(3):
                self.assertIsNotNone(live.line())
            live.process.kill()
            live.end()
        shutil.copyfile(log_of(self.store), log_of(copy))
        self.store = copy
        self.refused(MIXED)

    def test_looking(self) -> None:
        """A start without a script cuts nothing off, however many changes there are, and leaves the file as it is; one
        with a script claims its log, and leaves the last 1,024 where there are more than twice so many."""
        most, more = 1024, 2050
        self.made(*(text for _, text in TABLES))
        with opened(self.store) as database:
            database.execute("insert into map values (1, ?)", (model.Cluster(example()).written(),))
            changes = [
                (epoch + 1, written_change({"base": epoch, "weight": [[0, epoch]]})) for epoch in range(1, 1 + more)
            ]
            database.executemany(
                "insert into journal values (?, ?)", [(epoch, f"plain {text}") for epoch, text in changes]
            )
        # The older form, in which the number of a start holds for that one alone.
        starts: list[tuple[list[object], int]] = [([self.store], more), (["--keep", more, self.store, "-"], more)]
        for words, left in [*starts, ([self.store, "-"], most)]:
            with self.subTest(words=len(words)):
                before = self.store.read_bytes()
                done = self.ran(*words)
                self.assertEqual((done.status, done.output.splitlines()[0]), (0, f"epoch {1 + more}"))
                self.assertEqual(len(held(self.store).rows), left)
                self.assertEqual(self.store.read_bytes() == before, "-" not in words)

    def test_journal(self) -> None:
        """A run takes as many changes as its journal has room for, and the next run as many again."""
        for first in (1, 3):
            lines = "".join(f'change {{"base":{epoch},"down":[2]}}\n' for epoch in range(first, first + 3))
            begin = ["--begin", EXAMPLE] if first == 1 else []
            done = self.ran("--journal", 2, *begin, self.store, "-", text=lines)
            told = [f"epoch {first}", "session 1", f"ok {first + 1} evals 0", f"ok {first + 2} evals 0"]
            self.assertEqual(done, Done(0, "\n".join([*told, "err 28 JournalFull", ""]), nearly(2) + FULL))
        self.assertEqual(self.ran(self.store).output, "epoch 5\n")

    def test_closed_streams(self) -> None:
        """Where standard streams are closed or full, nothing that is meant for them lands in the store."""
        self.five()
        for count, (streams, status) in enumerate(
            [(">&-", 3), (">/dev/full", 3), ("<&- >&-", 3), ("<&- >&- 2>&-", 3), ("<&- 2>&-", 3), ("2>&-", 0)]
        ):
            with self.subTest(streams=streams):
                done = subprocess.run(
                    ["sh", "-c", f'exec "$0" "$@" {streams}', self.command, self.store, "-"],
                    input=f'change {{"base":{LAST},"down":[9]}}\n'.encode(),
                    capture_output=True,
                    timeout=SECONDS,
                )
                self.assertEqual(done.returncode, status, done)
                self.answered(LAST, self.whole())
                fresh = self.folder / f"begun-{count}"
                words = ["--begin", str(EXAMPLE), str(fresh), "-"]
                begin: list[str] = ["sh", "-c", f'exec "$0" "$@" {streams}', str(self.command), *words]
                subprocess.run(begin, capture_output=True, timeout=SECONDS)
                self.assertEqual(self.ran(fresh), Done(0, "epoch 1\n", ""))

    # Two programs

    def test_two_programs(self) -> None:
        """While a program has the store, another has it not, nor has sqlite3; and the first goes on."""
        self.five()
        live = Live(self.command, self.store, "-")
        self.assertEqual([live.line(), live.line()], [f"epoch {LAST}", "session 1"])
        self.refused("the store is in use")
        self.refused("the store is in use", "--begin", EXAMPLE, self.store, "-")
        with opened(self.store) as database, self.assertRaisesRegex(sqlite3.OperationalError, "locked"):
            database.execute("pragma busy_timeout=0")
            database.execute("select * from map").fetchall()
        self.assertEqual(live.ask(f'change {{"base":{LAST},"up":[0]}}'), f"ok {LAST + 1} evals 0")
        self.assertEqual(live.end(), (0, "", ""))
        self.assertEqual(self.ran(self.store).output, f"epoch {LAST + 1}\n")

    def test_sqlite_has_it(self) -> None:
        """While sqlite3 writes the store, or reads it, the program has it not."""
        self.five()
        for text in ("begin immediate", "begin; select * from map"):
            with self.subTest(text=text), opened(self.store) as database:
                for part in text.split("; "):
                    database.execute(part).fetchall()
                self.assertEqual(self.ran(self.store), Done(5, "", "store: the store is in use\n"))
                database.execute("rollback")
        self.answered(LAST, self.whole())

    # What sqlite3 reads

    def test_read_by_sqlite(self) -> None:
        """sqlite3 finds the store sound, and in it the three tables, the first map and a row for each change; also once
        it was opened again."""
        self.five()
        with opened(copied(self.store, self.folder / "copy")) as database:
            self.assertEqual(database.execute("pragma integrity_check").fetchall(), [("ok",)])
            names = database.execute("select name, sql from sqlite_schema order by name").fetchall()
            self.assertEqual(names, [*TABLES, ABOUT])
            self.assertEqual(database.execute("pragma journal_mode").fetchall(), [("wal",)])
        found = held(self.store)
        self.assertEqual(found.first, (1, model.Cluster(example()).written()))
        self.assertEqual(found.rows, [(epoch, row(epoch)) for epoch in range(2, LAST + 1)])
        self.answered(LAST, self.whole())
        self.assertEqual(held(self.store), found)

    def test_sums(self) -> None:
        """Each page ends in the sum that SQLite's extension cksumvfs makes."""
        self.five()
        self.ran(self.store)
        settled(self.store)
        pages = pages_of(self.store)
        self.assertEqual(pages[0][RESERVED_AT], SUM_BYTES)
        self.assertGreater(len(pages), 2)
        self.assertEqual([page[-SUM_BYTES:] for page in pages], [sum_of(page) for page in pages])

    def test_read_by_the_shell(self) -> None:
        """SQLite's shell reads the store as any database."""
        self.needs("sqlite3", shutil.which("sqlite3") is not None)
        self.five()
        text = "select count(*), min(epoch), max(epoch) from journal"
        done = subprocess.run(
            ["sqlite3", copied(self.store, self.folder / "copy"), text], capture_output=True, timeout=SECONDS
        )
        self.assertEqual((done.stdout, done.stderr), (f"{LAST - 1}|2|{LAST}\n".encode(), b""))

    # What sqlite3 has written

    def test_edited(self) -> None:
        """A row that sqlite3 has made another is refused by its epoch, with the name of what is wrong."""
        for text, values, wanted in self.edits():
            with self.subTest(text=text, values=values):
                self.five()
                with opened(settled(self.store)) as database:
                    database.execute(text, values)
                settled(self.store)
                sum_anew(self.store)
                self.refused(wanted)
                self.assertEqual(held(self.store).first[0], 1)

    def test_edited_without_sums(self) -> None:
        """A store that sqlite3 has written to is damaged, where the sums of its pages were not made anew; all that it
        dumps of it, put into another database, is a store."""
        self.five()
        with opened(settled(self.store)) as database:
            database.execute("update journal set change = change || ' ' where epoch = 3")
        settled(self.store)
        self.refused(DAMAGED)
        with opened(self.store) as database, opened(self.folder / "other") as other:
            other.executescript("\n".join(database.iterdump()))
        sum_anew(self.store)
        self.answered(LAST, self.whole())
        self.store = self.folder / "other"
        self.answered(LAST, self.whole())

    def edits(self) -> Iterator[tuple[str, tuple[object, ...], str]]:
        """What is put into a store, and the refusal that names it."""
        set_, first = "update journal set change = ? where epoch = ?", "update map set text = ?"

        def change(epoch: int, **parts: object) -> str:
            return f"plain {written_change({'base': epoch - 1, **parts})}"

        yield set_, (change(3, down=[9]), 3), "row 3: UnknownOsd"
        yield set_, (change(3, weight=[[0, 65537]]), 3), "row 3: BadWeight"
        yield set_, (change(3, new_items=[["1.1", [[3, 1]]]]), 3), "row 3: UnknownGroup"
        yield set_, (change(4), 3), "row 3: StaleEpoch"
        yield set_, ("plain {", 3), "row 3: BadJson"
        yield set_, ("plain {}", 6), "row 6: BadField"
        yield set_, ('plain {"base":-1}', 2), "row 2: BadLimit"
        for text in ("", "plain", "Plain {}", ' plain {"base":2}', '{"base":2}', "stocks {}", "plain\t{}"):
            yield set_, (text, 3), "row 3: no profile"
        yield "delete from journal where epoch = ?", (3,), "row 4: StaleEpoch"
        yield "delete from journal where epoch = ?", (2,), "row 3: StaleEpoch"
        yield "update journal set epoch = 8 where epoch = ?", (6,), "row 8: StaleEpoch"
        yield "update journal set epoch = 1 where epoch = ?", (2,), "row 1: StaleEpoch"
        yield "insert into journal values (7, ?)", (change(7, up=[9]),), "row 7: UnknownOsd"
        yield first, ("{",), "map: BadJson"
        yield first, (written({**example(), "version": 3}),), "map: BadLimit"
        yield first, (written({**example(), "epoch": 2}),), "row 2: StaleEpoch"

    def test_epochs_that_are_none(self) -> None:
        """A row of an epoch below 0, two first maps, and none, are damage; so it is of what a store notes of itself."""
        for text in (
            "update journal set epoch = -1 where epoch = 2",
            "insert into map values (2, 'x')",
            "delete from map",
            "update map set epoch = -1",
            "delete from store",
            "insert into store values (-1, 1)",
            "update store set keep = -1",
        ):
            with self.subTest(text=text):
                self.five()
                with opened(settled(self.store)) as database:
                    database.execute(text)
                settled(self.store)
                sum_anew(self.store)
                self.refused(DAMAGED)

    def test_late_epoch(self) -> None:
        """A map whose epoch is the last that a first map may have is changed once more, and the store then refused."""
        late = 1 << 31
        first = self.file("late", json.dumps({**example(), "epoch": late}))
        done = self.begun(f'change {{"base":{late},"down":[2]}}\n', first)
        self.assertEqual(done.output, f"epoch {late}\nsession 1\nok {late + 1} evals 0\n")
        self.refused(f"the map has epoch {late + 1}, and the first at most {late}")
        self.assertEqual(held(self.store).last, late + 1)

    # Damage

    def damaged(self, data: bytes, log: bytes = b"") -> Done:
        """What comes of opening a store with these bytes."""
        for path in self.folder.glob("store*"):
            path.unlink()
        self.store.write_bytes(data)
        if log:
            log_of(self.store).write_bytes(log)
        return self.ran(self.store, "-", text="dump\n")

    def is_refusal(self, done: Done) -> bool:
        """Whether a run was refused in one line, and served nothing."""
        return (done.status, done.output) == (5, "") and bool(re.fullmatch(r"store: [^\n]+\n", done.error))

    def test_damaged_file(self) -> None:
        """A store without a log, a byte of which is another: it is refused, and the file stays as it is."""
        self.five()
        data, rng = settled(self.store).read_bytes(), random.Random(1)
        size = page_size(data)
        places = [*range(100), *(size * page + at for page in range(len(data) // size) for at in (0, 3, 5, size - 1))]
        for place in sorted({*places, *rng.sample(range(len(data)), PLACES)}):
            with self.subTest(place=place):
                changed = bytearray(data)
                changed[place] ^= 1 << rng.randrange(8)
                done = self.damaged(bytes(changed))
                self.assertTrue(self.is_refusal(done), done)
                self.assertEqual(self.store.read_bytes(), changed)

    def test_torn_file(self) -> None:
        """A store without a log that lacks its end is refused."""
        self.five()
        data, rng = settled(self.store).read_bytes(), random.Random(2)
        size = page_size(data)
        lengths = [
            2,
            15,
            16,
            99,
            100,
            512,
            *(size * page + at for page in range(1, len(data) // size) for at in (-1, 0, 1)),
        ]
        for length in sorted({*lengths, len(data) - 1, *rng.sample(range(2, len(data)), LENGTHS)}):
            with self.subTest(length=length):
                done = self.damaged(data[:length])
                self.assertTrue(self.is_refusal(done), done)
                self.assertEqual(self.store.read_bytes(), data[:length])

    def histories(self) -> dict[str, int]:
        """What a store may answer that has lost its last changes, with the epoch of each."""
        lines = LINES.splitlines()
        dumps = [self.played(EXAMPLE, lines[:count])[-1] for count in range(len(lines) + 1)]
        return {f"epoch {at}\nsession 1\ndump {dump}\n": at for at, dump in enumerate(dumps, 1)}

    def with_log(self) -> tuple[bytes, bytes]:
        """A store whose changes are in its log: of one that was settled, opened and changed, and then killed."""
        self.begun()
        settled(self.store)
        live = Live(self.command, self.store, "-")
        for line in LINES.splitlines():
            live.put(line.encode() + b"\n")
        for _ in range(2 + len(CHANGES)):
            self.assertIsNotNone(live.line())
        live.process.kill()
        live.end()
        return self.store.read_bytes(), log_of(self.store).read_bytes()

    def judge_log(self, data: bytes, log: bytes, name: str, is_whole: bool = False) -> None:
        """Asks that a store with a log that is damaged has lost last changes at most, or is refused."""
        with self.subTest(name):
            done = self.damaged(data, log)
            is_one = (done.status, done.error) == (0, "") and done.output in self.histories_known
            self.assertTrue(is_one or (self.is_refusal(done) and not is_whole), done)

    def test_damaged_log(self) -> None:
        """A store whose log has a byte that is another, or lacks its end, is one that has lost last changes, or is
        refused. One whose log has lost its header, too, is refused as one without a log."""
        data, log = self.with_log()
        self.histories_known = self.histories()
        self.assertEqual(self.damaged(data, log).output.splitlines()[0], f"epoch {LAST}")
        used, least, rng = len(log.rstrip(b"\0")), EMPTY_LOG, random.Random(3)
        for place in sorted({*range(56), *rng.sample(range(used), LOG_PLACES)}):
            changed = bytearray(log)
            changed[place] ^= 1 << rng.randrange(8)
            self.judge_log(data, bytes(changed), f"place {place}")
        lengths = {least, 55, 56, *rng.sample(range(least, used), LENGTHS), used - 1, used, len(log) - 1}
        for length in sorted(lengths):
            self.judge_log(data, log[:length], f"length {length}", is_whole=True)
        lost = "its log is missing: bring it back, or by --without-log 1 lose what it has behind that epoch"
        for length in (0, 1, 31, 32, 33, least - 1):
            with self.subTest(length=length):
                self.assertEqual(self.damaged(data, log[:length]), Done(5, "", f"store: {lost}\n"))
