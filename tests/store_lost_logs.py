"""A log that is lost. While a run may change a store, the store's file claims its log: without that it is not opened.
The run's orderly end takes the claim away."""

from __future__ import annotations

import struct

from tests import model
from tests.cases import EXAMPLE, example
from tests.store_failures import Talk, change_at, with_long_log, with_rows
from tests.store_files import EMPTY_LOG, FOREIGN, TABLES
from tests.stores import Done, StoreCase, but_for_claims, files_of, log_of, opened

# Where the first page of a database has its user version, which is the claim.
CLAIM_AT = 60


class StoreLostLogs(StoreCase):
    """What is told of a log that is missing, and what is not."""

    def claim(self) -> int:
        """The epoch behind which the store's file claims its log; 0 where it claims none."""
        (claim,) = struct.unpack_from(">I", self.store.read_bytes(), CLAIM_AT)
        return int(claim)

    def lost(self, epoch: int, *words: object) -> None:
        """Asks that a run is refused as its store has lost its log, and changes nothing at all."""
        before = files_of(self.store)
        told = f"its log is missing: bring it back, or by --without-log {epoch} lose what it has behind that epoch"
        self.assertEqual(self.ran(*words, text="epoch\n"), Done(5, "", f"store: {told}\n"))
        self.assertEqual(files_of(self.store), before)

    def test_told(self) -> None:
        """Behind a kill each kind of start tells that the log is missing, again and again, and makes no file. Once the
        log is back nothing is lost."""
        with_rows(self, 5)
        log = log_of(self.store).read_bytes()
        for left in (None, b"", log[: EMPTY_LOG - 1]):
            log_of(self.store).unlink()
            if left is not None:
                log_of(self.store).write_bytes(left)
            copy = self.folder / "copy"
            played: list[list[str]] = [[], ["-"]]
            starts: list[list[object]] = [[], ["--keep", "0"], ["--begin", EXAMPLE], ["--open-or-begin", EXAMPLE]]
            starts += [["--backup", copy], ["--backup", copy, "--restore"], ["--without-log", 2], []]
            for words in starts:
                for scripts in played:
                    with self.subTest(left=left and len(left), words=words, scripts=scripts):
                        self.lost(1, *words, self.store, *scripts)
            self.assertFalse(copy.exists())
            log_of(self.store).write_bytes(log)
        self.assertEqual(self.ran(self.store), Done(0, "epoch 6\n", ""))

    def test_without_log(self) -> None:
        """With the epoch that was told, a store goes on from what its file has; a start that only looks has its file be
        the store by itself, and a copy leaves it as it is."""
        with_rows(self, 5)
        log_of(self.store).unlink()
        copy, words = self.folder / "copy", ["--without-log", "1"]
        before = files_of(self.store)
        self.assertEqual(self.ran(*words, "--backup", copy, self.store), Done(0, "epoch 1\n", ""))
        self.assertEqual(files_of(self.store), before)
        self.assertEqual(self.ran(copy), Done(0, "epoch 1\n", ""))
        self.assertEqual(self.ran(*words, self.store), Done(0, "epoch 1\n", ""))
        self.assertEqual(self.claim(), 0)
        log_of(self.store).unlink()
        done = self.ran(*words, self.store, "-", text=f"{change_at(1)}\n")
        self.assertEqual((done.status, done.output.splitlines()[2][:4]), (0, "ok 2"))
        self.assertEqual(self.ran(*words, self.store), Done(0, "epoch 2\n", ""))

    def test_long_log(self) -> None:
        """Where a long log was copied into the file meanwhile, the epoch that is told is still that at which the run
        began. A start that goes on without the log tells what the file has."""
        made = len(with_long_log(self))
        for path in self.folder.glob("store*"):
            path.unlink()
        with_rows(self, made + 3)
        log_of(self.store).unlink()
        self.lost(1, self.store)
        done = self.ran("--without-log", 1, self.store)
        self.assertEqual((done.status, done.error), (0, ""))
        self.assertIn(int(done.output.split()[1]), range(made, made + 4))

    def test_orderly(self) -> None:
        """A run whose end is orderly leaves no claim, and without a log the store is opened as ever. One that changes
        nothing leaves the file as it was, but for the number of the schema; one without a script no other byte."""
        self.begun(f"{change_at(1)}\n")
        before = self.store.read_bytes()
        for text in ("", "epoch\n"):
            self.assertEqual(self.claim(), 0)
            log_of(self.store).unlink()
            self.assertEqual(self.ran(self.store, "-", text=text).status, 0)
            self.assertEqual(but_for_claims(self.store.read_bytes()), but_for_claims(before))
        before = self.store.read_bytes()
        log_of(self.store).unlink()
        self.assertEqual(self.ran(self.store), Done(0, "epoch 2\n", ""))
        self.assertEqual(self.store.read_bytes(), before)

    def test_before_the_first_change(self) -> None:
        """A run that is killed before its first change has lost nothing: the store is opened, and looking at it takes
        the claim away. Its log was there before the file claimed it."""
        self.begun(f"{change_at(1)}\n")
        log_of(self.store).unlink()
        talk = Talk([self.command, self.store, "-"], {})
        self.assertTrue(talk.is_live)
        talk.process.kill()
        talk.end()
        self.assertEqual(self.claim(), 2)
        self.assertEqual(log_of(self.store).stat().st_size, EMPTY_LOG)
        self.assertEqual(self.ran(self.store), Done(0, "epoch 2\n", ""))
        self.assertEqual(self.claim(), 0)
        log_of(self.store).unlink()
        self.assertEqual(self.ran(self.store), Done(0, "epoch 2\n", ""))

    def test_older_form(self) -> None:
        """A file of the older form claims its log, too, and none at an orderly end."""
        with opened(self.store) as database:
            for _, text in TABLES:
                database.execute(text)
            database.execute("insert into map values (1, ?)", (model.Cluster(example()).written(),))
        self.assertEqual(self.ran(self.store, "-", text=f"{change_at(1)}\n").status, 0)
        self.assertEqual((self.claim(), self.ran(self.store)), (0, Done(0, "epoch 2\n", "")))
        talk = Talk([self.command, self.store, "-"], {})
        self.assertEqual((talk.ask(change_at(2)) or "")[:4], "ok 3")
        talk.process.kill()
        talk.end()
        log_of(self.store).unlink()
        self.lost(2, self.store)

    def test_copy(self) -> None:
        """A copy of a store that a run may change claims no log."""
        talk = Talk([self.command, "--begin", EXAMPLE, self.store, "-"], {})
        talk.ask(change_at(1))
        copy = self.folder / "copy"
        forms: list[list[str]] = [[], ["--restore"]]
        for words in forms:
            self.assertEqual(self.ran("--backup", copy, *words, self.store), Done(0, "epoch 2\n", ""))
            self.assertEqual(self.ran(copy), Done(0, "epoch 2\n", ""))
            self.assertEqual(copy.read_bytes()[CLAIM_AT : CLAIM_AT + 4], bytes(4))
            copy.unlink()
        self.assertEqual(talk.end().done, Done(0, "", ""))

    def test_foreign(self) -> None:
        """Another program's database that has a user version is no store, whatever is said of its log."""
        with opened(self.store) as database:
            database.execute("create table other (x)")
            database.execute("pragma user_version = 7")
        forms: list[list[object]] = [[], ["--without-log", "7"], ["--begin", EXAMPLE]]
        for words in forms:
            self.assertEqual(self.ran(*words, self.store), Done(5, "", f"store: {FOREIGN}\n"))

    def test_option(self) -> None:
        """`--without-log` takes an epoch from 1 to 4,294,967,295, and has no effect where no log is missing."""
        self.begun()
        for number in (0, -1, 1 << 32, "x", ""):
            with self.subTest(number=number):
                self.assertEqual(self.ran(f"--without-log={number}", self.store).status, 1)
        for number in (1, 7, (1 << 32) - 1):
            self.assertEqual(self.ran("--without-log", number, self.store), Done(0, "epoch 1\n", ""))
