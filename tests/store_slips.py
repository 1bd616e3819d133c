"""Slips of an operator at a store: a file that was moved away from its log, a name that is too long, a store that is
made twice. None loses a change, and each is told."""

from __future__ import annotations

from tests.cases import EXAMPLE
from tests.store_failures import with_rows
from tests.stores import Done, StoreCase, files_of, log_of

ALONE = "store: there is a log at this path, and no store with it\n"
# The longest name of a file, and the longest one beside which a file of a longer name fits.
LONGEST, ROOM = 255, len("-journal")


class StoreSlips(StoreCase):
    """What is told of a slip, and that it loses nothing."""

    def test_log_alone(self) -> None:
        """Where a store's file was moved away or emptied and its log is left, nothing is opened or begun, and once the
        file is back all changes are there."""
        with_rows(self, 5)
        away = self.folder / "away"
        for is_emptied in (False, True):
            self.store.rename(away)
            if is_emptied:
                self.store.write_bytes(b"")
            before = files_of(self.store)
            every: list[list[object]] = [["--begin", EXAMPLE], ["--open-or-begin", EXAMPLE], []]
            for words in every:
                with self.subTest(is_emptied=is_emptied, words=words):
                    self.assertEqual(self.ran(*words, self.store), Done(5, "", ALONE))
                    self.assertEqual(files_of(self.store), before)
            away.rename(self.store)
        self.assertEqual(self.ran(self.store), Done(0, "epoch 6\n", ""))

    def test_log_of_nothing(self) -> None:
        """A log that a run has left whose end was orderly has nothing in it: a store is begun beside it."""
        self.begun()
        self.assertLess(log_of(self.store).stat().st_size, 56)
        self.store.unlink()
        self.begun()

    def test_long_name(self) -> None:
        """A store is begun only where the names beside it are not too long, and else no file is made."""
        for length in (LONGEST - ROOM, LONGEST - ROOM + 1, LONGEST, LONGEST + 1):
            with self.subTest(length=length):
                name = self.folder / ("s" * length)
                done = self.ran("--begin", EXAMPLE, name)
                if length + ROOM <= LONGEST:
                    self.assertEqual(done, Done(0, "epoch 1\n", ""))
                else:
                    self.assertEqual(done, Done(5, "", "store: the file cannot be opened\n"))
                    self.assertEqual(list(self.folder.glob("s*")), [])
                for path in self.folder.glob("s*"):
                    path.unlink()

    def test_open_or_begin(self) -> None:
        """`--open-or-begin` makes a store once, and opens it from then on; it makes none of what is no store."""
        change = 'change {"base":1,"down":[2]}\n'
        first = self.ran("--open-or-begin", EXAMPLE, self.store, "-", text=change)
        self.assertEqual((first.status, first.output.splitlines()[:2]), (0, ["epoch 1", "session 1"]))
        self.assertEqual(self.ran("--open-or-begin", "none", self.store), Done(0, "epoch 2\n", ""))
        self.file("text", "no database\n" * 100)
        refused = Done(5, "", "store: the file is not a store\n")
        self.assertEqual(self.ran("--open-or-begin", EXAMPLE, "text"), refused)
        self.assertEqual(self.ran("--begin", EXAMPLE, self.store).error, "store: the store has a first map already\n")
