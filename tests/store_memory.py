"""A store beside a memory that refuses: over a store with some changes, growths of a run refused once in turn
(refuse_nth.c), in memory and where the file is opened, written and closed: each where LONG is set (`tests/run.py
--long`), else one of eleven.

A change that finds no memory is answered 30 and is not made; the same line, put again, is made. No growth that is
refused once makes the store fail. What was answered `ok` is in the store afterwards, and nothing else.
"""

from __future__ import annotations

import dataclasses
import os
import pathlib
import tempfile

from tests.cases import EXAMPLE
from tests.refused_memory import grown, refuser
from tests.store_failures import Talk, Talked, with_rows
from tests.stores import Done, StoreCase, copied, held

MEMORY = "err 30 Memory"
# The rows of the store, how many of them are left as it is opened, and the changes of a run.
ROWS, KEPT, CHANGES = 3, 1, 3
# How a run may end for want of memory: before it has begun, or where its log is copied into its file.
ENDS = (Done(0, "", ""), Done(4, "", "memory\n"), Done(5, "", "store: memory is short\n"))


@dataclasses.dataclass
class Sweep:
    """Runs over copies of a store, in each of which a growth is refused. They begin the store where there is none."""

    case: "StoreMemory"
    library: pathlib.Path
    made: list[str]
    apart: int
    first: int = 0

    def difference(self, number: int) -> tuple[str | None, bool]:
        """What is wrong with the run in which a growth is refused, or None; and whether it came to that growth."""
        with tempfile.TemporaryDirectory(dir=self.case.folder) as name:
            folder = pathlib.Path(name)
            store, mark = folder / "store", folder / "refused"
            copied(self.case.store, store)
            given = {"LD_PRELOAD": str(self.library), "REFUSE_NTH": str(number * self.apart), "REFUSED": str(mark)}
            begin: list[object] = ["--keep", KEPT] if self.made else ["--begin", EXAMPLE]
            talk = Talk([self.case.command, *begin, store, "-"], given)
            for _ in range(CHANGES * talk.is_live):
                if talk.turn() == MEMORY:
                    talk.turn()
            try:
                self.case.judge(talk.end(), self.made, store)
            except AssertionError as fault:
                return str(fault), mark.exists()
            return None, mark.exists()


class StoreMemory(StoreCase):
    """Runs over a store that find no memory once."""

    def judge(self, talked: Talked, before: list[str], store: pathlib.Path) -> None:
        """Asks that a run over a store with some changes is as it may be where memory is refused once, and that the
        store then has the changes that were answered `ok`, and no others."""
        self.assertIn(dataclasses.replace(talked.done, output=""), ENDS)
        told = [(line, answer) for line, answer in talked.pairs if answer is not None]
        self.assertLessEqual([answer for _, answer in told].count(MEMORY), 1)
        others = [(line, answer) for line, answer in told if answer != MEMORY]
        answers = self.played(EXAMPLE, [*before, *(line for line, _ in others)])
        self.assertEqual([answer for _, answer in others], answers[len(before) : -1])
        opened = self.ran(store, "-", text="dump\n")
        if not before and opened.status == 5 and talked.head is None:
            return
        # A run that finds no memory for an answer ends; the change that it would have told of is in the store then.
        made = [*before, *talked.made()]
        untold = [line for line, answer in talked.pairs if answer is None and line.startswith("change ")][:1]
        may = [made, [*made, *untold]] if talked.done.status == 4 else [made]
        wanted = [
            Done(0, f"epoch {1 + len(changes)}\nsession 1\ndump {self.played(EXAMPLE, changes)[-1]}\n", "")
            for changes in may
        ]
        self.assertIn(opened, wanted)
        self.assertEqual(held(store).last, 1 + len(may[wanted.index(opened)]))

    def sweeps(self, made: list[str]) -> None:
        """Refuses each growth of runs in turn."""
        count = 0
        swept = Sweep(self, refuser(self.folder), made, 1 if os.environ.get("LONG") else 11)
        for number, (wrong, came) in grown(swept):
            count += came
            if came or wrong:
                with self.subTest(growth=number):
                    self.assertIsNone(wrong)
        self.assertGreater(count, 100, "growths that were refused")

    def test_begin(self) -> None:
        """A store that is begun and changed, with each growth refused."""
        self.sweeps([])

    def test_open(self) -> None:
        """A store with changes that is opened, which leaves one, and changed, with each growth refused."""
        self.sweeps(with_rows(self, ROWS))
