"""A store in service for long (`bench/service.py`): nothing that was answered is lost over kills, ends and copies, and
memory, file and start stay bounded. Where LONG is set it is 2,000,000 changes, or as many as SERVICE says."""

from __future__ import annotations

import os
import sys

from tests.cases import TOP
from tests.stores import StoreCase

sys.path.append(str(TOP / "bench"))

import service  # noqa: E402

IS_LONG = bool(os.environ.get("LONG"))
# So many changes and kills, and so many changes a run.
CHANGES = int(os.environ.get("SERVICE", 2_000_000)) if IS_LONG else 2_000
KILLS, JOURNAL = (100, 65_536) if IS_LONG else (4, 400)
# How much greater a column may be in the second half of a long run than in the first, and how much of it is no growth.
GROWTH, SLACK = 1.5, 10.0
BOUNDED = ("its peak, MB", "file, MB", "log, MB", "last start, ms")


class ServiceRuns(StoreCase):
    """A supervisor, four writers, kills and copies."""

    is_alone = True

    def test_service(self) -> None:
        """Each change that was answered is in the store at its epoch, and in each copy that was begun later"""
        rows = list(service.served(self.command, CHANGES, KILLS, JOURNAL))
        self.assertEqual(len(rows), service.PARTS)
        last = dict(zip(service.COLUMNS, rows[-1]))
        self.assertGreaterEqual(last["changes"], CHANGES // service.WRITERS * service.WRITERS)
        self.assertEqual(last["kills"], KILLS)
        self.assertGreaterEqual(last["starts"], CHANGES // JOURNAL)
        self.assertGreaterEqual(last["copies"], 1)
        if CHANGES >= 10 * JOURNAL and IS_LONG:
            for name in BOUNDED:
                cells = [row[service.COLUMNS.index(name)] or 0 for row in rows]
                half = len(cells) // 2
                self.assertLessEqual(max(cells[half:]), GROWTH * max(cells[:half]) + SLACK, name)

    def test_judged(self) -> None:
        """A change that was answered and is not in the store is told, as one that nobody made"""
        for held, most, told in (
            ({2: (0, 1)}, 1, r"not in the store: \[3\]"),
            ({2: (0, 1), 3: (1, 2)}, 1, r"not in the store: \[3\]"),
            ({2: (0, 1), 3: (1, 1), 4: (0, 2)}, 0, "1 changes were never answered, and at most 0 may be"),
        ):
            with self.subTest(told=told), self.assertRaisesRegex(service.Lost, told):
                self.rows_told().judge(held, most)
        rows = self.rows_told()
        rows.judge({2: (0, 1), 3: (1, 1), 4: (0, 2)}, 1)
        # An answer that has waited in its pipe.
        rows.tell(4, (0, 2))
        rows.check(0)
        for epoch in (3, 4):
            with self.assertRaisesRegex(service.Lost, f"epoch {epoch} was answered twice"):
                rows.tell(epoch, (1, 1))

    def rows_told(self) -> service.Rows:
        """What is known once two changes were answered."""
        rows = service.Rows()
        rows.tell(2, (0, 1))
        rows.tell(3, (1, 1))
        return rows
