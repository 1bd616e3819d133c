"""What the files of a store tell without being read: how large they are, and where a run began that is not at its
end.
"""

from __future__ import annotations

import os
from dataclasses import dataclass

from ..faults import Trouble
from ..values import SLOTS
from .stores import CLAIM, CLAIMING, PAGE, StoredJournal, journal_in


@dataclass(frozen=True, **SLOTS)
class StoreState:
    """The bytes of a store's file and of its log, and the epoch at which the run began that has it open, or had no
    orderly end; 0 where there is none.
    """

    file_bytes: int
    log_bytes: int
    claim: int


@dataclass(frozen=True, **SLOTS)
class StoreCopy:
    """A copy of a store: the epoch that it has, and when it was made, in seconds since 1970."""

    epoch: int
    made: float


def size_of(path: str) -> int:
    """The bytes of a file; 0 where there is none."""
    return os.path.getsize(path) if os.path.exists(path) else 0


def files_state_of(path: str) -> StoreState:
    """What the files of a store tell. A fault where they cannot be read."""
    try:
        with open(path, "rb") as file:
            page = file.read(PAGE)
        claim = int.from_bytes(page[CLAIM], "big") if CLAIMING in page else 0
        return StoreState(os.path.getsize(path), size_of(f"{os.path.realpath(path)}-wal"), claim)
    except OSError as fault:
        raise Trouble(f"{path}: {fault.strerror}") from None


def copy_of(path: str, journal: StoredJournal) -> StoreCopy:
    """A copy of a store. A fault where it is none, or one of another store."""
    found = journal_in(path)
    if found.facts != journal.facts:
        raise Trouble(f"{path}: no copy of {journal.path}, but of another store")
    return StoreCopy(found.last, os.path.getmtime(path))
