"""What `history` tells of a store in Prometheus' text format."""

from __future__ import annotations

from ..program.store_state import StoreCopy, StoreState
from ..program.monitor import RUN_MOST
from ..program.stores import StoredJournal
from .metrics import Metrics

# What each metric is.
HELP = {
    "store_epoch": "The epoch of the map of a store.",
    "store_first_epoch": "The epoch of the first map that a store still has.",
    "store_changes": "Changes that a store still has.",
    "store_keep": "How many changes a start leaves.",
    "store_changed_seconds": "When the last change was made, by the clock of its machine, since 1970.",
    "store_file_bytes": "Bytes of the file of a store.",
    "store_log_bytes": "Bytes of its log.",
    "store_run_is_open": "Whether a run has a store open, or had no orderly end.",
    "store_run_changes": "Changes of that run.",
    "store_run_changes_left": "Changes that it takes yet, if it was given no other number of them.",
    "store_copy_epoch": "The epoch of a copy of a store.",
    "store_copy_seconds": "When that copy was made, since 1970.",
}


def add_run(found: Metrics, journal: StoredJournal, claim: int) -> None:
    """What is told of the run that has a store open."""
    found.add("store_run_is_open", {}, int(claim > 0))
    if 0 < claim <= journal.last:
        found.add("store_run_changes", {}, journal.last - claim)
        found.add("store_run_changes_left", {}, max(RUN_MOST - (journal.last - claim), 0))


def store_metrics(journal: StoredJournal, state: StoreState, copy: StoreCopy | None) -> str:
    """The text of all metrics of a store, and of a copy of it, if one is named."""
    found = Metrics(HELP)
    found.add("store_epoch", {}, journal.last)
    found.add("store_first_epoch", {}, journal.epoch)
    found.add("store_changes", {}, len(journal.changes))
    if journal.facts is not None:
        found.add("store_keep", {}, journal.facts.keep)
    made = [own.note.made for own in journal.changes if own.note is not None and own.note.made]
    if made:
        found.add("store_changed_seconds", {}, made[-1] / 1000)
    found.add("store_file_bytes", {}, state.file_bytes)
    found.add("store_log_bytes", {}, state.log_bytes)
    add_run(found, journal, state.claim)
    if copy is not None:
        found.add("store_copy_epoch", {}, copy.epoch)
        found.add("store_copy_seconds", {}, copy.made)
    return found.text()
