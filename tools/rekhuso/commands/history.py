"""`history`: what changed in a store from epoch to epoch, or with --at the map of one of its epochs.

A store is the file in which `osdmapstore` keeps a map and its changes: each start of the program leaves the last 1,024
there, or as many as its option --keep said last, each with the time at which it was made, by the clock of the machine;
and above them stands the number of the store's life, by which two stores of the
same epochs are told apart. A copy of the file and of its log is read, also while a program has the store open, and
nothing is written into them or beside them. Where a run had no orderly end and its log is missing, that is told, and
--without-log tells what the file has. The map of an epoch is made by the program, change by change. With --prometheus
the epoch of the store, its changes, the sizes of its files and how far a run is that has it open are written for a
collector of metrics, and with --copy how old that copy is.
"""

from __future__ import annotations

import argparse
import re
from dataclasses import dataclass

from ..cluster.epochs import epochs_of, first_of
from ..cluster.names import Names, names_in
from ..faults import Fault, Misuse
from ..files import put
from ..output.history_words import epoch_line, first_line, life_lines
from ..output.json_output import put_json
from ..output.store_metrics import store_metrics
from ..program.maps import Program
from ..program.store_state import copy_of, files_state_of
from ..program.stores import StoredJournal, journal_in, map_at
from ..values import SLOTS
from .arguments import MORE, Arguments, Commands, add_json, add_names_file, add_without_log, set_work


@dataclass(frozen=True, **SLOTS)
class HistoryOptions:
    """The file of a store, the epoch behind which its log may be missing, if one is named, the epoch whose map is asked
    for, if one is, a file of names, a file for metrics and one of a copy, where they are named, the program, and
    whether it is told as JSON.
    """

    store: str
    without_log: int | None
    at: int | None
    names: str | None
    metrics: str | None
    copy: str | None
    program: Program
    is_json: bool


def options_of(arguments: Arguments) -> HistoryOptions:
    """The options of the command line. An error of use for what would be passed over."""
    own = arguments
    if own.at is not None and (own.json or own.names is not None or own.prometheus is not None):
        raise Misuse("--at puts out a map as it is: --json, --names and --prometheus do not go with it")
    if own.copy is not None and own.prometheus is None:
        raise Misuse("--copy is told by --prometheus")
    told = (own.names, own.prometheus, own.copy)
    return HistoryOptions(own.store, own.without_log, own.at, *told, own.program, own.json)


def put_map(journal: StoredJournal, epoch: int, program: Program) -> None:
    """Puts out the map of an epoch. A fault where the store does not tell of it."""
    if not journal.epoch <= epoch <= journal.last:
        raise Fault(f"{journal.path}: epoch {epoch}: the store tells of {journal.epoch} to {journal.last}")
    with map_at(journal, epoch, program) as monitor:
        print(monitor.text())


def put_history(journal: StoredJournal, names: Names, is_json: bool) -> None:
    """Puts out what changed."""
    first = first_of(journal)
    changes = list(epochs_of(first, journal))
    if is_json:
        facts = {"life": journal.facts and journal.facts.life, "keep": journal.facts and journal.facts.keep}
        put_json("history", journal.last, first_epoch=journal.epoch, **facts, changes=changes)
    else:
        lines = [*life_lines(journal), first_line(first), *(epoch_line(parts, names) for parts in changes)]
        print("\n".join(lines))


def work(options: HistoryOptions) -> None:
    """Tells what changed in a store, or the map of an epoch."""
    journal, names = journal_in(options.store, options.without_log), names_in(options.names)
    if options.at is not None:
        put_map(journal, options.at, options.program)
        return
    if options.metrics is not None:
        copy = None if options.copy is None else copy_of(options.copy, journal)
        put(options.metrics, store_metrics(journal, files_state_of(options.store), copy))
    put_history(journal, names, options.is_json)


def epoch_number(word: str) -> int:
    """An epoch; an error of use where a word is none."""
    if not re.fullmatch("[0-9]{1,20}", word):
        raise argparse.ArgumentTypeError(f"{word}: no epoch")
    return int(word)


def add_to(commands: Commands) -> None:
    """The subcommand."""
    own = commands.add_parser("history", help="what changed in a store, epoch by epoch", description=__doc__)
    own.usage = f"%(prog)s STORE {MORE}"
    own.add_argument("store", metavar="STORE", help="the file in which osdmapstore keeps a map and its changes")
    own.add_argument("--at", metavar="EPOCH", type=epoch_number, help="instead: the map of this epoch")
    add_without_log(own)
    add_names_file(own)
    own.add_argument(
        "--prometheus",
        metavar="FILE",
        help="write what the store tells of itself into FILE too, in Prometheus' text format",
    )
    own.add_argument("--copy", metavar="FILE", help="the last copy of the store, of which --prometheus then tells")
    add_json(own)
    set_work(own, options_of, work)
