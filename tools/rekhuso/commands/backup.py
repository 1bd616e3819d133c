"""`backup`: a copy of a store in one file, also while a program has the store open.

The copy, which must not exist yet, is a store by itself, with each change that was answered before. The program
`osdmapstore` makes it, reads it, and tells its epoch. With --restore it is a store of another number: one that is to go
on by itself, in the place of the first or beside it.
"""

from __future__ import annotations

from dataclasses import dataclass

from ..faults import Trouble, Unopened
from ..program.maps import Program
from ..program.process import built, told_by
from ..program.versions import program_of
from ..running import doing
from ..values import SLOTS
from .arguments import Arguments, Commands, add_without_log, set_work

# What stands before the reason of a store that is not copied.
REASON = "store: "


@dataclass(frozen=True, **SLOTS)
class BackupOptions:
    """The file of a store, that of the copy, whether it is to go on by itself, the epoch behind which the log may be
    missing, if one is named, and the program of a store, if one is named.
    """

    store: str
    to: str
    is_restore: bool
    without_log: int | None
    store_program: Program
    program: Program


def options_of(arguments: Arguments) -> BackupOptions:
    """The options of the command line."""
    own = arguments
    return BackupOptions(own.store, own.to, own.restore, own.without_log, own.store_program, own.program)


def work(options: BackupOptions) -> None:
    """Makes the copy, and tells its epoch."""
    program = program_of(options.store_program or built("osdmapstore", options.program), "osdmapstore")
    doing("copying the store")
    how = ["--restore"] * options.is_restore
    how += [] if options.without_log is None else [f"--without-log={options.without_log}"]
    done = told_by([str(program), f"--backup={options.to}", *how, "--", options.store])
    if done.error.startswith(REASON):
        raise Unopened(options.store, done.error.strip().removeprefix(REASON))
    if done.status:
        reason = next(iter(done.error.splitlines()), f"the program ended with status {done.status}")
        raise Trouble(f"{program}: {reason}")
    print(done.output, end="")


def add_to(commands: Commands) -> None:
    """The subcommand."""
    own = commands.add_parser("backup", help="a copy of a store in one file", description=__doc__)
    own.add_argument("store", metavar="STORE", help="the file in which osdmapstore keeps a map and its changes")
    own.add_argument("to", metavar="FILE", help="the file of the copy, which must not exist")
    own.add_argument(
        "--restore", action="store_true", help="the copy is to go on by itself, as a store with another number"
    )
    add_without_log(own)
    own.add_argument(
        "--store-program",
        metavar="FILE",
        help="the built osdmapstore (else that beside --program, that of this repository, or of PATH)",
    )
    set_work(own, options_of, work)
