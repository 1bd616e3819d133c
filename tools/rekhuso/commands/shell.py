"""`shell`: a prompt over a live session of the program. It reads a pipe too, and then shows no prompt.

The lines are those of a script; beside them `help`, `help COMMAND`, `save FILE` and `quit`. At a terminal the lines
that were typed are kept in ~/.rekhuso_history, and sets are told by the names that dumps or --names have.

With --store the map and its changes are kept in a file, by `osdmapstore`, so that they are there again at the next
start. With a map a new store is begun, and without one the store that is there is opened.
"""

from __future__ import annotations

import contextlib
import io
import pathlib
import signal
import sys
from collections.abc import Iterator
from dataclasses import dataclass

from ..cluster.conversion import monitor_of
from ..cluster.imports import imported
from ..cluster.map_files import map_monitor
from ..cluster.pools_beside import beside_lines
from ..cluster.names import Names, named, names_in
from ..cluster.sources import Source
from ..faults import Misuse, Trouble
from ..files import put
from ..program.answers import up_of
from ..program.maps import Program
from ..program.monitor import Monitor
from ..program.process import built
from ..values import SLOTS
from .arguments import (
    ABOUT_FILES,
    FILES,
    Arguments,
    Commands,
    Files,
    add_names,
    add_without_log,
    set_work,
    source_of,
    usage,
)

HELP = {
    "up": "up PG: the up set of a group and its primary, as up 1.0",
    "ups": "ups POOL: the up sets of all groups of a pool, by number from 0 on; under --stock",
    "count": "count OSD: in how many groups' up sets an OSD stands",
    "groups": "groups OSD: in which groups' up sets an OSD stands",
    "epoch": "epoch: the epoch of the map",
    "dump": "dump: the map as one line of JSON",
    "change": 'change JSON: commits a change, as change {"base":1,"down":[2]}',
    "apply": 'apply JSON: commits a change to the map as it is, as apply {"down":[2]}; under --stock',
    "await": "await N: waits until the epoch is at least N; nobody else changes the map here",
    "balance": "balance POOL LIMIT: plans at most LIMIT moves of groups of a pool, and commits them; under --stock "
    "also balance POOL LIMIT APART [[OSD,CARRIED],..], both in 256ths of a group: by how much two OSDs must differ, "
    "and what an OSD counts as having beside its groups",
    "follow": "follow: the session's follower goes on to the last epoch",
    "fup": "fup PG: the up set of a group by the follower's map",
    "fups": "fups POOL: the up sets of all groups of a pool by the follower's map; under --stock",
    "fkept": "fkept PG: what Ceph's monitor would leave of a group's exceptions at the follower's map; under --stock",
    "fdump": "fdump: the follower's map as one line of JSON",
    "save": "save FILE: writes the map as it is, for a later start",
    "help": "help [COMMAND]: this",
    "quit": "quit: ends the session, as the end of the input does",
}

# How many lines the file of lines that were typed has at most.
LINES = 1000
# Seconds between two ticks of the clock while a line is typed.
TICK = 0.05


def completer(text: str, number: int) -> str | None:
    """The command of a number that begins with a text, for readline."""
    found = [word for word in HELP if word.startswith(text)]
    return found[number] + " " if number < len(found) else None


class Unsaved(Trouble):
    """A map that could not be saved."""


def saved(monitor: Monitor, path: str) -> str:
    """Writes the map to a file. `Unsaved` where it cannot, which leaves what stood there."""
    text = monitor.text()
    try:
        put(path, text + "\n")
    except ValueError:
        raise Unsaved(f"{path!r}: no path") from None
    except Trouble as fault:
        raise Unsaved(*fault.lines) from None
    return f"saved {path}"


@dataclass(frozen=True, **SLOTS)
class LiveMap:
    """A live session, and the names of what its map has by number."""

    monitor: Monitor
    names: Names


def shown(monitor: Monitor, line: str) -> str | None:
    """What is shown for a line; None where it ends the shell."""
    word, _, rest = line.partition(" ")
    if line == "quit":
        return None
    if word == "help":
        return "\n".join(HELP.values()) if not rest else HELP.get(rest, f"{rest}: no command")
    if word == "save":
        return saved(monitor, rest) if rest else HELP["save"]
    return monitor.raw([line])[0]


def place_words(osd: int | None, live: LiveMap, holders: dict[int, int]) -> str:
    """An OSD of a set by its name, with the bucket in which it stands."""
    if osd is None:
        return "none"
    name = named(live.names, "osds", osd)
    return f"{name} in {named(live.names, 'buckets', holders[osd])}" if osd in holders else name


def remark(live: LiveMap, answer: str) -> str | None:
    """What a terminal shows below an answer: the set of a group by its names, and where help is."""
    if answer.startswith("err 33 "):
        return "help tells the commands"
    word, *rest = answer.split(" ")
    if word not in ("up", "fup") or len(rest) != 4 or not live.names["buckets"]:
        return None
    holders = {item: bucket["id"] for bucket in live.monitor.dump()["buckets"] for item, _ in bucket["items"]}
    pool = named(live.names, "pools", int(rest[1].split(".")[0]))
    return f"{pool}: {', '.join(place_words(osd, live, holders) for osd in up_of(answer).places)}"


class Prompt:
    """The prompt at a terminal. Ctrl-C drops the line that is being typed; at any other time it does nothing, so that
    what is begun is answered and shown.

    Python sees a signal only where it ends a wait for the next key: one that comes just before that wait begins would
    be seen with the next key. So a clock ticks while a line is typed, and it is the tick that drops the line.
    """

    def __enter__(self) -> Prompt:
        """Takes Ctrl-C and the clock over."""
        self.has_come = False
        self.before = signal.signal(signal.SIGINT, signal.SIG_IGN), signal.signal(signal.SIGALRM, self.ticked)
        return self

    def __exit__(self, *_: object) -> None:
        """Gives both back."""
        signal.signal(signal.SIGINT, self.before[0])
        signal.signal(signal.SIGALRM, self.before[1])

    def came(self, *_: object) -> None:
        """Ctrl-C."""
        self.has_come = True

    def ticked(self, *_: object) -> None:
        """KeyboardInterrupt where Ctrl-C has come. Nothing else comes behind it: `input` cannot bear that."""
        if self.has_come:
            self.end()
            raise KeyboardInterrupt

    def end(self) -> None:
        """No line is typed any more."""
        signal.setitimer(signal.ITIMER_REAL, 0)
        signal.signal(signal.SIGINT, signal.SIG_IGN)

    def line(self) -> str:
        """The line that is typed. KeyboardInterrupt where Ctrl-C drops it; EOFError where there is none."""
        self.has_come = False
        signal.signal(signal.SIGINT, self.came)
        signal.setitimer(signal.ITIMER_REAL, TICK, TICK)
        try:
            return input("osdmap> ")
        finally:
            self.end()


def is_last(live: LiveMap, line: str, is_terminal: bool, failed: list[str]) -> bool:
    """Shows what there is to show for a line, and tells whether it ends the shell; where it failed, why, is kept. An
    empty line is passed over.
    """
    try:
        answer = shown(live.monitor, line) if line else ""
    except Unsaved as fault:
        answer = fault.lines[0]
        failed.append(f"save: {answer}")
    if answer:
        more = remark(live, answer) if is_terminal else None
        print(answer if more is None else f"{answer}\n  {more}", flush=True)
    return answer is None


def history_file() -> pathlib.Path:
    """The file of the lines that were typed."""
    return pathlib.Path.home() / ".rekhuso_history"


@contextlib.contextmanager
def history() -> Iterator[None]:
    """Lines can be edited, completed and found again, also those of earlier shells; where Python has that."""
    try:
        import readline
    except ImportError:
        yield
        return
    readline.set_completer(completer)
    readline.parse_and_bind("tab: complete")
    readline.set_history_length(LINES)
    with contextlib.suppress(OSError):
        readline.read_history_file(history_file())
    try:
        yield
    finally:
        with contextlib.suppress(OSError):
            readline.write_history_file(history_file())


def prompted(live: LiveMap) -> None:
    """Reads lines from a terminal until they end."""
    found = live.monitor.found_epoch
    print("help tells the commands" if found is None else f"epoch {found}; help tells the commands", file=sys.stderr)
    with history(), Prompt() as prompt:
        while True:
            try:
                if is_last(live, prompt.line().strip(), True, []):
                    return
            except EOFError:
                print()
                return
            except KeyboardInterrupt:
                print()


def piped(live: LiveMap) -> None:
    """Reads lines from a pipe or a file, as they are, until they end. A fault then for each map that was not saved."""
    failed: list[str] = []
    for line in sys.stdin:
        if is_last(live, line.removesuffix("\n"), False, failed):
            break
    if failed:
        raise Trouble(*failed)


@dataclass(frozen=True, **SLOTS)
class ShellOptions:
    """What the shell is over: a map, or the dumps of a cluster that one map holds; or a store, if one is given, which
    these begin. The epoch behind which its log may be missing, and the program of a store, if they are named.
    """

    source: Source
    store: str | None
    without_log: int | None
    store_program: Program

    def program(self) -> Program:
        """The program that is run: that of a store may stand beside the one that is named."""
        if self.store is None:
            return self.source.program
        return self.store_program or built("osdmapstore", self.source.program)


def options_of(arguments: Arguments) -> ShellOptions:
    """The options of the command line. An error of use where there is neither a map nor a store."""
    own = arguments
    if own.store is None and not own.files:
        raise Misuse("one map, or two dumps, or --store STORE")
    if own.store is None and own.store_program is not None:
        raise Misuse("--store-program goes with --store alone")
    if own.without_log is not None and (own.store is None or own.files):
        raise Misuse("--without-log goes with --store alone, and with no map")
    return ShellOptions(source_of(own), own.store, own.without_log, own.store_program)


def live_map(options: ShellOptions) -> LiveMap:
    """A session over what the shell is over. A fault where a cluster stays out, or takes several maps."""
    source, program, store = options.source, options.program(), options.store
    if source.has_dumps:
        found = imported(source.dumps(), True)
        for line in beside_lines(found.cluster):
            print(line, file=sys.stderr)
        names = names_in(source.names) if source.names else found.cluster.all_names()
        return LiveMap(monitor_of(found.maps[0], program, store=store), names)
    source.check_map()
    names = names_in(source.names)
    if not source.paths:
        return LiveMap(Monitor(program=program, store=store, without_log=options.without_log), names)
    return LiveMap(map_monitor(source.paths[0], program, store=store)[1], names)


def work(options: ShellOptions) -> None:
    """Answers lines until they end."""
    if "-" in options.source.paths:
        raise Misuse("shell reads lines from standard input, so the map must be a file")
    if isinstance(sys.stdin, io.TextIOWrapper):
        sys.stdin.reconfigure(errors="surrogateescape")
    live = live_map(options)
    with live.monitor:
        (prompted if sys.stdin.isatty() else piped)(live)


class Begun(Files):
    """No file, one or two; an error of use where there are more."""

    counts, words, has_input = (0, 1, 2), "one map, or two dumps", False


def add_to(commands_of: Commands) -> None:
    """The subcommand."""
    own = commands_of.add_parser("shell", help="a prompt over a live session", description=__doc__)
    words = "--store STORE [--store-program FILE]"
    own.usage = f"{usage(f'[{words}]')}\n       %(prog)s {words} [--without-log EPOCH] [--names FILE]"
    own.add_argument("files", metavar=FILES, nargs="*", action=Begun, help=ABOUT_FILES)
    own.add_argument(
        "--store",
        metavar="STORE",
        help="the file in which the map and its changes are kept: a new one with a map or dumps, else the one there is",
    )
    add_without_log(own)
    own.add_argument(
        "--store-program",
        metavar="FILE",
        help="the built osdmapstore (else that beside --program, that of this repository, or of PATH)",
    )
    add_names(own)
    set_work(own, options_of, work)
