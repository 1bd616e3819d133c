"""A monitor as Python holds it: live sessions of the proved program, and their answers as values.

    with Monitor(value) as monitor:
        monitor.up("1.0").places

    with Monitor("map.json") as monitor:
        monitor.up("1.0").primary

    with Monitor(value, sessions=4) as monitor:
        one, two, three, four = monitor.sessions

    with Monitor(value, timeout=60) as monitor:
        monitor.balance(1)

    with Monitor(value, stock=True) as monitor:
        monitor.change(new_crush=crush)

    with Monitor(value, store="cluster.store") as monitor:
        monitor.change(down=[2])

    with Monitor(store="cluster.store", by="alice", keep=1024) as monitor:
        monitor.found_epoch

A map with a straw2 bucket, or with a rule that sets how leaves are sought, is read under `--stock`, and any other
    without it unless `stock` says so.

With a store the program is `osdmapstore`, which keeps the map and its changes in that file: with a map it begins a new
store, and without one it opens the store that is there, under `--stock` unless `stock` says otherwise. A change that is
answered is on the disk.

The program runs until the monitor is closed, or until it lets a question wait for longer than `timeout` seconds. Each
question is put to it as a line, and its answer is there before the next is asked; many lines at once go by `raw`, `ask`
and `ups`. Sessions may be used by several threads at once, each of them by one; they are all at one monitor, and what
one changes the others see.
"""

from __future__ import annotations

import contextlib
import errno
import os
import pathlib
import re
import select
import subprocess
import tempfile
import time
from typing import IO, NoReturn

from ..faults import Refused, Trouble, Unopened
from ..files import text_of
from ..running import doing
from .maps import Map, Program, needs_stock, written
from .process import Patience, Postponed, temporary, unblocked
from .session import Session
from .versions import program_of

# Where the text of a map has its epoch.
EPOCH = re.compile(r'"epoch"\s*:\s*([0-9]{1,20})\b')
# What a system says of a file that is no program.
NO_PROGRAM = (errno.ENOENT, errno.EACCES, errno.ENOEXEC, errno.EISDIR)
# What the first page of a store's file has where the store says how many changes a start leaves; and the most that a
# start may be told to leave: where the store says nothing, a session of the tools cuts none off.
ABOUT, PAGE, MOST_KEPT = b"CREATE TABLE store (", 65536, "1000000"
# How many changes a run takes at most.
RUN_MOST = 65536


def kept_in(store: str) -> list[str]:
    """The options of a start that cuts nothing off from a store that does not say how many changes it leaves."""
    with contextlib.suppress(OSError):
        if os.path.isfile(store):
            with open(store, "rb") as file:
                return [] if ABOUT in file.read(PAGE) else ["--keep", MOST_KEPT]
    return []


# The word that may stand beside each change of a run over a store.
BY = re.compile("[!-~]{1,64}")


def store_words(by: str | None, keep: int | None, is_wary: bool) -> list[str]:
    """The options of a run over a store: the word beside its changes, how many changes its starts leave, and whether
    each change is synced twice. ValueError for what the program does not take.
    """
    if by is not None and not BY.fullmatch(by):
        raise ValueError("by: 1 to 64 characters of visible ASCII")
    if keep is not None and not 0 <= keep <= int(MOST_KEPT):
        raise ValueError(f"keep: 0 to {MOST_KEPT} changes")
    found = [] if by is None else ["--by", by]
    return found + ([] if keep is None else ["--keep", str(keep)]) + (["--wary"] if is_wary else [])


def check_sources(has_map: bool, has_store: bool, is_lost: bool, has_words: bool) -> None:
    """A ValueError where there is neither a map nor a store, or something that goes with a store stands without."""
    if not has_map and not has_store:
        raise ValueError("a map or a store")
    if is_lost and (has_map or not has_store):
        raise ValueError("without_log goes with a store alone, and with no map")
    if has_words and not has_store:
        raise ValueError("by, keep and wary go with a store alone")


def map_text(value: Map | str | os.PathLike[str]) -> str:
    """The text of a map: of a value, of the file at a path, or the text that it is itself. A fault where there is no
    file at a path, which a text with the end `.json` is too.
    """
    if isinstance(value, os.PathLike):
        return text_of(os.fspath(value))
    if not isinstance(value, str):
        return written(value)
    is_path = not value.lstrip().startswith("{") and "\n" not in value and "\0" not in value and len(value) < 4096
    return text_of(value) if is_path and (value.endswith(".json") or os.path.isfile(value)) else value


def epoch_in(text: str) -> int:
    """The epoch of a map by its text; 0 where the text does not tell one."""
    found = EPOCH.findall(text)
    return int(found[0]) if len(found) == 1 else 0


class Monitor(Session):
    """A run of the program over a map: a value as JSON has it, its text, or the path of its file; itself the first of
    its sessions. A text begins with a brace, or names no file. It is closed by `with`, or by `close`. Where a timeout
    is given, a start, a question or an end that takes more seconds ends the program. Under `stock` the map and its
    changes may have straw2 buckets; where nothing is said, the map tells it. With the path of a store, a run of the
    program that keeps one: it begins the store with the map, or without a map opens it; where its log is missing, only
    with the epoch of `without_log`, which `Unopened` tells. `found_epoch` is then the epoch of the map that it began
    with, else None. With a store alone, `by` is a word that stands beside each change of the run, `keep` how many
    changes starts leave from now on, and `wary` has each change synced twice.
    """

    def __init__(
        self,
        value: Map | str | os.PathLike[str] | None = None,
        program: Program = None,
        journal: int = RUN_MOST,
        sessions: int = 1,
        timeout: float | None = None,
        stock: bool | None = None,
        store: str | os.PathLike[str] | None = None,
        without_log: int | None = None,
        *,
        by: str | None = None,
        keep: int | None = None,
        wary: bool = False,
    ) -> None:
        """Starts the program (that of the repository, or of the path, where none is given) with 1 to 64 sessions and
        a journal of so many changes, 1 to 65,536. ValueError for another number of sessions, where there is neither a
        map nor a store, for a `without_log` that opens none, and for options of a store that are wrong or go with none;
        a fault where there is no program or it does not
        start, `Refused` where it refuses the map, and `Unopened` where it does not begin or open the store.
        """
        if not 1 <= sessions <= 64:
            raise ValueError("1 to 64 sessions")
        self._options, self._is_kept = store_words(by, keep, wary), keep is not None
        check_sources(value is not None, store is not None, without_log is not None, bool(self._options))
        self._lost = [] if without_log is None else ["--without-log", str(without_log)]
        self.program = program_of(program, "osdmapd" if store is None else "osdmapstore")
        text = None if value is None else map_text(value)
        self.is_stock = stock if stock is not None else text is None or needs_stock(text)
        self.found_epoch: int | None = None
        self._store, self._is_closed = None if store is None else os.path.abspath(store), False
        with temporary():
            self._errors = tempfile.TemporaryFile()
            self._folder = tempfile.TemporaryDirectory()
        self.sessions: list[Session] = []
        names = [(f"lines-{k}", f"answers-{k}") for k in range(1, sessions + 1)] if sessions > 1 else []
        with Postponed() as held:
            self._process = self._started(self._words(text, journal, names), names)
            self._patience = Patience(self._process, timeout)
            try:
                held.let_go()
                with self._patience:
                    self._open(names)
                self._agreement.is_alone = sessions == 1
                self._agreement.epoch = self.found_epoch or epoch_in(text or "")
            except BaseException:
                self._process.kill()
                self.close()
                raise

    def __repr__(self) -> str:
        """Which run it is: of which program, over which store if there is one, and whether it is closed."""
        over = "a map" if self._store is None else repr(self._store)
        profile, state = ", stock" if self.is_stock else "", ", closed" if self._is_closed else ""
        return f"<Monitor of {self.program} over {over}{profile}{state}>"

    def _words(self, text: str | None, journal: int, names: list[tuple[str, str]]) -> list[str]:
        """The words of the program's command, behind its name; a map is put into its folder."""
        if text is not None:
            with temporary():
                pathlib.Path(self._folder.name, "map.json").write_text(text, encoding="utf-8")
        files = ["map.json"]
        if self._store is not None:
            own = [*([] if self._is_kept else kept_in(self._store)), *self._lost]
            files = [*own, self._store] if text is None else ["--begin", "map.json", self._store]
            files = [*self._options, *files]
        sessions = [lines for lines, _ in names] + [word for _, answers in names for word in ("--to", answers)]
        return [*(["--stock"] if self.is_stock else []), "--journal", str(journal), *files, *(sessions or ["-"])]

    def _started(self, words: list[str], names: list[tuple[str, str]]) -> subprocess.Popen[bytes]:
        """The program in its folder, over named pipes for lines and answers, or where there are none over its
        standard input and output. It stands in a session of its own, so that Ctrl-C at a terminal ends who asks and
        not the program. A fault where it does not start.
        """
        for name in (name for pair in names for name in pair):
            with temporary():
                os.mkfifo(os.path.join(self._folder.name, name))
        try:
            return subprocess.Popen(
                [str(self.program), *words],
                stdin=subprocess.DEVNULL if names else subprocess.PIPE,
                stdout=subprocess.DEVNULL if names and self._store is None else subprocess.PIPE,
                stderr=self._errors,
                cwd=self._folder.name,
                start_new_session=True,
            )
        except OSError as fault:
            self._errors.close()
            self._folder.cleanup()
            what = "no program" if fault.errno in NO_PROGRAM else "not started"
            raise Trouble(f"{self.program}: {what}: {fault.strerror}") from None

    def _open(self, names: list[tuple[str, str]]) -> None:
        """Reads the epoch of a store, opens the sessions over their pipes and reads their headings. A fault where the
        program has ended, or is another.
        """
        doing("the program opens a map" if self._store is None else "the program opens a store")
        folder, lines, answers = pathlib.Path(self._folder.name), self._process.stdin, self._process.stdout
        if self._store is not None and answers:
            self.found_epoch = self._heading(answers, rb"epoch ([0-9]+)\n")
        pipes: list[tuple[IO[bytes], IO[bytes]]] = [(lines, answers)] if lines and answers else []
        pipes += [(self._writer(folder / one), self._reader(folder / other)) for one, other in names]
        super().__init__(*pipes[0], self._ended, self._patience, self.is_stock)
        more = (Session(*pair, self._ended, self._patience, self.is_stock) for pair in pipes[1:])
        self.sessions = [self, *more]
        for number, session in enumerate(self.sessions, 1):
            self._heading(session._answers, rb"session (%d)\n" % number)

    def _heading(self, answers: IO[bytes], form: bytes) -> int:
        """The number in a heading of a form. A fault where the program has ended or puts out another line."""
        line = answers.readline(80)
        found = re.fullmatch(form, line)
        if found is not None:
            return int(found[1])
        if line:
            raise Trouble(f"{self.program}: another program: its output begins with {line[:20]!r}")
        self._ended()

    def _writer(self, path: pathlib.Path) -> IO[bytes]:
        """A named pipe for lines, once the program has opened its end."""
        while True:
            try:
                return os.fdopen(unblocked(os.open(path, os.O_WRONLY | os.O_NONBLOCK)), "wb")
            except OSError as fault:
                if fault.errno != errno.ENXIO:
                    raise
            self._is_running()
            time.sleep(0.001)

    def _reader(self, path: pathlib.Path) -> IO[bytes]:
        """A named pipe for answers, once there is one."""
        pipe = os.open(path, os.O_RDONLY | os.O_NONBLOCK)
        while not select.select([pipe], [], [], 0.1)[0]:
            self._is_running()
        return os.fdopen(unblocked(pipe), "rb")

    def _is_running(self) -> None:
        """Nothing where the program runs; where it has ended, why."""
        if self._process.poll() is not None:
            self._ended()

    def _ended(self) -> NoReturn:
        """Tells why the program has ended; `Closed` where that was told before."""
        status = self._process.wait()
        self._check_open()
        if self._patience.is_spent:
            self.close()
            raise Trouble(f"no answer within {self._patience.seconds} seconds")
        self._errors.seek(0)
        error = self._errors.read().decode("utf-8", "replace").strip()
        self.close()
        if status == 2:
            raise Refused(error.removeprefix("map: "))
        if status == 5 and self._store is not None:
            raise Unopened(self._store, error.removeprefix("store: "))
        raise Trouble(": ".join([f"the program ended with status {status}", *error.splitlines()]))

    def close(self) -> None:
        """Ends the sessions and the program: it ends once it has answered what it was asked. A second call does
        nothing.

        >>> monitor.close()
        >>> monitor.close()
        """
        self._is_closed = True
        for session in self.sessions:
            session._is_closed = True
        of_sessions = [stream for session in self.sessions for stream in (session._lines, session._answers)]
        for stream in [self._process.stdin, self._process.stdout, *of_sessions]:
            try:
                if stream:
                    stream.close()
            except BrokenPipeError:
                pass
        with self._patience:
            self._process.wait()
        self._patience.done.set()
        self._errors.close()
        self._folder.cleanup()

    def __enter__(self) -> Monitor:
        """The monitor itself."""
        return self

    def __exit__(self, kind: object, *_: object) -> None:
        """Closes the monitor; behind an exception its program is ended at once."""
        if kind is not None:  # Whoever was interrupted, or found a fault, waits for no answer.
            self._process.kill()
        self.close()
