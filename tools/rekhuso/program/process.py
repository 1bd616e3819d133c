"""The program's process: where it is found, who waits for it, and Ctrl-C while it starts."""

from __future__ import annotations

import contextlib
import os
import pathlib
import shutil
import signal
import subprocess
import threading
import time
from collections.abc import Callable, Iterator
from dataclasses import dataclass
from types import FrameType

from ..faults import Trouble
from ..running import tell_once
from ..values import SLOTS
from .maps import Program

# The crates, where the tools stand in their repository. A program is built in its crate, below `out`.
CRATES = pathlib.Path(__file__).resolve().parents[3] / "crates"
# The variable that names the program where no option does.
VARIABLE = "REKHUSO_PROGRAM"
# The programs, the options that name them, and the targets of the repository that prove and build them.
PROGRAM_OPTIONS = {"osdmapd": "--program", "osdmapstore": "--store-program"}
TARGETS = {"osdmapd": "make run", "osdmapstore": "make store"}
# What stands behind a program's name in that of the one that `make checked` builds.
CHECKED = ".checked"


def places_of(name: str, beside: Program = None) -> list[pathlib.Path]:
    """Where a program may be: beside another, if one is given or the variable names one, and in the repository in which
    the tools stand.
    """
    crate, beside = CRATES / name, beside or os.environ.get(VARIABLE)
    near = [pathlib.Path(beside).resolve().parent / name] if beside else []
    return near + ([crate / "out" / name] if crate.is_dir() else [])


def found_in(places: list[pathlib.Path], name: str) -> str | None:
    """The program at the first of some places that has it, else the one of its name on the path, if there is one."""
    return next((str(path) for path in places if path.exists()), None) or shutil.which(name)


def built(name: str, beside: Program = None) -> pathlib.Path:
    """A program where none is named: that beside another, if one is given or the variable names one, else that of the
    repository in which the tools stand, else the one of this name on the path, else that of the repository that has
    checks in place of proofs, which is told. A fault that tells where it was looked for.
    """
    own = places_of(name, beside)
    found = found_in(own, name)
    checked = CRATES / name / "out" / (name + CHECKED)
    if found is None and checked.exists():
        tell_once(f"{checked}: checks in place of proofs: nothing of it is proved; `{TARGETS[name]}` proves one")
        return checked
    if found is None:
        places = [f"{path} is not there" for path in own] + [
            f"no folder of PATH has {name} ({os.environ.get('PATH', '')})"
        ]
        raise Trouble(
            f"no program: {', and '.join(places)}; `{TARGETS[name]}` in its repository proves and builds it, and "
            f"{PROGRAM_OPTIONS[name]} FILE names it"
        )
    return pathlib.Path(found)


def chosen(program: Program, name: str) -> pathlib.Path:
    """The program that is run: the one that is given, else the one of this name that is found. A fault where it is
    none.
    """
    program = program or (os.environ.get(VARIABLE) if name == "osdmapd" else None)
    found = pathlib.Path(program or built(name)).resolve()
    if not found.is_file() or not os.access(found, os.X_OK):
        raise Trouble(
            f"{program or found}: no program; `{TARGETS[name]}` proves and builds it, "
            f"or {PROGRAM_OPTIONS[name]} names another"
        )
    return found


@contextlib.contextmanager
def temporary() -> Iterator[None]:
    """Has faults of temporary files say that they are of these, and where."""
    try:
        yield
    except OSError as fault:
        folder = os.environ.get("TMPDIR") or "/tmp"
        raise Trouble(f"temporary files in {folder}: {fault.strerror or fault}") from None


class Patience:
    """Ends a program that lets somebody wait for longer than some seconds, if any are given: whoever waits stands in
    a `with` of it.
    """

    def __init__(self, process: subprocess.Popen[bytes], seconds: float | None) -> None:
        """Watches a process; without seconds nobody waits for too long."""
        self.process, self.seconds, self.is_spent = process, seconds, False
        self.since: dict[int, float] = {}
        self.done = threading.Event()
        if seconds is not None:
            threading.Thread(target=self.watch, args=(seconds,), daemon=True).start()

    def watch(self, seconds: float) -> None:
        """Looks from time to time, until all is done, whether somebody has waited for too long."""
        while not self.done.wait(seconds / 20):
            if any(time.monotonic() - since > seconds for since in list(self.since.values())):
                self.is_spent = True
                self.process.kill()
                return

    def __enter__(self) -> None:
        """This thread begins to wait."""
        self.since[threading.get_ident()] = time.monotonic()

    def __exit__(self, *_: object) -> None:
        """This thread waits no longer."""
        self.since.pop(threading.get_ident(), None)


# What may come as an exception: Ctrl-C, and what ends a command from outside.
ENDINGS = (signal.SIGINT, signal.SIGTERM, signal.SIGHUP)


class Postponed:
    """Keeps Ctrl-C back while a program is being started, in a `with`, and what else ends a command: an exception then
    would leave it running with nobody who holds it. It comes once it is let go. Only the main thread has it come.
    Blocking the signal would not do: another thread would take it, and the program would be started with the signal
    blocked.
    """

    def __init__(self) -> None:
        """Keeps nothing back yet."""
        self.come: list[int] = []
        self.before: dict[int, Callable[[int, FrameType | None], object]] = {}

    def __enter__(self) -> Postponed:
        """Begins to keep it back, where somebody has it come as an exception, or otherwise as a call."""
        for number in ENDINGS if threading.current_thread() is threading.main_thread() else ():
            before = signal.getsignal(number)
            if callable(before):
                self.before[number] = before
                signal.signal(number, self.came)
        return self

    def came(self, number: int, _: FrameType | None) -> None:
        """One has come."""
        self.come.append(number)

    def let_go(self) -> None:
        """Keeps it back no longer: it comes now, where it has come meanwhile."""
        for number, before in self.before.items():
            signal.signal(number, before)
        self.before = {}
        come, self.come = self.come, []
        for number in come:
            signal.raise_signal(number)

    def __exit__(self, *_: object) -> None:
        """Keeps it back no longer."""
        self.let_go()


def unblocked(pipe: int) -> int:
    """An open pipe that waits from now on."""
    os.set_blocking(pipe, True)
    return pipe


@dataclass(frozen=True, **SLOTS)
class Told:
    """What a program that was run told, and its status."""

    status: int
    output: str
    error: str


def told_by(words: list[str]) -> Told:
    """What a program tells that is run to its end, over no input. A fault where it does not start. What ends this
    command ends it too.
    """
    with Postponed() as held:
        try:
            process = subprocess.Popen(
                words, stdin=subprocess.DEVNULL, stdout=subprocess.PIPE, stderr=subprocess.PIPE, text=True
            )
        except (OSError, ValueError) as fault:
            raise Trouble(f"{words[0]}: {fault}") from None
        with process:
            try:
                held.let_go()
                output, error = process.communicate()
            except BaseException:
                process.kill()
                raise
    return Told(process.returncode, output, error)
