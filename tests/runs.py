"""Runs of the program, and how each differs from what is wanted of it, byte by byte."""

from __future__ import annotations

import dataclasses
import os
import pathlib
import subprocess
import tempfile
from collections.abc import Callable, Iterable, Iterator, Sequence
from concurrent.futures import ThreadPoolExecutor
from typing import Any, TypeVar, overload

# So many runs go on at once, and each has so many seconds.
AT_ONCE, SECONDS = 4, 300
First = TypeVar("First")
Second = TypeVar("Second")
Third = TypeVar("Third")


@overload
def zipped(first: Iterable[First], second: Iterable[Second], /) -> Iterator[tuple[First, Second]]:
    """Of two lists."""


@overload
def zipped(
    first: Iterable[First], second: Iterable[Second], third: Iterable[Third], /
) -> Iterator[tuple[First, Second, Third]]:
    """Of three."""


def zipped(*lists: Iterable[Any]) -> Iterator[tuple[Any, ...]]:
    """The entries of lists side by side, as `zip` has them; a fault where the lists are not equally long."""
    found = [list(own) for own in lists]
    if len(set(map(len, found))) > 1:
        raise ValueError(f"lists of {', '.join(str(len(own)) for own in found)} entries")
    return zip(*found)


@dataclasses.dataclass
class Run:
    """One run: files, arguments, and what is wanted. A wanted text that is None is some text, whichever."""

    name: str
    files: dict[str, str | bytes | None]
    output: str | None = ""
    error: str | None = ""
    status: int = 0
    arguments: list[str] = dataclasses.field(default_factory=lambda: ["map", "script"])
    # What standard output is: a pipe, full, closed, or a pipe whose reader is gone.
    sink: str = "pipe"
    # The run that follows from the output of this one.
    follow: Callable[[bytes], "Run"] | None = None
    typed: str | bytes | None = None
    # The file and the line that say this run.
    place: str = ""

    @property
    def alone(self) -> bool:
        """Sessions that wait for one another, and those that wait in vain, would wait for a processor too beside
        others."""
        files = [word for word in self.arguments if word != "--stock"]
        return len(files) > 2 or "AwaitSpent" in (self.output or "")

    def differences(self, command: pathlib.Path) -> list[str]:
        """All that differs in this run, or else in the one that follows from it."""
        with tempfile.TemporaryDirectory() as folder:
            self.put_files(pathlib.Path(folder))
            try:
                done = self.started(command, folder)
            except subprocess.TimeoutExpired:
                return [f"no end after {SECONDS} seconds"]
        found = [
            difference("status", self.status, done.returncode),
            difference("output", self.output, done.stdout or b""),
            difference("error", self.error, done.stderr),
        ]
        wrong = [entry for entry in found if entry]
        return wrong or (self.follow(done.stdout).differences(command) if self.follow else [])

    def put_files(self, folder: pathlib.Path) -> None:
        """Puts the files of this run into a folder; one without a text is a folder."""
        for name, data in self.files.items():
            if data is None:
                (folder / name).mkdir()
            else:
                (folder / name).write_bytes(coded(data))

    def started(self, command: pathlib.Path, folder: str) -> "subprocess.CompletedProcess[bytes]":
        """The result of this run in a folder."""
        words = [os.fsencode(word) for word in [str(command), *self.arguments]]
        if self.sink == "pipe":
            typed: dict[str, Any] = (
                {"stdin": subprocess.DEVNULL} if self.typed is None else {"input": coded(self.typed)}
            )
            return subprocess.run(words, cwd=folder, capture_output=True, timeout=SECONDS, check=False, **typed)
        if self.sink == "closed":
            words = [b"sh", b"-c", b'exec "$0" "$@" >&-', *words]
        if self.sink == "gone":
            reader, sink = os.pipe()
            os.close(reader)
        else:
            sink = os.open("/dev/full", os.O_WRONLY)
        try:
            return subprocess.run(
                words,
                cwd=folder,
                stdin=subprocess.DEVNULL,
                stdout=sink,
                stderr=subprocess.PIPE,
                timeout=SECONDS,
                check=False,
            )
        finally:
            os.close(sink)


@dataclasses.dataclass
class Check:
    """What is found otherwise than by comparing the output of one run: some work that tells what is wrong of a
    program."""

    name: str
    work: Callable[[pathlib.Path], list[str]]
    alone: bool = False
    place: str = ""

    def differences(self, command: pathlib.Path) -> list[str]:
        """All that is wrong."""
        return self.work(command)


def coded(text: str | bytes) -> bytes:
    """The bytes of a text."""
    return text if isinstance(text, bytes) else text.encode("utf-8", "surrogateescape")


def difference(what: str, wanted: int | str | bytes | None, got: int | bytes) -> str | None:
    """How a result differs from what is wanted, or None."""
    if wanted is None:
        return None if got else f"{what}: expected some text, got none"
    if isinstance(wanted, int) or isinstance(got, int):
        return None if wanted == got else f"{what}: expected {wanted!r}, got {got!r}"
    if coded(wanted) == got:
        return None
    lines, found = coded(wanted).split(b"\n"), got.split(b"\n")
    for number, (left, right) in enumerate(zip(lines, found), 1):
        if left != right:
            return f"{what}, line {number}:\nexpected {left[:300]!r}\n     got {right[:300]!r}"
    return f"{what}: expected {len(lines) - 1} lines, got {len(found) - 1}"


def outcomes(runs: Sequence[Run | Check], command: pathlib.Path) -> Iterator[tuple[Run | Check, list[str]]]:
    """Each run with what is wrong with it: some at a time, and behind them one by one those that must be alone."""

    def found(run: Run | Check) -> list[str]:
        try:
            return run.differences(command)
        except Exception as fault:  # An answer that nobody can read is a failed row, and not the end of the others.
            return [f"{type(fault).__name__}: {fault}"[:600]]

    beside = [run for run in runs if not run.alone]
    with ThreadPoolExecutor(AT_ONCE) as pool:
        yield from zip(beside, pool.map(found, beside))
    yield from ((run, found(run)) for run in runs if run.alone)
