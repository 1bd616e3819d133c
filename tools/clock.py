#!/usr/bin/env python3
"""Passes on what `rt ci` prints, and tells at its end when each crate's proof, tests and edits were done, and what
processor time each took.

    { rt ci && wrong_bodies.py; } 2>&1 | clock.py

`rt ci` prints the lines of a part when the part has ended, so what is told is the minute by the clock at which it came,
from the beginning on: parts run side by side, and one that was kept from an earlier run comes at once. The processor
time is that of the provers and compilers which the caller's shell has started, as /proc has it twice a second: the last
half second of each is not counted. The processor time of all is told by the shell (`times`). `bench/gate.py` makes a
table of such a log.
"""

from __future__ import annotations

from collections.abc import Iterator
import io
import os
import pathlib
import re
import sys
import threading
import time
from typing import Dict, Tuple

NAME = r"([a-z_0-9]+)"
COLUMNS = (
    ("proof", re.compile(rf"rt: {NAME} (?:proved|is kept)\b")),
    ("tests", re.compile(rf"rt: {NAME}: its tests (?:are proved|are kept)\b")),
    ("edits", re.compile(rf"rt: must-fail {NAME}/")),
)

PARTS = ("proof", "tests", "edits", "bodies", "builds")
TICKS, PAUSE = os.sysconf("SC_CLK_TCK"), 0.5

# Of each process its folder, its parent, when it began, and the seconds of its processor time.
Stats = Dict[int, Tuple[pathlib.Path, int, str, float]]
# Of each crate, by the name of a part or a column: minutes.
Minutes = Dict[str, Dict[str, float]]


def part_of(process: pathlib.Path) -> tuple[str, str] | None:
    """The crate and the part for which a process proves or compiles; None where it does neither."""
    words = (process / "cmdline").read_bytes().decode(errors="replace").split("\0")
    if "--crate-name" not in words or not words[0].endswith("rattle"):
        return None
    crate = words[words.index("--crate-name") + 1]
    folder = os.readlink(process / "cwd")
    for name, part in (("rt-edit-", "edits"), ("wrong-bodies-", "bodies")):
        if name in folder:
            return crate, part
    if "--test" in words:
        return crate, "tests"
    return crate, "builds" if "--crate-checked" in words else "proof"


def stat_of(process: pathlib.Path) -> tuple[int, str, float]:
    """The parent of a process, when it began, and the seconds of its processor time."""
    words = (process / "stat").read_text().rpartition(")")[2].split()
    return int(words[1]), words[19], (int(words[11]) + int(words[12])) / TICKS


class Sampler:
    """The processor time of each process below another that proves or compiles, by its number and its beginning."""

    def __init__(self, top: int) -> None:
        """Begins to note, beside whatever the caller does."""
        self.top, self.ended = top, threading.Event()
        self.seconds: dict[tuple[int, str, str, str], float] = {}
        self.thread = threading.Thread(target=self.run, daemon=True)
        self.thread.start()

    def run(self) -> None:
        """Notes again and again, until all is done."""
        while not self.ended.wait(PAUSE):
            self.sample()

    def sample(self) -> None:
        """Notes what each of these processes has taken by now."""
        stats: Stats = {}
        for process in pathlib.Path("/proc").glob("[0-9]*"):
            try:
                stats[int(process.name)] = (process, *stat_of(process))
            except OSError:  # It has ended meanwhile.
                continue
        for number, (process, _, began, seconds) in stats.items():
            try:
                if self.is_below(number, stats) and (part := part_of(process)):
                    self.seconds[number, began, *part] = seconds
            except OSError:
                continue

    def is_below(self, number: int, stats: Stats) -> bool:
        """Whether a process stands below the top one."""
        while number in stats and number != self.top:
            number = stats[number][1]
        return number == self.top

    def end(self) -> Minutes:
        """The minutes of each crate and part."""
        self.ended.set()
        self.thread.join()
        found: Minutes = {}
        for (*_, crate, part), seconds in self.seconds.items():
            row = found.setdefault(crate, {})
            row[part] = row.get(part, 0) + seconds / 60
        return found


def minutes_table(found: Minutes) -> Iterator[str]:
    """The lines of the table of processor minutes, the dearest crate first."""
    yield "processor minutes: " + ", ".join(PARTS)
    for crate, row in sorted(found.items(), key=lambda one: -sum(one[1].values())):
        yield f"    {crate:<14}" + "".join(f"{row.get(name, 0):9.2f}" for name in PARTS)


def read(line: str, minutes: float, came: Minutes) -> None:
    """Notes what a line says has come: for each crate and column the last minute."""
    for column, words in COLUMNS:
        if found := words.match(line):
            came.setdefault(found[1], {})[column] = minutes


def table(came: Minutes) -> Iterator[str]:
    """The lines of the table, crates in the order in which their proofs came."""
    yield "came after, in minutes by the clock: " + ", ".join(name for name, _ in COLUMNS)
    for crate, row in sorted(came.items(), key=lambda one: one[1].get("proof", 0)):
        yield f"    {crate:<14}" + "".join(f"{row[name]:8.1f}" if name in row else f"{'':>8}" for name, _ in COLUMNS)


def main() -> None:
    """Passes lines on, and tells what came of them at the end."""
    for stream in (sys.stdin, sys.stdout):
        if isinstance(stream, io.TextIOWrapper):
            stream.reconfigure(encoding="utf-8", errors="replace")
    came: Minutes = {}
    begin, sampler = time.monotonic(), Sampler(os.getppid())
    for line in sys.stdin:
        sys.stdout.write(line)
        sys.stdout.flush()
        read(line, (time.monotonic() - begin) / 60, came)
    print(*table(came), *minutes_table(sampler.end()), sep="\n")


if __name__ == "__main__":
    main()
