#!/usr/bin/env python3
"""Measures the lock of `ticketlock` beside a read-write lock of the C library, and beside its own steps in plain C:
holds in a second, in 1, 2 and 4 threads.

    locks.py [FOLDER]

Makes in FOLDER (a temporary one if none is given) a small repository of `ticketlock` and the program
`lockbench.rt.txt`, proves and builds it with `rt run`, builds `lockbench.c` with `cc`, and runs both. Each number is
the best of three runs. It is no part of the gate.
"""

from __future__ import annotations

import os
import shutil
import subprocess
import sys
import tempfile
from collections.abc import Iterator
from typing import Any

from running import heading, table

HERE = os.path.dirname(os.path.abspath(__file__))
CRATE = os.path.join(os.path.dirname(HERE), "crates", "ticketlock")
ROWS = [("readers alone", 0), ("writers alone", 1), ("99 reads to 1 write", 100)]
THREADS = [1, 2, 4]
HOLDS = 2000000


def made(folder: Any) -> tuple[Any, Any, Any]:
    """The three programs, built in the folder: ours, the C library's lock, and our steps in plain C."""
    crates = os.path.join(folder, "crates")
    bench = os.path.join(crates, "lockbench", "src")
    os.makedirs(bench, exist_ok=True)
    for part in ("src", "specs", "proofs"):
        shutil.rmtree(os.path.join(crates, "ticketlock", part), ignore_errors=True)
        shutil.copytree(os.path.join(CRATE, part), os.path.join(crates, "ticketlock", part))
    shutil.copy(os.path.join(HERE, "lockbench.rt.txt"), os.path.join(bench, "main.rt"))
    proofs = os.path.join(crates, "lockbench", "proofs")
    os.makedirs(os.path.join(proofs, "work"), exist_ok=True)
    shutil.copy(os.path.join(HERE, "lockbench.antt.txt"), os.path.join(proofs, "work", "Invariants.antt"))
    with open(os.path.join(proofs, "Lib.antt"), "w", encoding="utf-8"):
        pass
    with open(os.path.join(folder, "crates.txt"), "w", encoding="utf-8") as f:
        f.write("ticketlock: atomic_table counted_slot crossbeam_utils thiserror\nlockbench: ticketlock\n")
    with open(os.path.join(folder, "HANDLES"), "w", encoding="utf-8") as f:
        f.write("Handles allowed: Threads, Wait.\n")
    ours = os.path.join(crates, "lockbench", "out", "lockbench")
    subprocess.run(
        ["rt", "run", "--", "1", "0", "1"],
        cwd=os.path.join(crates, "lockbench"),
        check=False,
        stdout=subprocess.DEVNULL,
    )
    theirs, steps = (os.path.join(folder, name) for name in ("lockbench-c", "lockbench-steps"))
    builds: list[tuple[Any, list[str]]] = [(theirs, []), (steps, ["-DSTEPS"])]
    for program, words in builds:
        subprocess.run(
            ["cc", "-O2", "-pthread"] + words + ["-o", program, os.path.join(HERE, "lockbench.c")], check=True
        )
    return ours, theirs, steps


def nanoseconds(program: Any, threads: int, every: int) -> Any:
    """The nanoseconds a hold, at best."""
    times = []
    for _ in range(3):
        run = subprocess.run(
            [program, str(threads), str(every), str(HOLDS)], capture_output=True, text=True, check=True, timeout=60
        )
        times.append(int(run.stdout.split()[0]))
    return min(times) / (threads * HOLDS)


def rows(programs: Any) -> Iterator[Any]:
    """A row for each kind of holds and number of threads: the nanoseconds of each program, and the C library's to
    ours."""
    for name, every in ROWS:
        for threads in THREADS:
            ours, theirs, steps = (nanoseconds(program, threads, every) for program in programs)
            yield [name, threads, f"{ours:.1f}", f"{theirs:.1f}", f"{steps:.1f}", f"{theirs / ours:.2f}"]


def main() -> None:
    folder = sys.argv[1] if len(sys.argv) > 1 else tempfile.mkdtemp()
    os.makedirs(folder, exist_ok=True)
    programs = made(folder)
    heading("The lock, in nanoseconds a hold")
    table(["holds", "threads", "ours", "C library", "steps in C", "C library to ours"], rows(programs))


if __name__ == "__main__":
    main()
