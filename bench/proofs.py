#!/usr/bin/env python3
"""Measures what the functions of crates take to prove: each crate from nothing by one job, over the libraries that a
gate has left in `out/`.

    proofs.py CRATE..

Of a crate that has tests its tests are proved too. A function's processor seconds have those of the lemmas which it is
the first to cite; the first function's also those of reading the libraries.
"""

from __future__ import annotations

from concurrent.futures import ThreadPoolExecutor
import os
import pathlib
import re
import subprocess
import sys

import running

TOP = pathlib.Path(__file__).resolve().parent.parent
sys.path.append(str(TOP / "tools"))

import libraries  # noqa: E402
import wrong_bodies  # noqa: E402

TICKS = os.sysconf("SC_CLK_TCK")
# The least seconds of a row.
LEAST = 8.0
Rows = list[tuple[str, str, float]]


def spent(number: int) -> float:
    """The processor seconds of a process and of those that it has waited for."""
    words = pathlib.Path(f"/proc/{number}/stat").read_text(encoding="utf-8").rpartition(")")[2].split()
    return sum(map(int, words[11:15])) / TICKS


def has_tests(crate: str) -> bool:
    """Whether a crate has tests."""
    sources = (TOP / "crates" / crate / "src").rglob("*.rt")
    return any("#[test]" in path.read_text(encoding="utf-8") for path in sources)


def proved(crate: str) -> Rows:
    """Each function of a crate, in the order in which they are proved, with its processor seconds; and all of them."""
    words = [*wrong_bodies.words_of(crate, dict(libraries.named(TOP))), "--progress", *["--test"] * has_tests(crate)]
    found: Rows = []
    with subprocess.Popen(
        words, cwd=TOP / "crates" / crate, stdout=subprocess.PIPE, stderr=subprocess.STDOUT, text=True, errors="replace"
    ) as prover:
        assert prover.stdout
        before, last = 0.0, ""
        for line in prover.stdout:
            last = line
            if name := re.match(r"checked \w+::(\S+), \d+ of \d+", line):
                now = spent(prover.pid)
                found.append((crate, name[1] if found else f"the libraries, and {name[1]}", now - before))
                before = now
    if not last.startswith("logic=proved"):
        sys.exit(f"{crate}: {last.strip() or 'the prover says nothing'}")
    return [(crate, "all", sum(seconds for *_, seconds in found)), *found]


def main() -> None:
    if len(sys.argv) < 2 or sys.argv[1].startswith("-"):
        sys.exit((__doc__ or "").strip())
    running.heading("Processor seconds of the functions that take longest to prove")
    with ThreadPoolExecutor(os.cpu_count()) as pool:
        found = [[*rows[:1], *sorted(rows[1:], key=lambda row: -row[2])] for rows in pool.map(proved, sys.argv[1:])]
    shown = [row for rows in found for row in rows if row[2] >= LEAST or row[1] == "all"]
    running.table(["crate", "function", "seconds"], [[f"`{crate}`", name, taken] for crate, name, taken in shown])


if __name__ == "__main__":
    main()
