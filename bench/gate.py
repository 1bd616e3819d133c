#!/usr/bin/env python3
"""Makes a table of the processor minutes that each crate takes of a gate, from what the gate has printed.

    gate.py LOG

`make gate` ends with these minutes (tools/clock.py). With RESULTS the table is kept in bench/results/gate.md.
"""

from __future__ import annotations

import pathlib
import re
import sys
from collections.abc import Iterator

import running

HEAD = "processor minutes: "
Row = tuple[str, list[float]]


def rows_in(log: str) -> tuple[list[str], list[Row]]:
    """The parts that a log has minutes of, and each crate with them, the dearest first."""
    _, found, rest = log.rpartition(HEAD)
    if not found:
        sys.exit(f"the log has no line '{HEAD}..': is it of `make gate`, to its end?")
    head, *lines = rest.splitlines()
    return head.split(", "), [*rows_of(lines)]


def rows_of(lines: list[str]) -> Iterator[Row]:
    """The crates in the lines behind the head, up to the first line of another kind."""
    for line in lines:
        row = re.fullmatch(r" {4}(\w+)((?: +[\d.]+)+)", line)
        if row is None:
            return
        yield row[1], [float(word) for word in row[2].split()]


def main() -> None:
    if len(sys.argv) != 2:
        sys.exit((__doc__ or "").strip())
    parts, rows = rows_in(pathlib.Path(sys.argv[1]).read_text(encoding="utf-8", errors="replace"))
    running.heading("Processor minutes of a gate, by crate")
    whole = [sum(column) for column in zip(*(minutes for _, minutes in rows))]
    running.table(
        ["crate", *parts, "together"], [[crate, *minutes, sum(minutes)] for crate, minutes in [*rows, ("all", whole)]]
    )


if __name__ == "__main__":
    main()
