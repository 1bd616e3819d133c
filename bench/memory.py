#!/usr/bin/env python3
"""What a live session has in memory behind each of some lines, and the most that it had on the way.

    memory.py PROGRAM

Memory is the resident set that the system tells. The program runs twice: as it is, and where the allocator is told to
give back to the system what it can, from 64 KiB on. It is no part of the gate.
"""

from __future__ import annotations

import contextlib
import os
import pathlib
import re
import subprocess
import threading
import time
from collections.abc import Iterator
from typing import Any

from maps import flat
from running import LIMIT, Folder, heading, in_folder, program, table

POOLS, GROUPS = 32, 4096
# What an allocator has to be told that gives back what it can.
GIVING = "glibc.malloc.trim_threshold=65536:glibc.malloc.mmap_threshold=65536:glibc.malloc.top_pad=0"
# So many looks in a row must tell the same before memory is at rest, with so many seconds between them.
LOOKS, BETWEEN = 3, 0.05
MEGABYTE = 1e6


def resident(process: Any, name: str) -> int:
    """The bytes of a process by a name of the system's: `VmRSS` what it has, `VmHWM` the most that it had."""
    text = pathlib.Path(f"/proc/{process.pid}/status").read_text("utf-8")
    return int(re.findall(rf"^{name}:\s+(\d+) kB", text, re.M)[0]) * 1024


def at_rest(process: Any) -> int:
    """What a process has once that has stayed the same for some looks."""
    seen: list[int] = []
    while len(seen) < LOOKS or len(set(seen[-LOOKS:])) > 1:
        time.sleep(BETWEEN)
        seen.append(resident(process, "VmRSS"))
    return seen[-1]


def every_group() -> Iterator[str]:
    """All groups of the map."""
    return (f"{number}.{of:x}" for number in range(1, POOLS + 1) for of in range(GROUPS))


def change(epoch: int, part: str, entry: str) -> str:
    """A change with an entry of a part for each group; `%` stands for the group."""
    entries = ",".join(entry.replace("%", group) for group in every_group())
    return f'change {{"base":{epoch},"{part}":[{entries}]}}'


def lines(epoch: int) -> Iterator[tuple[str, str]]:
    """The lines, each with what it is, over a map of an epoch."""
    yield "a `dump`", "dump"
    yield "a change with a pair for each group", change(epoch, "new_items", '["%",[[62,63]]]')
    yield "a `dump`", "dump"
    yield "the same again", "dump"
    yield "a change with a set for each group", change(epoch + 1, "new_upmap", '["%",[0,1,2]]')
    yield "a change that takes all pairs away", change(epoch + 2, "old_items", '"%"')
    yield "a change that takes all sets away", change(epoch + 3, "old_upmap", '"%"')
    yield "a `dump`", "dump"


def measured(words: Any, epoch: int, more: dict[str, str]) -> Iterator[tuple[str, int, int]]:
    """What each line leaves, and the most on the way to that, in bytes; first what an open map takes."""
    with subprocess.Popen(
        words, stdin=subprocess.PIPE, stdout=subprocess.PIPE, env={**os.environ, **more}
    ) as process, contextlib.ExitStack() as ends:
        late = threading.Timer(LIMIT, process.kill)
        late.start()
        ends.callback(late.cancel)
        assert process.stdin and process.stdout
        process.stdout.readline()
        yield "the map is open", at_rest(process), resident(process, "VmHWM")
        for name, line in lines(epoch):
            pathlib.Path(f"/proc/{process.pid}/clear_refs").write_text("5", "utf-8")
            process.stdin.write(f"{line}\n".encode())
            process.stdin.flush()
            told = process.stdout.readline()
            if told.startswith(b"err") or not told:
                raise subprocess.CalledProcessError(process.wait() if not told else 1, words)
            size = f" of {len(told) / MEGABYTE:,.2g} MB" if told.startswith(b"dump") else ""
            yield name + size, at_rest(process), resident(process, "VmHWM")
        process.stdin.close()


def rows(runs: Folder) -> Iterator[list[Any]]:
    """The rows of the table, in megabytes."""
    stated = flat("uniform", GROUPS, POOLS)
    words = [runs.program, "--journal", "16", runs.map(stated), "-"]
    own = measured(words, stated["epoch"], {})
    giving = measured(words, stated["epoch"], {"GLIBC_TUNABLES": GIVING})
    for (name, rest, most), (_, least, _) in zip(own, giving):
        yield [name, *(f"{size / MEGABYTE:.1f}" for size in (rest, most, least))]


def main() -> None:
    """Prints the table, and keeps it."""
    heading("Memory at rest and at its most")
    columns = ["line", "at rest, MB", "the most, MB", "at rest where all is given back, MB"]
    in_folder(program(__doc__ or ""), lambda runs: table(columns, rows(runs)))


if __name__ == "__main__":
    main()
