#!/usr/bin/env python3
"""The same things done by two builds of the program: today's beside an older one, or one for every processor beside one
for a processor.

    beside.py PROGRAM OTHER

Opening a map, looks and changes, and plans over even maps, each as the best of five runs less those of an empty
script, in turn so that what else is at work on the machine is at work beside both. `make bench OTHER=PROGRAM` has
this table too. It is no part of the gate.
"""

from __future__ import annotations

import os
import sys
from collections.abc import Iterator
from typing import Any

from balancer import EVEN, GROUPS, MOVES
from changes import STATES, changes
from maps import PLAIN, levels
from running import Folder, heading, in_folder, once, program, program_at, row, table

LINES, FIRST = 200_000, 100_000


def compared(folders: Any, stated: Any, script: str, without: Any = "") -> list[Any]:
    """The milliseconds of a script over a map beyond another script, by each program, and the second to the first."""
    path = folders[0].map(stated)
    words = [[folder.words(path, text) for text in (script, without)] for folder in folders]
    times = [[[once(own) for own in pair] for pair in words] for _ in range(5)]
    best = [[min(turn[of][at] for turn in times) for at in range(2)] for of in range(2)]
    one, other = ((long - short) * 1e3 for long, short in best)
    return [one, other, other / one]


def opened(folders: Any, kind: str) -> list[Any]:
    """The milliseconds of opening 32 pools beyond pools of one group each."""
    paths = [folders[0].map(levels(kind, groups, 32)) for groups in (GROUPS, 1)]
    times = [[[once(folder.words(path, "")) for path in paths] for folder in folders] for _ in range(5)]
    one, other = (min(turn[of][0] for turn in times) - min(turn[of][1] for turn in times) for of in range(2))
    return [one * 1e3, other * 1e3, other / one]


def rows(folders: Any) -> Iterator[Any]:
    """Each thing with what it takes by both."""
    made = changes(STATES, LINES // 10, FIRST)
    for kind in PLAIN:
        yield row(f"opening 32 pools of {GROUPS:,} groups over 1,024 OSDs, {kind}", opened, folders, kind)
    for name, script in (
        (f"{LINES:,} lines `up`", "".join(f"up 1.{line % GROUPS:x}\n" for line in range(LINES))),
        (f"{LINES:,} lines `epoch`", "epoch\n" * LINES),
        (f"{LINES // 10:,} changes, one OSD down or up", made),
    ):
        yield row(name, compared, folders, levels("uniform", GROUPS), script)
    for name, shape, _ in EVEN:
        for kind in PLAIN:
            yield row(
                f"a plan for {GROUPS:,} groups over {name}, {kind}",
                compared,
                folders,
                shape(kind, GROUPS),
                f"balance 1 {MOVES}\n",
            )


def main() -> None:
    path = program(__doc__)
    if len(sys.argv) != 3:
        sys.exit(__doc__.strip())
    other = program_at(sys.argv[2])

    def work(runs: Folder) -> None:
        second = Folder(other, os.path.join(runs.folder, "other"))
        os.mkdir(second.folder)
        table(["what", f"`{path}`", f"`{other}`", "the other to the one"], rows([runs, second]))

    heading("Two builds, in milliseconds")
    in_folder(path, work)


if __name__ == "__main__":
    main()
