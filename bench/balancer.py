#!/usr/bin/env python3
"""What balancing a pool costs, and how even it leaves it.

    balancer.py PROGRAM

One pool of groups of size 3, balanced by one line. The time is that of the line less an empty script, so it holds
the plan and its commit. The greatest deviation is how many groups an OSD has more or fewer than its ideal share,
told by `count` lines before and after. It is no part of the gate.
"""

from __future__ import annotations

from collections.abc import Iterator
from typing import Any

from maps import PLAIN, few_hosts, levels
from running import Folder, found, heading, in_folder, judged, output, program, seconds, table

MOVES, GROUPS = 1024, 4096


def greatest_deviation(stated: Any, counts: Any) -> Any:
    """How far the counts are from the shares, in groups; the weights of all OSDs are the same."""
    share = sum(counts) / stated["max_osd"]
    return max(abs(count - share) for count in counts)


def counted(lines: Any) -> list[Any]:
    return [int(line.split()[3]) for line in lines if line.startswith("count")]


def planned(runs: Folder, stated: Any) -> list[Any]:
    """A plan's moves, its milliseconds, and the deviations before and after."""
    path = runs.map(stated)
    count = "".join(f"count {osd}\n" for osd in range(stated["max_osd"]))
    line = f"balance 1 {MOVES}\n"
    answers = output(runs.words(path, count + line + count))
    before, after = answers[: stated["max_osd"]], answers[stated["max_osd"] + 1 :]
    spent = seconds(runs.words(path, line)) - seconds(runs.words(path, ""))
    return [
        int(answers[stated["max_osd"]].split()[1]),
        spent * 1e3,
        greatest_deviation(stated, counted(before)),
        greatest_deviation(stated, counted(after)),
    ]


def even(kind: str, groups: Any) -> Any:
    """1,024 OSDs in 256 hosts of four in 16 racks of sixteen."""
    return levels(kind, groups, racks=16, hosts=256)


# Maps whose OSDs and hosts all weigh the same, by their names, with the milliseconds that a plan may take.
EVEN: tuple[tuple[str, Any, int], ...] = (
    ("64 OSDs in 8 hosts", few_hosts, 50),
    ("1,024 OSDs in 256 hosts in 16 racks", even, 1000),
)


def rows(runs: Folder) -> Iterator[Any]:
    """A row for each map."""
    for name, shape, goal in EVEN:
        for kind in PLAIN:
            cells = found(planned, runs, shape(kind, GROUPS))
            if isinstance(cells, str):
                yield [f"{GROUPS:,} groups over {name}, {kind}", "", cells, *judged(cells, goal)]
            else:
                moves, spent, before, after = cells
                yield [
                    f"{GROUPS:,} groups over {name}, {kind}",
                    moves,
                    spent,
                    *judged(spent, goal),
                    spent * 1e3 / max(moves, 1),
                    before,
                    after,
                ]


def main() -> None:
    path = program(__doc__)
    heading(f"Balancing one pool of size 3, at most {MOVES:,} moves")
    columns = ["map", "moves", "time, ms", "goal", "", "a move, µs", "greatest deviation before", "after"]
    in_folder(path, lambda runs: table(columns, rows(runs)))


if __name__ == "__main__":
    main()
