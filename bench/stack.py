#!/usr/bin/env python3
"""The least stack with which runs of the program, and of the one over a store, end as they do with plenty.

    stack.py PROGRAM

OSDMAPSTORE names the program over a store; where it is not there, its rows are left out. The limit is that of
`ulimit -s`, which holds for the program's first thread and for the size of each other. It is no part of the gate.
"""

from __future__ import annotations

import functools
import os
import pathlib
import resource
import signal
import subprocess
from collections.abc import Callable, Iterator
from typing import Any

from maps import a_map, levels, stock
from running import LIMIT, Folder, found, heading, in_folder, program, table

EXAMPLES = pathlib.Path(__file__).resolve().parent.parent / "examples"
# Limits are looked for between these, in kilobytes, in steps of one page.
LEAST, MOST, PAGE = 16, 8192, 4
RUNS = 8
DEEP = 127
STORE = os.environ.get("OSDMAPSTORE", "")

# The words of a run, made anew for each, since a store is there only once.
Words = Callable[[], "list[Any]"]


def ended(words: list[Any], kilobytes: int) -> tuple[int, bytes, bytes]:
    """How a run ends with so much stack: its status, or the signal below zero, and what it puts out."""

    def limit() -> None:
        resource.setrlimit(resource.RLIMIT_STACK, (kilobytes << 10, kilobytes << 10))

    done = subprocess.run(
        words, stdin=subprocess.DEVNULL, capture_output=True, timeout=LIMIT, check=False, preexec_fn=limit
    )
    return done.returncode, done.stdout, done.stderr


def least(words: Words) -> list[Any]:
    """The least stack, in kilobytes, with which each of some runs ends as it does with plenty, and how one ends with
    half of that. The system begins a stack at a place of its choice, so a run alone tells too little."""
    whole = ended(words(), MOST)
    low, high = LEAST, MOST
    while high - low > PAGE:
        middle = (low + high) // 2 // PAGE * PAGE
        is_enough = all(ended(words(), middle) == whole for _ in range(RUNS))
        low, high = (low, middle) if is_enough else (middle, high)
    status, _, told = ended(words(), high // 2)
    name = signal.Signals(-status).name if status < 0 else f"status {status}"
    return [high, f"{name}, {'nothing' if not told else 'something'} on standard error"]


def chain(depth: int) -> dict[str, Any]:
    """A forest as deep as there may be types: each bucket has one other, and the last four devices."""
    buckets: list[Any] = [
        {"id": -1 - at, "items": [[-2 - at, 65536]], "kind": "straw2", "type": depth - at} for at in range(depth - 1)
    ]
    buckets += [{"id": -depth, "items": [[osd, 65536] for osd in range(4)], "kind": "straw2", "type": 1}]
    return a_map(buckets, 4, [["chooseleaf_firstn", 0, 1]], 1, 64)


def lines(pool: int, epoch: int = 100_000) -> str:
    """A script with a line of most kinds, over a map of an epoch."""
    group = f"{pool}.0"
    asked = ["epoch", f"up {group}", "count 0", "groups 0", f"fup {group}", "follow 1", f"fkept {group}", "fdump"]
    changes = [
        f'change {{"base":{epoch},"down":[0]}}',
        f'change {{"base":{epoch + 1},"weight":[[1,0]]}}',
        'apply {"up":[0]}',
    ]
    return "\n".join([*asked, *changes, f"balance {pool} 8", "dump", ""])


def cases(runs: Folder) -> Iterator[tuple[str, list[Any]]]:
    """The words of each run, by what it has."""
    yield "the example", [runs.program, str(EXAMPLES / "map.json"), str(EXAMPLES / "script.txt")]
    few = runs.map(levels("tree", 1))
    nested = {"lists": "[" * DEEP + "]" * DEEP, "objects": '{"base":' * DEEP + "1" + "}" * DEEP}
    for name, text in nested.items():
        yield f"a map of {DEEP} nested {name}, refused", [runs.program, runs.file(text), runs.file("")]
        yield f"a change of {DEEP} nested {name}, refused", runs.words(few, f"change {text}\n")
    wide = levels("tree", 4096, 32)
    yield "32 pools of 4,096 groups over 1,024 OSDs", runs.words(runs.map(wide), lines(1))
    yield "ten levels of straw2 buckets", runs.words(runs.map(chain(10)), lines(1))
    great = stock(16, 16, [65536] * 16, [(65536, 3, 0)] * 4)
    yield "four pools of 65,536 groups over 4,096 OSDs, straw2", runs.words(runs.map(great), lines(1))
    yield "64 sessions", runs.words(few, *["up 1.0\n"] * 64)


def store_cases(runs: Folder) -> Iterator[tuple[str, Words]]:
    """Runs of the program over a store."""
    if not os.access(STORE, os.X_OK):
        return
    few = str(EXAMPLES / "map.json")
    script = runs.file("".join(f'change {{"base":{at},"{"down" if at % 2 else "up"}":[2]}}\n' for at in range(1, 200)))
    yield "a store that is begun, and 199 changes", lambda: [STORE, "--begin", few, new_path(runs), script]
    kept = new_path(runs)
    subprocess.run([STORE, "--begin", few, kept, script], stdout=subprocess.DEVNULL, check=True, timeout=LIMIT)
    yield "a store of 199 changes, opened", lambda: [STORE, kept]


def new_path(runs: Folder) -> str:
    """A path in the folder of the runs where nothing is."""
    runs.count += 1
    return os.path.join(runs.folder, f"store-{runs.count}")


def measured(runs: Folder) -> Iterator[list[Any]]:
    """The rows of the table."""
    plain: list[tuple[str, Words]] = [(name, functools.partial(list, words)) for name, words in cases(runs)]
    for name, words in [*plain, *store_cases(runs)]:
        one = found(least, words)
        yield [name, *(one if isinstance(one, list) else [one, ""])]


def main() -> None:
    """Prints the table, and keeps it."""
    heading("The least stack")
    columns = ["run", "least, KB", "with half of that"]
    in_folder(program(__doc__ or ""), lambda runs: table(columns, measured(runs)))


if __name__ == "__main__":
    main()
