#!/usr/bin/env python3
"""What a live session costs: one question and its answer through two pipes, beside a C program that echoes a line; and
a million lines through a pipe, beside the same lines as a file.

    live.py PROGRAM

The time of a question is the median of many, asked one by one; Python's own part of it is in both. It is no part of
the gate.
"""

from __future__ import annotations

import os
import select
import statistics
import subprocess
import time
from collections.abc import Iterator
from typing import Any

from maps import few_hosts
from running import GOALS, LIMIT, Folder, goal_row, heading, in_folder, once, piped, program, several, table

ASKED, LINES = 20_000, 1_000_000
ECHO = r"""
#include <unistd.h>
int main(void) { char text[65536]; for (;;) { long n = read(0, text, sizeof text); if (n <= 0) return 0;
    if (write(1, text, n) != n) return 1; } }
"""


def answered(pipe: Any) -> None:
    """Takes what comes out of a pipe, once it has come."""
    if not select.select([pipe], [], [], LIMIT)[0]:
        raise subprocess.TimeoutExpired("an answer", LIMIT)
    os.read(pipe, 65536)


def asked(words: Any, question: Any, has_heading: bool) -> Any:
    """The median of the microseconds from a question to its answer."""
    with piped(words) as process:
        to, back, times = process.stdin.fileno(), process.stdout.fileno(), []
        try:
            if has_heading:
                answered(back)
            for _ in range(ASKED):
                begun = time.perf_counter()
                os.write(to, question)
                answered(back)
                times.append(time.perf_counter() - begun)
        except subprocess.TimeoutExpired:
            process.kill()
            raise
        process.stdin.close()
    return statistics.median(times) * 1e6


def beyond_echo(runs: Folder, stated: Any) -> Any:
    """The microseconds of a question and its answer, beyond an echo in C."""
    echo = runs.compiled(runs.file(ECHO), "echo")
    return asked([runs.program, stated, "-"], b"up 1.0\n", True) - asked([echo], b"up 1.0\n", False)


def through_a_pipe(words: Any, path: Any) -> Any:
    """The time of a run whose input is the text of a file, through a pipe."""
    with subprocess.Popen(["cat", path], stdout=subprocess.PIPE) as source:
        return once(words + ["-"], source.stdout)


def rows(runs: Folder) -> Iterator[Any]:
    """The rows of the table."""
    stated, path = runs.map(few_hosts("uniform", 4096)), runs.file("up 1.0\n" * LINES)
    words = [runs.program, stated]
    yield goal_row("a question and its answer, beyond an echo in C", lambda: beyond_echo(runs, stated), "µs", 30)
    yield goal_row(
        f"{LINES:,} lines through a pipe, to a file's time",
        lambda: several(lambda: through_a_pipe(words, path)) / several(lambda: once(words + [path])),
        "times",
        1.3,
    )


def main() -> None:
    path = program(__doc__)
    heading("Live sessions: through pipes")
    in_folder(path, lambda runs: table(GOALS, rows(runs)))


if __name__ == "__main__":
    main()
