#!/usr/bin/env python3
"""What sessions cost: look-ups in one and in several, changes in one and in four that try again, waiting, and the soak.

    sessions.py PROGRAM [FOLDER]

*Look-ups* are `up` lines over one pool of 4,096 groups on 64 OSDs in 8 hosts; an empty script's time is taken off,
and `epoch` lines show what a line costs that asks for nothing but the turn at the lock. *Changes* put one OSD down
and up. A script cannot read an answer, so each of several sessions has a line for each base in turn: whichever comes
first at an epoch makes the change, the others are refused as stale and try at the next one, as a client does that
takes the epoch from the refusal. *Crowds* are lines answered a second by more sessions than there are processors,
all of them on two processors, beside one session alone on one: the same number of look-ups by all together, or
20,000 changes by each, nearly all of which are answered as stale. *Waiting* is sessions that await epochs, beside
the one that makes them, and changes of a live session while 63 others look up. *Handed on* is the other extreme:
each session waits for the epoch before its own, so that every change is another session's turn. The *soak* plays 64
sessions of 1,000 lines over 32 pools, and then all their answers again by one session (tests/soak.py); its files
stay in FOLDER if one is given. It is no part of the gate.
"""

from __future__ import annotations

import os
import pathlib
import shutil
import statistics
import subprocess
import sys
import threading
import time
from collections.abc import Iterator
from typing import Any

from changes import STATES, change
from maps import few_hosts
from running import (
    GOALS,
    LIMIT,
    Absent,
    Folder,
    found,
    goal_row,
    heading,
    in_folder,
    judged,
    median,
    once,
    output,
    piped,
    program,
    ratio,
    row,
    seconds,
    table,
    watched,
)

sys.path.append(os.path.dirname(os.path.dirname(os.path.abspath(__file__))))
from tests import soak  # noqa: E402

GROUPS, FIRST = 4096, 100_000
LOOKS, CHANGES, TURNS, ROUNDS = 500_000, 20_000, 2_000, 100
CROWD, BEHIND = 400_000, 40_000
SEEDS = 3
ONE, TWO = (["taskset", "-c", processors] for processors in ("0", "0,1"))
MOST = 64


def looks(word: str) -> Any:
    """Lines that ask, over all groups in turn."""
    return "".join((f"up 1.{line % GROUPS:x}\n" if word == "up" else f"{word}\n") for line in range(LOOKS))


def state(base: int) -> str:
    """A session's change at a base."""
    return change(base, STATES[base % 2])


def in_turn(session: int, sessions: int) -> Any:
    """A session's changes: one for each base."""
    return "".join(state(FIRST + line) for line in range(CHANGES))


def handed_on(session: int, sessions: int) -> Any:
    """A session's changes, each for the epoch that another session's leads to."""
    return "".join(f"await {base}\n{state(base)}" for base in range(FIRST + session, FIRST + TURNS, sessions))


def spent(runs: Folder, stated: Any, scripts: Any) -> Any:
    """The time of scripts at once, less that of as many that are empty."""
    return seconds(runs.words(stated, *scripts)) - seconds(runs.words(stated, *[""] * len(scripts)))


def pinned(processors: Any, words: Any) -> Any:
    """A run on some processors alone."""
    if shutil.which("taskset") is None:
        raise Absent("no taskset")
    return processors + words


def look_rows(runs: Folder, stated: Any) -> Iterator[Any]:
    """Look-ups of 1, 2 and 4 sessions."""
    lines, epochs, alone = looks("up"), looks("epoch"), None
    for sessions, goal in ((1, None), (2, 1.8), (4, 3.2)):
        by_up, by_epoch = (found(lambda: spent(runs, stated, [text] * sessions) / LOOKS) for text in (lines, epochs))
        alone = by_up if alone is None else alone
        rate, alone_rate = ratio(sessions, by_up), ratio(1, alone)
        times = ratio(rate, alone_rate)
        measured = not isinstance(by_up, str) and not isinstance(by_epoch, str)
        each = (
            [by_up * 1e9, by_epoch * 1e9, (by_up - by_epoch) * 1e9]
            if measured
            else [by_up, by_epoch, ratio(by_up, by_epoch)]
        )
        yield [str(sessions), rate, times, *judged(times, goal, at_least=True), *each, *judged(each[2], 250)]


def looks_answered(runs: Folder, stated: Any, sessions: int, processors: Any) -> Any:
    """Look-ups answered a second by so many sessions that share them."""
    text = "".join(f"up 1.{line % GROUPS:x}\n" for line in range(CROWD // sessions))
    asked, empty = (pinned(processors, runs.words(stated, *[script] * sessions)) for script in (text, ""))
    return CROWD // sessions * sessions / (median(lambda: once(asked)) - median(lambda: once(empty)))


def changes_answered(runs: Folder, stated: Any, sessions: int, processors: Any) -> Any:
    """Lines answered a second by so many sessions that each have a change for each base."""
    return sessions * CHANGES / once(pinned(processors, runs.words(stated, *[in_turn(0, 1)] * sessions)))


def crowd_rows(runs: Folder, stated: Any) -> Iterator[Any]:
    """Lines answered by 4, 16 and 64 sessions on two processors, to one session alone on one."""
    for name, rate, goal in (("look-ups", looks_answered, 1.3), ("changes, each base in turn", changes_answered, 0.5)):
        alone = found(rate, runs, stated, 1, ONE)
        yield [name, "1", alone]
        for sessions in (4, 16, MOST):
            answered = found(rate, runs, stated, sessions, TWO)
            to_one = ratio(answered, alone)
            yield [name, str(sessions), answered, to_one, *judged(to_one, goal, at_least=True)]


def chained(session: int) -> Any:
    """A session's changes, each for the epoch that the one before leads to."""
    return "".join(f"await {base}\n{state(base)}" for base in range(FIRST + session, FIRST + ROUNDS * MOST, MOST))


def awaited(runs: Folder, stated: Any, made: Any, text: Any) -> Any:
    """The time of changes beside 63 sessions that await their last epoch, to that beside as many empty scripts."""
    beside = [once(runs.words(stated, made, *[script] * (MOST - 1))) for script in (text, "")]
    return beside[0] / beside[1]


def await_rows(runs: Folder, stated: Any) -> Iterator[Any]:
    """Sessions that await epochs."""
    made, few = in_turn(0, 1), "".join(state(base) for base in range(FIRST, FIRST + 1000))
    yield goal_row(
        f"{MOST - 1} await the last of {CHANGES:,} epochs, to as many empty scripts",
        lambda: median(lambda: awaited(runs, stated, made, f"await {FIRST + CHANGES}\n")),
        "times",
        1.3,
    )
    each = "".join(f"await {FIRST + number}\n" for number in range(1, 1001))
    rows = [
        (f"{MOST - 1} await each of 1,000 epochs, on two processors", [few] + [each] * (MOST - 1), 1),
        *(
            (f"{count} await an epoch that nobody makes, on two processors", [f"await {FIRST + 1}\n"] * count, 3)
            for count in (1, 8, 16, MOST)
        ),
        (
            f"a chain of {MOST}, each awaiting the one before, {ROUNDS} rounds, on two processors",
            [chained(session) for session in range(MOST)],
            2,
        ),
    ]
    for name, scripts, goal in rows:
        yield goal_row(name, lambda: median(lambda: once(pinned(TWO, runs.words(stated, *scripts))), 3), "s", goal)


def behind(runs: Folder, stated: Any) -> Any:
    """The milliseconds of each change of a live session, from its line to its answer, as long as 63 others look up.
    These await the first change, so that all begin at once."""
    script = f"await {FIRST + 1}\n" + "".join(f"up 1.{line % GROUPS:x}\n" for line in range(BEHIND))
    words = pinned(TWO, runs.words(stated) + [runs.file(script)] * (MOST - 1) + ["-"])
    times: list[float] = []
    with piped(words) as live:
        late = threading.Timer(LIMIT, live.kill)
        late.start()
        answer = live.stdout.readline()
        while answer and len(os.listdir(f"/proc/{live.pid}/task")) > MOST:
            begin = time.perf_counter()
            live.stdin.write(state(FIRST + len(times)).encode())
            live.stdin.flush()
            answer = live.stdout.readline()
            times.append((time.perf_counter() - begin) * 1e3)
        live.communicate()
        late.cancel()
    if live.returncode != 0:
        raise subprocess.TimeoutExpired(words, LIMIT)
    return times


def behind_rows(runs: Folder, stated: Any) -> Iterator[Any]:
    """The longest that a change takes behind look-ups, and half of all."""
    times = found(behind, runs, stated)
    count = "changes" if isinstance(times, str) else f"{len(times):,} changes in a row"
    ways: tuple[tuple[str, Any], ...] = (("the longest", max), ("the median", statistics.median))
    for name, of in ways:
        yield [
            f"{name} of {count}, each while {MOST - 1} sessions look up, on two processors",
            times if isinstance(times, str) else of(times),
            "ms",
        ]


def made_and_stale(runs: Folder, stated: Any, scripts: Any, count: Any) -> list[Any]:
    """How many changes of some scripts are made, how many are refused as stale, and how many are made in a second."""
    answers = output(runs.words(stated, *scripts))
    made, stale = (sum(line.startswith(start) for line in answers) for start in ("ok ", "err 20 "))
    if made != count or stale + made != sum(text.count("change") for text in scripts):
        sys.exit(f"{made} changes made and {stale} refused")
    return [made, stale, made / spent(runs, stated, scripts)]


def change_rows(runs: Folder, stated: Any) -> Iterator[Any]:
    """Changes of 1 and 4 sessions."""
    for name, form, count in (("each base in turn", in_turn, CHANGES), ("handed on", handed_on, TURNS)):
        alone = None
        for sessions in (1, 4):
            cells = row(
                name, made_and_stale, runs, stated, [form(session, sessions) for session in range(sessions)], count
            )
            alone = cells[-1] if alone is None else alone
            yield [name, str(sessions), *cells[1:]] + ([ratio(cells[-1], alone)] if len(cells) > 2 else [])


def soaked(runs: Folder, seed: int, is_stock: bool = False) -> list[Any]:
    """One soak, and what one history answers otherwise."""
    value, scripts = soak.scripts(seed, 64, 1000, 32, 128, is_stock)
    words, play = soak.run(runs.program, pathlib.Path(runs.folder), scripts, value, is_stock)
    said, most = watched(words)
    wrong, made, compared = soak.faults(scripts, said, play)
    for fault in wrong[:10]:
        print(fault, file=sys.stderr)
    stale = sum(line.startswith("err 20 ") for line in said.splitlines())
    return [sum(map(len, scripts)), made, stale, compared, len(wrong), *judged(len(wrong), 0), most / 2**20]


def main() -> None:
    path = program(__doc__)

    def work(runs: Folder) -> None:
        runs.folder = sys.argv[2] if len(sys.argv) > 2 else runs.folder
        os.makedirs(runs.folder, exist_ok=True)
        stated = runs.map(few_hosts("list", GROUPS))
        heading(f"Look-ups of sessions side by side: {LOOKS:,} lines a session")
        table(
            [
                "sessions",
                "`up` lines a second",
                "to one session",
                "goal",
                "",
                "an `up` line, ns",
                "an `epoch` line, ns",
                "beyond it, ns",
                "goal",
                "",
            ],
            look_rows(runs, stated),
        )
        heading(f"Crowds: {CROWD:,} look-ups by all together, {CHANGES:,} changes by each")
        table(
            ["lines", "sessions", "answered a second", "to one session on one processor", "goal", ""],
            crowd_rows(runs, stated),
        )
        heading("Waiting")
        table(GOALS, (entry for part in (await_rows, behind_rows) for entry in part(runs, stated)))
        heading("Changes: one OSD down and up, over 4,096 groups")
        table(
            ["form", "sessions", "made", "refused as stale", "made a second", "to one session"],
            change_rows(runs, stated),
        )
        heading("Soak: 64 sessions of 1,000 lines over 32 pools")
        table(
            [
                "seed",
                "lines",
                "changes made",
                "refused as stale",
                "answers compared",
                "differences",
                "goal",
                "",
                "peak memory, MiB",
            ],
            [
                *(row(str(seed), soaked, runs, seed) for seed in range(1, SEEDS + 1)),
                row("1, `--stock`", soaked, runs, 1, True),
            ],
        )

    in_folder(path, work)


if __name__ == "__main__":
    main()
