"""Two sessions that each put another OSD down, beside eight that only look: many runs, each judged by one history.

Each of the two tries at the first epoch and at the second, so there are four histories. What each line answers at each
epoch of each is asked first, of one session; a run is right where its answers are those of one of the four, and no
session goes back.
"""

from __future__ import annotations

import itertools
import json
import os
import pathlib
import re
import subprocess
import tempfile
from collections.abc import Callable

from tests import soak
from tests.cases import Case
from tests.clusters import Json
from tests.runs import zipped
from tests.whole_maps import ON_OSDS, map_of, osds_of, pool_of, rule_of

# The order of the writers, what they answered, and each question's answer at each epoch.
Order = tuple[tuple[int, int], list[str], dict[int, dict[str, str]]]
RUNS, SECONDS, SOAK_SECONDS = 1000, 60, 300
OSDS, GROUPS, FIRST = 16, 64, 1
EPOCH = re.compile(r"^(?:up|count|groups|epoch) (\d+)")
DOWN = ([3], [7])


def a_map() -> Json:
    """Sixteen OSDs in a list, and a pool of three."""
    root = {"id": -1, "items": [[osd, 65536] for osd in range(OSDS)], "kind": "list", "type": 1}
    return map_of([root], [rule_of(ON_OSDS)], [pool_of(1, GROUPS, 3)], osds_of(OSDS), epoch=FIRST)


def change(base: int, osds: list[int]) -> str:
    return "change " + json.dumps({"base": base, "down": osds}, separators=(",", ":"))


def looks(session: int) -> list[str]:
    """Forty questions, not the same for any two sessions."""
    kinds: list[Callable[[int], str]] = [
        lambda n: f"up 1.{n * 7 % GROUPS:x}",
        lambda n: f"count {n % OSDS}",
        lambda n: "epoch",
        lambda n: f"groups {n % OSDS}",
        lambda n: f"up 1.{n % GROUPS:x}",
    ]
    return [kinds[n % len(kinds)](n + 5 * session) for n in range(40)]


def writer(osds: list[int]) -> list[str]:
    """A session that puts its OSDs down at the first epoch, or at the next where another came first."""
    return [change(FIRST, osds), change(FIRST + 1, osds), "epoch"]


class Race:
    """A folder with the scripts, and what each line answers at each epoch of each order."""

    def __init__(self, command: pathlib.Path, folder: str) -> None:
        self.command, self.folder = command, pathlib.Path(folder)
        (self.folder / "map").write_text(json.dumps(a_map()))
        self.scripts = [writer(osds) for osds in DOWN] + [looks(session) for session in range(8)]
        self.paths = [self.put(f"script-{place}", lines) for place, lines in enumerate(self.scripts)]
        self.orders = [self.order(first, second) for first, second in itertools.product(range(2), repeat=2)]

    def put(self, name: str, lines: list[str]) -> pathlib.Path:
        path = self.folder / name
        path.write_text("".join(line + "\n" for line in lines))
        return path

    def run(self, paths: list[pathlib.Path]) -> list[list[str]]:
        """The answers of each session."""
        done = subprocess.run(
            [self.command, self.folder / "map", *paths], capture_output=True, text=True, timeout=SECONDS, check=True
        )
        return [text.splitlines() for text in re.split(r"^session \d+\n", done.stdout, flags=re.M)[1:]]

    def order(self, first: int, second: int) -> Order:
        """Where these writers make the two changes: what the two lines answer, and each question at each epoch."""
        asked = sorted({line for lines in self.scripts[2:] for line in lines})
        changes = [self.scripts[first][:1], self.scripts[second][1:2]]
        answers = self.run([self.put("order", asked + changes[0] + asked + changes[1] + asked)])[0]
        made = [answers[len(asked)], answers[2 * len(asked) + 1]]
        del answers[2 * len(asked) + 1], answers[len(asked)]
        at = {FIRST + number: dict(zip(asked, answers[number * len(asked) :])) for number in range(3)}
        return (first, second), made, at

    def fault(self, answers: list[list[str]]) -> str | None:
        """What is wrong with the answers of a run, or None."""
        by = [[writer for writer in range(2) if answers[writer][line].startswith("ok ")] for line in range(2)]
        if not len(by[0]) == len(by[1]) == 1:
            return f"the changes were made by {by}"
        made, at = next((made, at) for order, made, at in self.orders if order == (by[0][0], by[1][0]))
        if [answers[by[line][0]][line] for line in range(2)] != made:
            return f"the writers answered {answers[:2]}"
        for session, lines in zip(range(2, 10), self.scripts[2:]):
            low = FIRST
            for line, answer in zipped(lines, answers[session]):
                found = EPOCH.match(answer)
                epoch = int(found[1]) if found else 0
                if epoch < low or answer != at[epoch][line]:
                    return f"session {session + 1}: {line} answered {answer} at {low} or later"
                low = epoch
        return None

    def faults(self, runs: int) -> list[str]:
        """What is wrong with so many runs. One that does not end is wrong, and the last."""
        found: list[str] = []
        for number in range(1, runs + 1):
            try:
                fault = self.fault(self.run(self.paths))
            except subprocess.TimeoutExpired:
                return found + [f"run {number}: no end after {SECONDS} seconds"]
            found += [f"run {number}: {fault}"] if fault else []
        return found


def on_one_processor() -> None:
    """Has this process run on the first processor that it may run on, and on no other."""
    os.sched_setaffinity(0, {min(os.sched_getaffinity(0))})


class Races(Case):
    """Sessions that race for each epoch, or for one processor."""

    is_alone = True

    def test_two_writers(self) -> None:
        """Two sessions each put another OSD down beside eight that look, a thousand times."""
        with tempfile.TemporaryDirectory() as folder:
            self.assertEqual(Race(self.program, folder).faults(RUNS)[:3], [])

    def test_one_processor(self) -> None:
        """64 sessions on one processor."""
        value, scripts = soak.scripts(5, 64, 100, 6, 16)
        with tempfile.TemporaryDirectory() as folder:
            words, play = soak.run(self.program, pathlib.Path(folder), scripts, value)
            done = subprocess.run(
                words, capture_output=True, text=True, timeout=SOAK_SECONDS, check=True, preexec_fn=on_one_processor
            )
            self.assertEqual(soak.faults(scripts, done.stdout, play)[0][:3], [])
