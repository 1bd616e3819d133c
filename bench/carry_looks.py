"""What a look of `rekhuso carry` costs, beside the commands that do the same: a part of `carried.py`.

The cluster is one of the tests' own: 12 OSDs and 129 groups, by the dumps of a real monitor. *Starts* are those of the
program, *processor* is all time of Python and of the program. A command starts Python too, and a look does not.
"""

from __future__ import annotations

import json
import os
import pathlib
import resource
import subprocess
import sys
from collections.abc import Callable, Sequence
from typing import Any
from unittest import mock

from carried import TOP
from running import LIMIT, heading, table

from rekhuso.carry import lease
from rekhuso.carry.carrier import Carrier, CarryWish
from rekhuso.carry.rules import CarryLimits
from rekhuso.carry.snapshots import taken
from rekhuso.commands.carry_engine import CarryEngine, EngineWish
from rekhuso.commands.part_words import PartWords
from rekhuso.program.monitor import Monitor
from tests.carry_cluster import StandIn

COLUMNS = ["what", "starts", "processor, s", "of it the program, s"]
TICKS = os.sysconf("SC_CLK_TCK")


class Starts:
    """Counts the starts of the program, and has their processes."""

    def __init__(self) -> None:
        self.processes: list[subprocess.Popen[bytes]] = []
        self.own = Monitor._started

    def started(self, *given: Any) -> subprocess.Popen[bytes]:
        """Starts the program, and counts it."""
        self.processes.append(self.own(*given))
        return self.processes[-1]


def running_seconds(processes: Sequence[subprocess.Popen[bytes]]) -> float:
    """The processor seconds of processes that have not ended."""
    found = 0.0
    for process in processes:
        if process.poll() is None:
            words = pathlib.Path(f"/proc/{process.pid}/stat").read_text().rpartition(") ")[2].split(" ")
            found += (int(words[11]) + int(words[12])) / TICKS
    return found


def spent(starts: Starts) -> tuple[float, float]:
    """The processor seconds so far: of Python, and of its children."""
    own, below = resource.getrusage(resource.RUSAGE_SELF), resource.getrusage(resource.RUSAGE_CHILDREN)
    return own.ru_utime + own.ru_stime, below.ru_utime + below.ru_stime + running_seconds(starts.processes)


def cost(starts: Starts, work: Callable[[], object]) -> list[Any]:
    """The cells of some work."""
    before, count = spent(starts), len(starts.processes)
    work()
    own, below = (now - then for now, then in zip(spent(starts), before))
    return [len(starts.processes) - count, f"{own + below:.2f}", f"{below:.2f}"]


def command_rows(world: StandIn, path: str, starts: Starts, plan: object) -> list[list[Any]]:
    """The rows of the commands over a cluster."""
    found, snapshot = [], taken(world, False)
    with snapshot.files() as files:
        plan_file = pathlib.Path(files["osd"]).with_name("plan.json")
        plan_file.write_text(json.dumps(plan))
        dumps, pgs = [files["osd"], files["crush"]], ["--pgs", files["pgs"]]
        for name, words in (
            ("verify", ["verify", *dumps, *pgs]),
            ("plan", ["plan", *dumps, "--json"]),
            ("next", ["next", *dumps, str(plan_file), *pgs, "--most", "20", "--osd-most", "2"]),
        ):
            whole = [sys.executable, str(TOP / "tools" / "rekhuso"), *words, "--program", path]
            run: Callable[[], object] = lambda whole=whole: subprocess.run(  # type: ignore[misc]
                whole, capture_output=True, timeout=LIMIT, check=False
            )
            found.append([f"the command `{name}`", "", cost(starts, run)[1]])
    return found


def look_rows(path: str) -> list[list[Any]]:
    """All rows."""
    program, starts = pathlib.Path(path), Starts()
    counted = mock.patch.object(Monitor, "_started", lambda *given: starts.started(*given))
    with mock.patch.object(lease, "settle"), counted:
        world = StandIn(program)
        engine = CarryEngine(EngineWish(program, None, PartWords(None, 2, None), "groups", LIMIT))
        snapshot = taken(world, False)
        with snapshot.files() as files:
            rows = command_rows(world, path, starts, engine.plan(snapshot, files))
        wish = CarryWish(False, "groups", False, CarryLimits(None, None, None))
        carrier = Carrier(world, engine, wish, lambda line: None)
        carrier.begin()
        rows.append(["a look that verifies, plans and gives", *cost(starts, carrier.look)])
        world.work(4)
        rows.append(["a look that verifies and gives more", *cost(starts, carrier.look)])
        while carrier.record.state.state != "quiet":
            world.work(4)
            carrier.look()
        rows.append(["a look that finds all quiet", *cost(starts, carrier.look)])
        carrier.end()
    return rows


def looks(path: str) -> None:
    """The table of looks."""
    heading("What a look costs")
    table(COLUMNS, look_rows(path))
