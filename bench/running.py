"""How the benches run the program and measure: times, instructions, peak memory; and how they print what they found,
and keep it.

Every run has a limit of time. What cannot be measured is a row too, which says why: `past 60 s`, `no valgrind`, `no
cc`. A goal stands beside what it is for, with `met` or `missed`.
"""

from __future__ import annotations

import datetime
import json
import os
import re
import shutil
import signal
import statistics
import subprocess
import sys
import tempfile
import threading
import time
from collections.abc import Callable, Sequence
from typing import Any

import paste
from machine import processor

HAS_VALGRIND = shutil.which("valgrind") is not None

# The seconds that one run may take, and one under valgrind.
LIMIT, COUNTED_LIMIT = 60, 1200


class Absent(Exception):
    """What a measure needs is not on this machine."""


class Folder:
    """The files of some runs of the program."""

    def __init__(self, program: Any, folder: Any) -> None:
        self.program, self.folder, self.count, self.stock = os.path.abspath(program), folder, 0, set[str]()

    def file(self, text: Any) -> Any:
        """A new file with a text."""
        self.count += 1
        path = os.path.join(self.folder, f"file-{self.count}")
        with open(path, "w", encoding="utf-8") as out:
            out.write(text)
        return path

    def value(self, value: Any) -> Any:
        """A new file with a value as JSON."""
        return self.file(json.dumps(value, separators=(",", ":")))

    def map(self, stated: Any) -> Any:
        """A file with a map."""
        path = self.value(stated)
        if any(bucket["kind"] == "straw2" for bucket in stated["buckets"]):
            self.stock.add(path)
        return path

    def words(self, stated: Any, *scripts: Any) -> Any:
        """The words of a run over a map, by its file, with some scripts' texts and room for all changes."""
        taken = ["--stock"] if stated in self.stock else []
        return [self.program, *taken, "--journal", "65536", stated] + [self.file(script) for script in scripts]

    def compiled(self, source: Any, name: str) -> Any:
        """The program of a C source, by its path, at the compiler's usual speed."""
        if shutil.which("cc") is None:
            raise Absent("no cc")
        made = os.path.join(self.folder, name)
        subprocess.run(["cc", "-O2", "-x", "c", "-o", made, source], check=True, timeout=LIMIT)
        return made


def program(usage: str) -> Any:
    """The path of the program, which is the first word of the command line; without one the run ends, and says how
    it is used."""
    if len(sys.argv) < 2 or sys.argv[1].startswith("-"):
        sys.exit(usage.strip())
    return program_at(sys.argv[1])


def program_at(path: Any) -> Any:
    """The path of a program; where there is none, the run ends."""
    if not os.access(path, os.X_OK) or os.path.isdir(path):
        sys.exit(f"{path} is no program: `make run` proves and builds crates/osdmapd/out/osdmapd")
    return path


def in_folder(program: Any, work: Callable[..., Any]) -> Any:
    """What some work answers that is given a folder for runs of a program."""
    with tempfile.TemporaryDirectory() as folder:
        return work(Folder(program, folder))


# Limits, medians and goals


def found(measure: Callable[..., Any], *given: Any) -> Any:
    """What some work measures; or why it cannot, in words that stand in its place."""
    try:
        return measure(*given)
    except subprocess.TimeoutExpired as fault:
        return f"past {fault.timeout:.0f} s"
    except Absent as fault:
        return str(fault)
    except subprocess.CalledProcessError as fault:
        return f"ended with status {fault.returncode}"
    except OSError as fault:
        return f"failed: {fault.strerror}"


def several(measure: Callable[..., Any], runs: int = 5, of: Any = min) -> Any:
    """The best of some runs of a measure, or their median."""
    return of([measure() for _ in range(runs)])


def median(measure: Callable[..., Any], runs: int = 5) -> Any:
    """The median of some runs of a measure."""
    return several(measure, runs, statistics.median)


def ratio(one: Any, other: Any) -> Any:
    """One measure to another; where one of them is none, why not."""
    return next((why for why in (one, other) if isinstance(why, str)), None) or one / other


def judged(value: Any, goal: Any, at_least: bool = False) -> list[Any]:
    """A goal beside what was found, which may be several values, and whether all of them meet it. A run past its
    limit misses it."""
    if goal is None:
        return ["", ""]
    values = value if isinstance(value, list) else [value]
    measured = [one for one in values if not isinstance(one, str)]
    if len(measured) < len(values):
        return [told(goal), "missed" if any(str(one).startswith("past ") for one in values) else "not measured"]
    is_met = all(one >= goal if at_least else one <= goal for one in measured)
    return [told(goal), "met" if is_met else "missed"]


# Runs


def output(words: Any) -> Any:
    """What a run puts out, by lines, without the heading of its one session."""
    return subprocess.run(words, stdout=subprocess.PIPE, text=True, check=True, timeout=LIMIT).stdout.splitlines()[1:]


def once(words: Any, source: Any = subprocess.DEVNULL) -> Any:
    """The time of one run, with its input from somewhere. A timer ends a run that is past its limit: where Python
    itself waits with a limit, it looks for the end at ever longer intervals, up to 50 ms, and these would be
    measured."""
    begin = time.perf_counter()
    with subprocess.Popen(words, stdin=source, stdout=subprocess.DEVNULL) as run:
        late = threading.Timer(LIMIT, run.kill)
        late.start()
        run.wait()
        spent = time.perf_counter() - begin
        late.cancel()
    if run.returncode == -signal.SIGKILL:
        raise subprocess.TimeoutExpired(words, LIMIT)
    if run.returncode != 0:
        raise subprocess.CalledProcessError(run.returncode, words)
    return spent


def seconds(words: Any, runs: int = 5) -> Any:
    """The time of a run, the best of some."""
    return several(lambda: once(words), runs)


def instructions(words: Any, inside: Any = None) -> Any:
    """The instructions of a run; where a pattern is given, those of the functions of such names and of all that they
    call."""
    if not HAS_VALGRIND:
        raise Absent("no valgrind")
    # A filling that repeats one instruction is counted byte by byte; without it as many instructions as are run.
    honest = {**os.environ, "GLIBC_TUNABLES": "glibc.cpu.x86_rep_stosb_threshold=10000000"}
    inside = [f"--toggle-collect={inside}"] if inside else []
    done = subprocess.run(
        ["valgrind", "--tool=callgrind", "--callgrind-out-file=/dev/null"] + inside + words,
        stdout=subprocess.DEVNULL,
        stderr=subprocess.PIPE,
        text=True,
        check=True,
        timeout=COUNTED_LIMIT,
        env=honest,
    )
    return int(re.findall(r"Collected : (\d+)", done.stderr)[0])


def piped(words: Any) -> Any:
    """A program that is started with its standard input and output as pipes."""
    return subprocess.Popen(words, stdin=subprocess.PIPE, stdout=subprocess.PIPE)


def watched(words: Any) -> tuple[Any, Any]:
    """What a run puts out, and the most bytes that it had in memory at once. It must put out more than a pipe holds:
    the program writes when all is done, and is looked at while it waits for its reader."""
    with subprocess.Popen(words, stdin=subprocess.DEVNULL, stdout=subprocess.PIPE) as run:
        late = threading.Timer(LIMIT, run.kill)
        late.start()
        assert run.stdout
        begin = run.stdout.read(1)
        with open(f"/proc/{run.pid}/status", encoding="utf-8") as text:
            most = re.search(r"^VmHWM:\s+(\d+) kB", text.read(), re.M)
        said = begin + run.stdout.read()
        late.cancel()
    if run.returncode == -signal.SIGKILL:
        raise subprocess.TimeoutExpired(words, LIMIT)
    if run.returncode != 0 or most is None:
        raise subprocess.CalledProcessError(run.returncode, words)
    return said.decode(), int(most.group(1)) * 1024


def peak(words: Any) -> Any:
    """The most bytes that a run had in memory at once, by `watched`."""
    return watched(words)[1]


ASKED = (
    "import resource, subprocess, sys; "
    "subprocess.run(sys.argv[1:], stdout=subprocess.DEVNULL, stderr=subprocess.DEVNULL); "
    "print(resource.getrusage(resource.RUSAGE_CHILDREN).ru_maxrss)"
)


def greatest(words: Any) -> Any:
    """The most bytes that a run had in memory at once, however it ends, of more than ten million. A small process
    asks, since the system counts with a run what its parent held."""
    return (
        int(
            subprocess.run(
                [sys.executable, "-c", ASKED] + words, stdout=subprocess.PIPE, check=True, timeout=LIMIT
            ).stdout
        )
        * 1024
    )


def held(words: Any) -> Any:
    """The most bytes that a run had asked for at once."""
    if not HAS_VALGRIND:
        raise Absent("no valgrind")
    done = subprocess.run(
        ["valgrind", "--tool=dhat", "--dhat-out-file=/dev/null"] + words,
        stdout=subprocess.DEVNULL,
        stderr=subprocess.PIPE,
        text=True,
        check=True,
        timeout=COUNTED_LIMIT,
    )
    return int(re.findall(r"At t-gmax:\s+([\d,]+) bytes", done.stderr)[0].replace(",", ""))


# Tables

BEGUN: dict[str, Any] = {}


def heading(text: Any) -> None:
    """The heading of a table, with the machine, and the time and the load at which it was begun."""
    where = f"{os.cpu_count()} cores, {processor()}"
    measured = f"Measured {datetime.datetime.now():%Y-%m-%d %H:%M}, {where}, load {os.getloadavg()[0]:.1f}."
    BEGUN.update(heading=text, measured=measured)
    print(f"\n### {text}\n\n{measured}\n", flush=True)


def told(cell: Any) -> Any:
    """A cell as text: of a number more digits where it is small."""
    if isinstance(cell, str):
        return cell
    return f"{cell:,}" if isinstance(cell, int) else f"{cell:,.{2 if abs(cell) < 100 else 0}f}"


def table(columns: Sequence[Any], rows: Any) -> None:
    """Prints a table, each row as soon as it is known; what a row has no cells for stays empty. A whole table is
    kept."""
    lines = []

    def put(line: Any) -> None:
        print(line, flush=True)
        lines.append(f"{line}\n")

    put("| " + " | ".join(columns) + " |")
    put("|---" + "|--:" * (len(columns) - 1) + "|")
    for row in rows:
        put("| " + " | ".join(map(told, row + [""] * (len(columns) - len(row)))) + " |")
    paste.keep(BEGUN["heading"], f"{BEGUN['measured']}\n\n{''.join(lines)}")


def row(name: str, measure: Callable[..., Any], *given: Any) -> list[Any]:
    """A row: what it is, and the cells that some work measures, or why it cannot."""
    cells = found(measure, *given)
    return [name, *(cells if isinstance(cells, list) else [cells])]


GOALS = ["what", "it takes", "", "goal", ""]


def goal_row(name: str, measure: Callable[..., Any], unit: str, goal: Any, at_least: bool = False) -> list[Any]:
    """A row of a table of `GOALS`."""
    value = found(measure)
    return [name, value, unit, *judged(value, goal, at_least)]
