#!/usr/bin/env python3
"""Runs all tests of this folder over the built program, as `make runs` does, or those of form, as `make form` does.

    tests/run.py [--total] [--table NAME] [--only TEXT] [--long] PROGRAM [STORE]
    tests/run.py --form [--total] [--table NAME] [--only TEXT]

PROGRAM is `osdmapd`, and STORE `osdmapstore`, whose tests are told as NOT RUN where it is not there. Tests of form look
at sources, pages, figures and types, and need no program.
A line is put out for each table and for each other module of tests: how many runs it had, how many passed and how many
were not run, and how long they took. A run is a row of a test, or a test without rows. What is being run is told on
standard error meanwhile. The tests of the tools are run four at a time. Behind them come, one by one, those that fill
the processors themselves or must be alone. Where runs have failed, their tests are named at the end, and the status is
1. It is 2 where no test and no row has the text.
"""

from __future__ import annotations

import argparse
import compileall
import os
import pathlib
import queue
import sys
import threading
import unittest
from collections.abc import Iterable, Iterator
from concurrent.futures import ThreadPoolExecutor, as_completed
from types import TracebackType
from typing import Any

TOP = pathlib.Path(__file__).resolve().parent.parent
sys.path[:] = [str(TOP), *(path for path in sys.path if path != str(TOP / "tests"))]

from tests.cases import Case  # noqa: E402
from tests.runs import AT_ONCE  # noqa: E402
from tests.workers import Outcome, Worker, cases_of  # noqa: E402

# What the tests of form find in place of a program, so that none of them asks for one.
NO_PROGRAM = "/nonexistent/osdmapd"


def group_of(name: str) -> str:
    """The table, or else the module, that a test is of: `tests.tables.Tables.test_worked` is of `worked`."""
    _, module, *_, test = name.split(".")
    return test.removeprefix("test_") if module == "tables" else module


class Shown:
    """Tells what is being run: on a terminal in one line that is written anew, else in a line now and then."""

    def __init__(self) -> None:
        self.now, self.done, self.is_terminal, self.ended = "", 0, sys.stderr.isatty(), threading.Event()

    def __enter__(self) -> Shown:
        threading.Thread(target=self.tell_all, daemon=True).start()
        return self

    def __exit__(self, kind: type[BaseException] | None, fault: BaseException | None, at: TracebackType | None) -> None:
        self.ended.set()
        self.clear()

    def row(self, name: str) -> None:
        """Counts a row that is done."""
        self.done, self.now = self.done + 1, name

    def tell_all(self) -> None:
        """Tells what is being run, until all is done."""
        while not self.ended.wait(0.2 if self.is_terminal else 30):
            text = f"{self.done:,} runs are done; now: {self.now}"
            line = f"\r{text[:100]}\x1b[K" if self.is_terminal else f"{text[:300]}\n"
            print(line, end="", file=sys.stderr, flush=True)

    def clear(self) -> None:
        """Takes the line away that was told, so that another can be put out."""
        if self.is_terminal:
            print("\r\x1b[K", end="", file=sys.stderr, flush=True)

    def print(self, *lines: str) -> None:
        """Puts lines out."""
        self.clear()
        print(*lines, sep="\n", flush=True)


class Summary:
    """What came of all tests, and how many of each group are still to come."""

    def __init__(self, names: Iterable[str], most: int, shown: Shown) -> None:
        self.most, self.shown, self.passed, self.failed, self.told = most, shown, 0, 0, 0
        self.groups: dict[str, list[Outcome]] = {}
        self.wrong: dict[str, int] = {}
        self.left = [group_of(name) for name in names]

    def take(self, own: Outcome) -> None:
        """Takes what came of a test; where it was the last of its group, the group is told."""
        group = group_of(own.name)
        self.left.remove(group)
        self.groups.setdefault(group, []).append(own)
        if own.failed:
            self.wrong[own.name] = len(own.failed)
        if group not in self.left:
            self.tell(group, [one for one in self.groups[group] if one.is_chosen])

    def tell(self, group: str, tests: list[Outcome]) -> None:
        """Tells what came of a group."""
        failed = [text for own in tests for text in own.failed]
        runs, not_run = sum(own.runs for own in tests), [own for own in tests if own.not_run]
        self.passed, self.failed = self.passed + runs - len(failed), self.failed + len(failed)
        self.told += len(tests)
        if tests:
            lacking = f", {len(not_run)} NOT RUN" if not_run else ""
            seconds = sum(own.seconds for own in tests)
            line = f"{group}: {runs - len(failed)} of {runs} runs passed{lacking} ({seconds:.1f} s)"
            reasons = [f"{group}: NOT RUN, since {own.not_run}: {own.about}" for own in not_run]
            self.shown.print(*failed[: self.most], line, *reasons)

    def end(self) -> Iterator[str]:
        """Lines that name each test that has failed, with how many of its runs have."""
        if self.wrong:
            yield f"FAILED: {self.failed} runs, of these tests (`python3 -m unittest NAME` runs one alone):"
            yield from (f"    {name}: {count}" for name, count in sorted(self.wrong.items()))


def chosen(tests: Iterable[Case], only: str) -> list[tuple[Case, str]]:
    """The tests that have a text in their names, whole, and those whose rows may have it, with the text that chooses
    rows."""
    found = []
    for test in tests:
        is_named = only in f"{test.id()} {test.shortDescription()}"
        if is_named or getattr(test, "has_rows", False):
            found.append((test, "" if is_named else only))
    return found


def run_all(tests: list[tuple[Case, str]], summary: Summary, shown: Shown) -> None:
    """Runs tests, each in a process that is not this one: some at a time those that bear it, and behind them the others
    one by one."""
    workers = [Worker() for _ in range(AT_ONCE)]
    free: queue.SimpleQueue[Worker] = queue.SimpleQueue()
    going: dict[str, None] = {}

    def beside(name: str) -> Outcome:
        """What comes of a test beside others."""
        worker, going[name] = free.get(), None
        try:
            return worker.outcome(name, "", lambda row: None)
        finally:
            del going[name]
            free.put(worker)

    for worker in workers:
        free.put(worker)
    pool = ThreadPoolExecutor(AT_ONCE)
    try:
        names = [test.id() for test, _ in tests if not getattr(test, "is_alone", False)]
        for future in as_completed([pool.submit(beside, name) for name in names]):
            shown.row("; ".join(list(going)))
            summary.take(future.result())
        for test, row in tests:
            if getattr(test, "is_alone", False):
                shown.now = test.id()
                summary.take(workers[0].outcome(test.id(), row, shown.row))
    finally:
        pool.shutdown(wait=False, cancel_futures=True)
        for worker in workers:
            worker.end()


def options_of() -> argparse.Namespace:
    """What the command line says; it ends this where that means nothing."""
    parser = argparse.ArgumentParser(description=__doc__, formatter_class=argparse.RawDescriptionHelpFormatter)
    parser.add_argument("program", nargs="?", type=pathlib.Path)
    parser.add_argument("store", nargs="?", type=pathlib.Path, help="the program over a store")
    parser.add_argument("--form", action="store_true", help="only the tests of form, which need no program")
    parser.add_argument("--long", action="store_true", help="also the tests that take minutes")
    parser.add_argument("--total", action="store_true", help="end with a line 'N passed, M failed'")
    parser.add_argument("--only", default="", help="only tests and rows whose name has this text")
    parser.add_argument("--table", action="append", help="only this table or module")
    parser.add_argument("--show", type=int, default=10, help="how many failed runs of a table are shown")
    options = parser.parse_args()
    if (options.program is None) != options.form:
        parser.error("give the program, or --form for the tests that need none")
    if options.program and not os.access(options.program, os.X_OK):
        parser.error(f"there is no program at {options.program}: `make run` proves and builds it")
    return options


def set_variables(options: argparse.Namespace) -> None:
    """Sets what tells the tests what they are run over."""
    os.environ["OSDMAPD"] = NO_PROGRAM if options.form else str(options.program.resolve())
    if options.store:
        os.environ["OSDMAPSTORE"] = str(options.store.resolve())
    if options.long:
        os.environ["LONG"] = "1"


def main() -> int:
    """Runs what the command line chooses; the status."""
    options = options_of()
    set_variables(options)
    found: Any = [*cases_of(unittest.defaultTestLoader.discover(str(TOP / "tests"), "*.py", str(TOP)))]
    found = [test for test in found if not options.form or getattr(test, "is_form", False)]
    unknown = set(options.table or ()) - {group_of(test.id()) for test in found}
    if unknown:
        print(f"run.py: there is no table or module {', '.join(sorted(unknown))}", file=sys.stderr)
        return 2
    tests = chosen((test for test in found if not options.table or group_of(test.id()) in options.table), options.only)
    # Else each command of the tools would compile them anew.
    compileall.compile_dir(TOP / "tools" / "rekhuso", quiet=2)
    with Shown() as shown:
        summary = Summary((test.id() for test, _ in tests), options.show, shown)
        run_all(tests, summary, shown)
    print(*summary.end(), sep="\n", end="\n" if summary.wrong else "")
    if options.total:
        print(f"{summary.passed} passed, {summary.failed} failed")
    if not summary.told:
        print(f"run.py: no test and no row has {options.only!r} in its name", file=sys.stderr)
        return 2
    return 1 if summary.failed else 0


if __name__ == "__main__":
    sys.exit(main())
