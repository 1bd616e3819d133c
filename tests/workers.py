"""Tests in processes of their own: what comes of each, also of one whose process is killed."""

from __future__ import annotations

import contextlib
import dataclasses
import os
import time
import unittest
from collections.abc import Callable, Iterator
from multiprocessing import get_context
from multiprocessing.connection import Connection
from multiprocessing.context import SpawnProcess
from typing import Any, Union

from tests.cases import NO_ROW


@dataclasses.dataclass
class Outcome:
    """What came of a test: how many runs it had, what tells of those that failed, and why it, or rows of it, were not
    run, if so."""

    name: str
    about: str
    runs: int
    failed: list[str]
    not_run: str
    seconds: float

    @property
    def is_chosen(self) -> bool:
        """Whether a row was chosen of it, if it has rows."""
        return self.not_run != NO_ROW or self.runs > 0


class Result(unittest.TestResult):
    """What comes of one test, with the number of its rows, each of which is told when it is done."""

    def __init__(self, tell: Callable[[str], None]) -> None:
        super().__init__()
        self.rows, self.tell = 0, tell

    def addSubTest(self, test: unittest.TestCase, subtest: unittest.TestCase, err: Any) -> None:
        """Takes a row that is done."""
        super().addSubTest(test, subtest, err)
        self.rows += 1
        self.tell(str(subtest))

    def all_failed(self) -> list[tuple[unittest.TestCase, str]]:
        """What has failed, and of each the text: also a test that is marked as one that fails, and does not."""
        surprises = [(case, "It is marked as one that fails, and has passed.") for case in self.unexpectedSuccesses]
        return [*self.failures, *self.errors, *surprises]


def cases_of(tests: unittest.TestSuite | unittest.TestCase) -> Iterator[unittest.TestCase]:
    """Each test of a suite."""
    if isinstance(tests, unittest.TestCase):
        yield tests
    else:
        for test in tests:
            yield from cases_of(test)


def outcome(name: str, tell: Callable[[str], None] = lambda row: None) -> Outcome:
    """What comes of a test."""
    result, begin = Result(tell), time.monotonic()
    test = unittest.defaultTestLoader.loadTestsFromName(name)
    about = next((str(case.shortDescription()) for case in cases_of(test)), "")
    test.run(result)
    wrong = result.all_failed()
    whole = sum(not hasattr(case, "test_case") for case, _ in wrong)
    texts = ["\n    ".join([f"FAILED: {case}", *text.splitlines()]) for case, text in wrong]
    not_run = result.skipped[0][1] if result.skipped else ""
    runs = result.rows + whole or int(not not_run)
    return Outcome(name, about, runs, texts, not_run, time.monotonic() - begin)


def work(lines: Connection) -> None:
    """What a process does: a test for each name and choice of rows that comes, telling each row that is done and then
    the outcome. It ends where nobody asks any more."""
    with contextlib.suppress(EOFError, KeyboardInterrupt, BrokenPipeError):
        while True:
            name, row = lines.recv()
            os.environ["ROW"] = row
            lines.send(outcome(name, lines.send))


class Worker:
    """A process that runs one test after the other. Where it is killed, the test that it had has failed, and the next
    one has a process anew."""

    def __init__(self) -> None:
        self.process: SpawnProcess | None = None
        self.lines: Any = None

    def start(self) -> None:
        """Starts a process, where there is none."""
        if self.process is None:
            context = get_context("spawn")
            self.lines, other = context.Pipe()
            # No daemon: a test may have processes of its own.
            self.process = context.Process(target=work, args=(other,))
            self.process.start()
            other.close()

    def outcome(self, name: str, row: str, tell: Callable[[str], None]) -> Outcome:
        """What comes of a test whose rows have a text in their names."""
        begin = time.monotonic()
        try:
            self.start()
            self.lines.send((name, row))
            while True:
                told: Union[str, Outcome] = self.lines.recv()
                if isinstance(told, Outcome):
                    return told
                tell(told)
        except (EOFError, ConnectionError):
            return Outcome(name, "", 1, [f"FAILED: {name}\n    {self.end()}"], "", time.monotonic() - begin)

    def end(self) -> str:
        """Ends the process: how it has ended."""
        process, self.process = self.process, None
        if process is None:
            return ""
        self.lines.close()
        process.join()
        code = process.exitcode or 0
        return f"its process has ended by signal {-code}" if code < 0 else f"its process has ended with status {code}"
