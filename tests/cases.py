"""What all tests stand on: the program that is tested, and what a failure tells, with the command that runs it
alone."""

from __future__ import annotations

import contextlib
import functools
import json
import os
import pathlib
import shlex
import sys
import unittest
from collections.abc import Callable, Iterable, Iterator
from typing import Any, AnyStr

from tests.runs import Check, Run, outcomes

HERE = pathlib.Path(__file__).resolve().parent
TOP = HERE.parent
EXAMPLES = TOP / "examples"
EXAMPLE = EXAMPLES / "map.json"
BUILT = TOP / "crates" / "osdmapd" / "out" / "osdmapd"
# Why a test is passed over of which no row is chosen.
NO_ROW = "no row of this name"
# So many characters of a value are told, from a few before the place where it differs.
SHOWN, BEFORE = 400, 80

__unittest = True  # unittest leaves out what stands in this module where it tells the lines of a failure.


@functools.lru_cache(None)
def program() -> pathlib.Path:
    """The program that is tested: the one that OSDMAPD names, or else the one that `make run` builds here."""
    path = pathlib.Path(os.environ.get("OSDMAPD", BUILT)).resolve()
    if path.is_dir() or not os.access(path, os.X_OK):
        raise FileNotFoundError(f"{path} is no program: `make run` proves and builds it, and OSDMAPD names another")
    return path


def differing(got: object, expected: object) -> str:
    """Two values that differ, each in a line; of long ones what stands round the place where they differ."""
    texts = repr(expected), repr(got)
    start = max(0, len(os.path.commonprefix(texts)) - BEFORE)
    ends = ["..." * (len(text) > start + SHOWN) for text in texts]
    shown = ["..." * (start > 0) + text[start : start + SHOWN] + end for text, end in zip(texts, ends)]
    return f"expected {shown[0]}\n     got {shown[1]}"


def with_note(test: Callable[["Case"], None]) -> Callable[["Case"], None]:
    """A test whose failure tells how to run it alone."""

    @functools.wraps(test)
    def noted(self: "Case") -> None:
        with self.noting():
            test(self)

    return noted


class Case(unittest.TestCase):
    """Tests of one subject."""

    # Whether nothing else may run meanwhile: where sessions wait for one another, or a test fills the processors
    # itself.
    is_alone = False
    # Whether ROW chooses rows of the tests.
    has_rows = False
    # Whether these are tests of form: they look at sources, pages and figures alone, and need no program.
    is_form = False
    # The variables that name the programs which are tested.
    PROGRAMS: tuple[str, ...] = ("OSDMAPD",)

    def __init_subclass__(cls) -> None:
        for name, test in list(vars(cls).items()):
            if name.startswith("test_"):
                setattr(cls, name, with_note(test))

    @property
    def program(self) -> pathlib.Path:
        """The program that is tested."""
        return program()

    def alone(self, row: str | None = None) -> str:
        """The command that runs this test alone, or one row of it."""
        given = {**{name: os.environ.get(name) for name in self.PROGRAMS}, "ROW": row}
        words = [f"{name}={shlex.quote(value)}" for name, value in given.items() if value]
        return " ".join(["alone:", *words, "python3 -m unittest", self.id()])

    def needs(self, what: str, is_there: bool) -> None:
        """Passes over a test that asks for something beside Python, where that is not there."""
        if not is_there:
            self.skipTest(f"there is no {what}")

    @contextlib.contextmanager
    def noting(self, row: str | None = None) -> Iterator[None]:
        """Has a failure say how to run it alone."""
        try:
            yield
        except unittest.SkipTest:
            raise
        except Exception as fault:
            if sys.version_info >= (3, 11) and not hasattr(fault, "__notes__"):
                fault.add_note(self.alone(row))
            raise

    @contextlib.contextmanager
    def subTest(self, msg: Any = None, **params: Any) -> Iterator[None]:
        """A row of a test: the rows behind one that fails are run too."""
        given = params if msg is None else {"msg": msg, **params}
        with super().subTest(**given), self.noting(msg):
            yield

    def assertEqual(self, first: Any, second: Any, msg: Any = None) -> None:
        """Asks that what came is what was expected."""
        if first != second:
            raise self.failureException("\n".join([str(msg)] * (msg is not None) + [differing(first, second)]))

    def assertStarts(self, text: AnyStr, beginning: AnyStr | tuple[AnyStr, ...], msg: Any = None) -> None:
        """Asks that a text begins so."""
        self.assertTrue(
            text.startswith(beginning), f"expected to begin with {beginning!r}, got {text[:SHOWN]!r}: {msg}"
        )

    def assertEnds(self, text: AnyStr, end: AnyStr, msg: Any = None) -> None:
        """Asks that a text ends so."""
        self.assertTrue(text.endswith(end), f"expected to end with {end!r}, got {text[-SHOWN:]!r}: {msg}")


class RowCase(Case):
    """Tests with a row a run of the program, of which ROW chooses those with a text in their names. They are run four
    at a time."""

    is_alone = True
    has_rows = True

    def check_runs(self, runs: Iterable[Run | Check]) -> None:
        """Asks that each chosen run is as it is wanted."""
        chosen = [run for run in runs if os.environ.get("ROW", "") in run.name]
        if not chosen:
            self.skipTest(NO_ROW)
        for run, found in outcomes(chosen, self.program):
            with self.subTest(run.name):
                if found:
                    self.fail("\n".join(["", *[run.place] * bool(run.place), *found]))


def example() -> Any:
    """The map of the first example."""
    return json.loads(EXAMPLE.read_text())
