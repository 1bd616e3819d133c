"""What belongs to one run: a command, or a call of the library. Each thread has its own, so that what one is told no
other hears.
"""

from __future__ import annotations

import contextlib
from collections.abc import Callable, Iterator
from contextvars import ContextVar
from typing import Any, Dict

Told = Callable[[str], None]
Object = Dict[str, Any]


class Run:
    """A run: who hears what it tells beside its answer, and who gets the object that is its answer; what it does at
    present; how many objects it has told, the lines that it tells once, the pipes that it has read, and what it has
    made of them.
    """

    def __init__(self, hear: Told, take: Callable[[Object], None]) -> None:
        """A run that has told nothing yet."""
        self.hear, self.take, self.doing, self.count = hear, take, "", 0
        self.once: set[str] = set()
        self.pipes: dict[str, bytes] = {}
        self.made: dict[object, Any] = {}


# The run in which something is done; none where a caller of Python asks for single things.
RUN: ContextVar[Run | None] = ContextVar("RUN", default=None)


@contextlib.contextmanager
def running(run: Run) -> Iterator[Run]:
    """Has a run be the one of what is done in a `with`."""
    token = RUN.set(run)
    try:
        yield run
    finally:
        RUN.reset(token)


def tell(line: object) -> None:
    """Tells a line beside the answer of the run; nobody hears it where there is none."""
    run = RUN.get()
    if run is not None:
        run.hear(str(line))


def tell_once(line: str) -> None:
    """The same, of a line that a run tells once."""
    run = RUN.get()
    if run is not None and line not in run.once:
        run.once.add(line)
        run.hear(line)


def doing(words: str) -> None:
    """The run does something else from now on."""
    run = RUN.get()
    if run is not None:
        run.doing = words


def put_object(value: Object) -> None:
    """Puts out an object as the answer of the run; a fault of the tools where there is none."""
    run = RUN.get()
    assert run is not None, "an object, and nobody who takes it"
    run.count += 1
    run.take(value)


def has_object() -> bool:
    """Whether the run has told an object."""
    run = RUN.get()
    return run is not None and run.count > 0
