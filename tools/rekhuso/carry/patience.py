"""For how long a judgement may take, and that a signal may end it."""

from __future__ import annotations

import signal
from collections.abc import Iterator
from contextlib import contextmanager
from types import FrameType
from typing import NoReturn

from ..faults import Trouble


class Interrupted(Trouble):
    """A judgement that takes longer than it may, or that is ended by a signal."""


# One entry for each judgement that is at work, none where none is.
AT_WORK: list[float] = []


@contextmanager
def within(seconds: float) -> Iterator[None]:
    """Ends what is done here, where it takes longer than some seconds. It is for the main thread alone."""

    def ended(_: int, __: FrameType | None) -> NoReturn:
        """Ends it."""
        raise Interrupted(f"judging takes longer than {seconds:g} seconds")

    before = signal.signal(signal.SIGALRM, ended)
    signal.setitimer(signal.ITIMER_REAL, seconds)
    AT_WORK.append(seconds)
    try:
        yield
    finally:
        AT_WORK.clear()
        signal.setitimer(signal.ITIMER_REAL, 0)
        signal.signal(signal.SIGALRM, before)


def interrupt() -> None:
    """Ends the judgement that is at work, if one is: it is for a signal's handler."""
    if AT_WORK:
        AT_WORK.clear()
        raise Interrupted("a signal has ended the judgement")
