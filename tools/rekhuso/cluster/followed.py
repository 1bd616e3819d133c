"""Sessions that stay open and follow a cluster by changes, so that the program is begun once and not for each question.

Opening a map is nearly all that a question costs. A map that differs from one that is open in exceptions alone is
reached from there by one change. What a session has is read from the session itself.
"""

from __future__ import annotations

import contextlib
import hashlib
from collections.abc import Iterator
from contextvars import ContextVar

from ..faults import Refused, Trouble
from ..program.maps import Change, Exceptions, Map, Program, altered, entries_of, written
from ..program.monitor import Monitor
from .conversion import monitor_of

# The keys of a change and of a map that have exceptions.
KEYS = (("upmap", "pg_upmap"), ("items", "pg_upmap_items"))
# How many changes a session is given at most: fewer than its journal has room for.
MOST_CHANGES = 65_000


def exceptions_between(now: Exceptions, value: Exceptions) -> Change:
    """The parts of a change that leads from the exceptions of a map to those of another."""
    found: Change = {}
    for word, key in KEYS:
        was, wanted = dict(entries_of(now, key)), dict(entries_of(value, key))
        found[f"old_{word}"] = [group for group in was if group not in wanted]
        found[f"new_{word}"] = [[group, own] for group, own in wanted.items() if was.get(group) != own]
    return found


def sum_beside_exceptions(value: Map) -> str:
    """The sum of all of a map but its exceptions and its epoch."""
    return hashlib.sha256(written(altered(value, epoch=1, pg_upmap=[], pg_upmap_items=[])).encode()).hexdigest()


class Follower:
    """A session that is open: the map that it had when it was lent last, and its epochs at the beginning and then."""

    def __init__(self, value: Map, program: Program) -> None:
        """Opens one over a map."""
        self.monitor, self.value = monitor_of(value, program, True), value
        try:
            self.first = self.epoch = self.monitor.epoch()
        except BaseException:
            self.kill()
            raise

    def has_room(self, changes: int) -> bool:
        """Whether it has room for so many changes, and one that brings it to its map."""
        return self.epoch - self.first + changes < MOST_CHANGES

    def bring(self, value: Map) -> None:
        """Brings it to a map that differs in exceptions alone."""
        now = self.value if self.monitor.epoch() == self.epoch else self.monitor.dump()
        change = exceptions_between(now, value)
        if any(change.values()):
            self.monitor.change(None, **change)
        self.value, self.epoch = value, self.monitor.epoch()

    def kill(self) -> None:
        """Ends it at once."""
        self.monitor.__exit__(Trouble)


class Followed:
    """The sessions that are open, by the sums of their maps."""

    def __init__(self) -> None:
        """Has none."""
        self.open: dict[str, Follower] = {}
        self.used: set[str] = set()

    def brought(self, key: str, value: Map, program: Program, changes: int) -> Follower:
        """A session over a map that has room for some changes: one that is open, or a new one where there is none, or
        it has ended meanwhile.
        """
        own = self.open.pop(key, None)
        if own is not None:
            try:
                own.bring(value)
                if own.has_room(changes):
                    return own
            except (Trouble, Refused):
                pass
            except BaseException:
                own.kill()
                raise
            own.kill()
        return Follower(value, program)

    @contextlib.contextmanager
    def over(self, value: Map, program: Program, changes: int) -> Iterator[Monitor]:
        """A session over a map, which stays open unless something fails in the block."""
        key = sum_beside_exceptions(value)
        own = self.brought(key, value, program, changes)
        try:
            yield own.monitor
        except BaseException:
            own.kill()
            raise
        self.open[key] = own
        self.used.add(key)

    def close_unused(self) -> None:
        """Ends the sessions that were not used since this was done last."""
        for key in self.open.keys() - self.used:
            self.open.pop(key).kill()
        self.used.clear()

    def close(self) -> None:
        """Ends all sessions."""
        self.used.clear()
        self.close_unused()


# The sessions that are open where something is done; none where each question has one of its own.
FOLLOWED: ContextVar[Followed | None] = ContextVar("FOLLOWED", default=None)


@contextlib.contextmanager
def following(own: Followed) -> Iterator[None]:
    """Has questions of a `with` go to sessions that stay open."""
    token = FOLLOWED.set(own)
    try:
        yield
    finally:
        FOLLOWED.reset(token)


@contextlib.contextmanager
def session_over(value: Map, program: Program, changes: int | None = None) -> Iterator[Monitor]:
    """A session over a map, with room for some changes, if any are to be made. Where none stay open it ends with the
    block.
    """
    own = FOLLOWED.get()
    if own is None:
        with monitor_of(value, program, None if changes is None else True) as monitor:
            yield monitor
    else:
        with own.over(value, program, changes or 0) as monitor:
            yield monitor
