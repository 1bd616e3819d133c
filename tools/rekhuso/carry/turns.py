"""That a carrier gives while nobody else does: the lock that all givers of a cluster take, and what one has left by
half.
"""

from __future__ import annotations

import json
from collections.abc import Iterator
from contextlib import contextmanager

from ..cluster.connections import Answer, Connection
from ..cluster.giver_lock import GiverLock
from ..faults import Fault, Wait
from ..plans.begun_note import begun_in
from ..together import Stop
from .connection import CarryConnection
from .states import NoAnswer, Waiting


class MonCommands:
    """What librados' Python does for a giver, by the connection of a carrier."""

    def __init__(self, own: CarryConnection) -> None:
        """Takes that connection."""
        self.own = own

    def mon_command(self, text: str, _: bytes, timeout: int) -> Answer:
        """The status, the answer and the reason of a command."""
        found = self.own.reply(json.loads(text))
        return found.status, found.output, found.words


class AsGiver(Connection):
    """The connection of a carrier as givers have theirs; which monitor leads it does not ask."""

    def __init__(self, own: CarryConnection) -> None:
        """Takes that connection."""
        self.rados = MonCommands(own)


@contextmanager
def turn(connection: CarryConnection, what: str) -> Iterator[GiverLock]:
    """The lock of all givers, for as long as something is given. Waiting where another one gives, or has left something
    by half.
    """
    own = AsGiver(connection)
    try:
        note = begun_in(own)
        if note is not None:
            raise Waiting("begun", f"{note.name} is given by half: give it again, or take it back")
        lock = GiverLock(own, what)
        lock.take()
    except Stop as fault:
        raise NoAnswer(str(fault)) from None
    except Wait as fault:
        raise fault if isinstance(fault, Waiting) else Waiting("giver", str(fault)) from None
    try:
        yield lock
    finally:
        lock.leave()


def check_turn(lock: GiverLock) -> None:
    """Waiting where the lock is lost."""
    try:
        lock.check()
    except (Stop, Fault) as fault:
        raise Waiting("giver", str(fault)) from None
