"""That one carrier alone is at work: a lease in the monitors, with an end, which is made longer as long as it is.

The monitors keep values, and compare none. So a lease is taken in two steps: it is written where nobody has one, and
read again once whoever has looked before that must have written too; who then finds another's has none. Who takes
longer than that to write begins again. Before commands are given it is read once more.
"""

from __future__ import annotations

import contextlib
import json
import os
import socket
import threading
import time
import uuid

from ..cluster.own_process import began, is_gone, place
from ..faults import Fault
from ..files import JsonObject
from .kept import LEASE, Keys
from .states import Halted, Waiting

# For how long a lease is, how often it is made longer, how long it takes until it is read again once it is written,
# and by how much clocks of two machines may differ, in seconds.
TERM, BEAT, SETTLED, CLOCKS = 60.0, 15.0, 2.0, 5.0
# What another carrier is called.
ANOTHER = "carrier"


def settle() -> None:
    """Waits until whoever has looked before has written too."""
    time.sleep(SETTLED)


class Lease:
    """The lease of a carrier."""

    def __init__(self, keys: Keys) -> None:
        """Has none yet."""
        self.keys, self.holder, self.ended = keys, uuid.uuid4().hex, threading.Event()
        self.until, self.lost = 0.0, ""

    def parts(self) -> JsonObject:
        """What it says of its carrier, from now on."""
        own = os.getpid()
        who = {"holder": self.holder, "host": socket.gethostname(), "pid": own, "began": began(own), "place": place()}
        return {**who, "until": time.time() + TERM}

    def another(self) -> JsonObject | None:
        """The lease of another carrier that is at work, if there is one."""
        found = self.keys.value(LEASE)
        if found is None or found.get("holder") == self.holder:
            return None
        until = found.get("until")
        if not isinstance(until, (int, float)) or until + CLOCKS < time.time():
            return None
        return None if is_gone(found.get("place"), found.get("pid"), found.get("began")) else found

    def check_alone(self) -> None:
        """Halted where another carrier is at work."""
        found = self.another()
        if found is not None:
            left = max(0, round(found["until"] - time.time()))
            who = f"{found.get('host')}, process {found.get('pid')}"
            raise Halted(ANOTHER, f"another carrier is at work: {who}, for {left} s more at least")

    def write(self) -> None:
        """Makes it longer."""
        begun = time.monotonic()
        self.keys.put(LEASE, json.dumps(self.parts()))
        self.until = begun + TERM

    def take(self) -> None:
        """Takes it. Halted where another carrier is at work, Waiting where the monitors are too slow for that."""
        for _ in range(3):
            begun = time.monotonic()
            self.check_alone()
            self.write()
            is_fast = time.monotonic() - begun < SETTLED / 2
            settle()
            self.check_own()
            if is_fast:
                return
        raise Waiting("slow", "the monitors take too long to write a key")

    def check_own(self) -> None:
        """Halted where it is another's, or nobody's; so it is asked for before anything is given."""
        found = self.keys.value(LEASE)
        if found is None or found.get("holder") != self.holder:
            self.lost = "the lease of this carrier was taken by another"
        if self.lost:
            raise Halted(ANOTHER, self.lost)
        if time.monotonic() > self.until - BEAT:
            raise Waiting("slow", "the lease of this carrier was not made longer in time")

    def renew(self) -> None:
        """Makes it longer, where it is still this carrier's."""
        found = self.keys.value(LEASE)
        if found is None or found.get("holder") != self.holder:
            self.lost = "the lease of this carrier was taken by another"
        else:
            self.write()

    def beat(self) -> None:
        """Makes it longer from time to time, until it is left or lost."""
        while not self.ended.wait(BEAT) and not self.lost:
            with contextlib.suppress(Fault, OSError):
                self.renew()

    def begin(self) -> None:
        """Takes it, and has it made longer meanwhile."""
        self.take()
        threading.Thread(target=self.beat, daemon=True).start()

    def leave(self) -> None:
        """Leaves it, where it is this carrier's."""
        self.ended.set()
        with contextlib.suppress(Fault, OSError):
            found = self.keys.value(LEASE)
            if found is not None and found.get("holder") == self.holder:
                self.keys.drop(LEASE)
